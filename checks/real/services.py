"""Random flows of version 2, and the meaning of their services."""
from collections.abc import Callable
from random import Random
from typing import TypeAlias

Pair: TypeAlias = tuple[str, str]  # two hosts
Listed: TypeAlias = tuple[str, str, list[str]]  # a flow with its services

PORTS = (0, 1, 22, 80, 443, 50000, 65535)
WHOLE = ('icmp', 'tcp', 'udp')
MOST = 16  # services of a flow


class Flows:
    """Flows between hosts of these names, with services of a short list for the whole network.

    Of each style are some: any services; those that a switch can do where there are no answers, which are single
    ports; and those that it can do with answers, where the way back has every port of each protocol.
    """

    def __init__(self, chance: Random, pairs: list[Pair]) -> None:
        self.chance, self.pairs = chance, pairs
        self.menu = [self.ranged(), *[self.any() for _ in range(chance.choice([2, 4, 7]))]]
        style = chance.choice([self.anyhow, self.anyhow, self.by_ports, self.covered])
        self.listed = style()

    def anyhow(self) -> list[Listed]:
        counts = self.chance.choice([[1], [0, 1, 1, 2], [1, 2, 3], [0, 1, 1, 4, MOST]])
        return [(a, b, self.some(self.menu, self.chance.choice(counts))) for a, b in self.pairs]

    def by_ports(self) -> list[Listed]:
        menu = [self.chance.choice(WHOLE), *[self.one() for _ in range(3)]]
        return [(a, b, self.some(menu, self.chance.choice([0, 1, 2, 4]))) for a, b in self.pairs]

    def covered(self) -> list[Listed]:
        """Returns pairs in both directions: unrestricted, or with the same protocols, and single ports of these."""
        listed: list[Listed] = []
        for a, b in sorted({(min(pair), max(pair)) for pair in self.pairs}):
            both = self.chance.sample(WHOLE, self.chance.choice([0, 1, 2, 3]))
            for one, other in ((a, b), (b, a)):
                more = [self.one(protocol) for protocol in both if protocol != 'icmp' and self.chance.random() < 0.5]
                listed.append((one, other, self.chance.sample(both + more, len(both + more))))
        return listed

    def some(self, menu: list[str], count: int) -> list[str]:
        return self.chance.choices(menu, k=count)

    def any(self) -> str:
        forms: list[Callable[[], str]] = [*[self.one] * 4, *[self.ranged] * 2, lambda: self.chance.choice(WHOLE)]
        return self.chance.choice(forms)()

    def number(self) -> int:
        near = self.chance.choice(PORTS) + self.chance.choice([-1, 0, 0, 1])
        return self.chance.choice([near, near, self.chance.randrange(2 ** 16)]) % 2 ** 16

    def protocol(self) -> str:
        return self.chance.choice(WHOLE[1:])

    def one(self, protocol: str | None = None) -> str:
        return f'{protocol or self.protocol()}/{self.number()}'

    def ranged(self) -> str:
        """Returns a range of ports: often all except one, all, or two."""
        low, high = sorted((self.number(), self.number()))
        low, high = self.chance.choice([(low, high), (low, low + 5), (low, low + 1), (0, high), (low, 65535)])
        return self.ranged() if not low < high < 2 ** 16 else f'{self.protocol()}/{low}-{high}'

    def text(self) -> str:
        texts = [', '.join(f'"{word}"' for word in (a, b, *services)) for a, b, services in self.listed]
        self.chance.shuffle(texts)
        return ', '.join(f'[{text}]' for text in texts)


def spelled(service: str) -> tuple[str, int, int]:
    """Returns the name of a service's protocol, and its first and last port."""
    protocol, _, ports = service.partition('/')
    low, _, high = ports.partition('-')
    return (protocol, int(low), int(high or low)) if ports else (protocol, 0, 65535)
