"""Networks and rules that a seed stands for, by families, of which the head of checks/bench/worse tells."""
import dataclasses
import random
from collections.abc import Iterator
from typing import Any

import hard
from descriptions import quoted, small_description

FAMILIES = ('widths', 'services', 'negations', 'jumps', 'policies', 'owners', 'addresses')
SHARES = (0., .1, .5, .9, 1.)
ALL_WIDTHS = tuple(range(1, 33))


@dataclasses.dataclass(frozen=True)
class Chosen:
    """What a seed stands for: a network, rules, and the number that is doubled."""
    seed: int
    family: str
    hosts: int
    each: int  # addresses of a host; with 1 it has a class C instead
    has_rest: bool
    flows: int  # of a host
    shape: hard.Shape

    def texts(self, part: int, rules: int) -> tuple[str, str]:
        """The description and the rules, with a part of the number."""
        hosts = max(1, self.hosts // part) if self.family == 'owners' else self.hosts
        each = max(2, self.each // part) if self.family == 'addresses' else self.each
        count = rules if self.family in ('owners', 'addresses') else rules // part
        chance = random.Random(f'texts {self.seed}')
        flows = min(hosts * (hosts - 1), hosts * self.flows)
        listed = hard.some_flows(chance, hosts, flows, self.seed % 3)
        rest = ['{ name = "world", rest = true },\n'] if self.has_rest else []
        description = small_description(listed, [*host_lines(hosts, each), *rest], version=2)
        return description, hard.random_rules(chance, self.shape, count, hosts)

    def __str__(self) -> str:
        network = f'{self.hosts} hosts of {self.each}, {"a" if self.has_rest else "no"} rest, {self.flows} flows each'
        return f'{network}, {differences(self.shape)}'


def differences(shape: hard.Shape) -> str:
    """The fields of a shape that are not as by default."""
    given, usual = dataclasses.asdict(shape), dataclasses.asdict(hard.Shape())
    return ', '.join(f'{name} {value if name != "widths" else len(value)}' for name, value in given.items()
                     if value != usual[name])


def host_lines(hosts: int, each: int) -> Iterator[str]:
    for number in range(hosts):
        base = (10 << 24) + (number << 8)
        at = [hard.prefix(base, 24)] if each == 1 else [hard.address(base + 2 * place) for place in range(each)]
        yield f'{{ name = "h{number}", at = {quoted(at)} }},\n'


def chosen(seed: int) -> Chosen:
    chance = random.Random(f'worse {seed}')
    family = FAMILIES[seed % len(FAMILIES)]
    hosts = chance.choice((32, 64, 128, 250)) if family == 'owners' else chance.choice((1, 2, 6, 8, 32, 64))
    each = chance.choice((1, 1, 4, 16)) if hosts <= 64 else chance.choice((1, 4))
    if family == 'addresses':
        hosts = chance.choice((1, 2, 8))
        each = min(120, 1000 // hosts)
    return Chosen(seed, family, hosts, each, chance.random() < .7, chance.choice((0, 1, 4)), shape_of(family, chance))


def shape_of(family: str, chance: random.Random) -> hard.Shape:
    """A random shape, with what the family is about."""
    shape = hard.Shape(
        source=chance.choice(SHARES), destination=chance.choice(SHARES), sender_port=chance.choice((0., 0., .1, .5)),
        port=chance.choice(SHARES), state=chance.choice((0., .1, .3)), negated=chance.choice((0., 0., 0., .05)),
        widths=chance.choice((hard.WIDTHS_NARROW, hard.WIDTHS_WIDE, (32,), (8, 16, 24))),
        chains=chance.choice((0, 0, 1, 8)), accepted=chance.choice(SHARES))
    widths = chance.choice((ALL_WIDTHS, tuple(range(8, 33)), (20, 22, 24, 26)))
    special: dict[str, dict[str, Any]] = {
        'widths': {'widths': widths}, 'services': {'sender_port': chance.choice((.5, 1.)), 'port': 1.},
        'negations': {'negated': chance.choice((.2, .5, .9)), 'negated_ports': chance.choice((0., .1, .5))},
        'jumps': {'chains': chance.choice((8, 16, 64)), 'jumps': chance.choice((.2, .5))},
        'policies': {'policy': 'ACCEPT', 'accepted': chance.choice((0., .1, .3))}}
    return dataclasses.replace(shape, **special.get(family, {}))
