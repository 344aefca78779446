"""Random descriptions of networks, and events for them."""
import ipaddress
import tomllib
from collections.abc import Callable
from ipaddress import IPv4Network
from random import Random
from typing import TypeAlias

from packets import BARE, ICMP, NUMBERS, TCP, UDP, Event, is_routed
from services import PORTS, Flows, Pair, spelled

Attribute: TypeAlias = Callable[[Random, list[str]], str]  # the text of an attribute, from the names of the other hosts

PATHS = ('a', 'b', 'a/x', 'a/y', 'b/x', 'a/x/1')
LENGTHS = (2, 5, 8, 12, 16, 20, 23, 24, 26, 28, 30, 31, 32, 32, 32)


class Network:
    """A random description and its prefixes."""

    def __init__(self, chance: Random, version: int, most: int = 8) -> None:
        self.chance = chance
        self.prefixes: list[IPv4Network] = []
        count = chance.randint(2, most)
        rest = chance.randrange(count) if chance.random() < 0.6 else None
        self.names = [f'host-{number}' for number in range(count)]
        self.hosts = [self.host(name, place == rest) for place, name in enumerate(self.names)]
        self.head = [f'topos = {version}'] + chance.choice([[], ['answers = "all"'], ['answers = "none"']])
        if chance.random() < (0.75 if version == 1 else 0.95):
            self.head.append(f'flow = [{self.flows(version)}]')
        self.templates = [Template(chance, f'own-{k}') for k in range(chance.choice([0, 1, 2]))] if version == 2 else []
        self.invariants = [self.invariant() for _ in range(chance.choice([0, 0, 1, 1, 2, 3]))]

    def text(self) -> str:
        hosts = [f'[[host]]\n{host}' for host in self.hosts]
        templates = [template.text() for template in self.templates]
        return '\n\n'.join(['\n'.join(self.head), *hosts, *templates, *self.invariants]) + '\n'

    def flows(self, version: int) -> str:
        share = self.chance.choice([0.1, 0.4, 0.8])
        pairs = [(a, b) for a in self.names for b in self.names if a != b and self.chance.random() < share]
        if version == 2:
            return Flows(self.chance, pairs).text()
        self.chance.shuffle(pairs)
        return ', '.join(f'["{a}", "{b}"]' for a, b in pairs)

    def host(self, name: str, is_rest: bool) -> str:
        if is_rest:
            return f'name = "{name}"\nrest = true'
        at = [self.prefix() for _ in range(self.chance.choice([1, 1, 1, 2, 4]))]
        return f'name = "{name}"\nat = [{", ".join(chr(34) + str(prefix) + chr(34) for prefix in at)}]'

    def prefix(self) -> IPv4Network:
        """Returns a prefix that is disjoint from the others, often adjacent to one."""
        while True:
            found = ipaddress.IPv4Network((self.start(), self.chance.choice(LENGTHS)), strict=False)
            first, last = str(found[0]), str(found[-1])
            if (is_routed(first) or is_routed(last)) and not any(found.overlaps(other) for other in self.prefixes):
                self.prefixes.append(found)
                return found

    def start(self) -> int:
        if self.prefixes and self.chance.random() < 0.5:
            beside = self.chance.choice(self.prefixes)
            return (int(beside[-1]) + 1 if self.chance.random() < 0.5 else int(beside[0]) - 1) % 2 ** 32
        return self.chance.randrange(2 ** 24, 224 * 2 ** 24)

    def invariant(self) -> str:
        attributes = {**ATTRIBUTES, **{own.name: kind_of(*own.kinds) for own in self.templates}}
        own = [template.name for template in self.templates]
        template = self.chance.choice(own if own and self.chance.random() < 0.5 else sorted(ATTRIBUTES))
        share = self.chance.choice([0.3, 0.7, 1.0])
        entries = [f'  {{ host = "{name}", {attributes[template](self.chance, self.others(name))} }},'
                   for name in self.names if self.chance.random() < share]
        return '\n'.join(['[[invariant]]', f'template = "{template}"', 'assign = [', *entries, ']'])

    def others(self, name: str) -> list[str]:
        return [other for other in self.names if other != name]


class Template:
    """A custom template: with each denied pair, the pair with the default is denied too."""

    def __init__(self, chance: Random, name: str) -> None:
        self.name, self.strategy = name, chance.choice(['access', 'information'])
        self.kinds = [f'kind-{letter}' for letter in 'abcd'[:chance.randint(1, 4)]]
        self.default = chance.choice(self.kinds)
        share = chance.choice([0.1, 0.3])
        pairs = [(a, b) for a in self.kinds for b in self.kinds if chance.random() < share]
        self.deny = pairs + [pair for pair in map(self.partner, pairs) if pair not in pairs or chance.random() < 0.2]
        chance.shuffle(self.deny)

    def partner(self, pair: Pair) -> Pair:
        return (self.default, pair[1]) if self.strategy == 'access' else (pair[0], self.default)

    def text(self) -> str:
        deny = ', '.join(f'["{a}", "{b}"]' for a, b in self.deny)
        return (f'[[template]]\nname = "{self.name}"\nstrategy = "{self.strategy}"\nkinds = {listed(self.kinds)}\n'
                f'default = "{self.default}"\ndeny = [{deny}]')


class Traffic:
    """Random events between the hosts of a description and others, often of its flows and of adjacent ports."""

    def __init__(self, chance: Random, description: str) -> None:
        table = tomllib.loads(description)
        self.chance, self.flows = chance, table.get('flow', [])
        self.at = {host['name']: [ipaddress.IPv4Network(text) for text in host.get('at', [])] for host in table['host']}
        self.prefixes = [prefix for at in self.at.values() for prefix in at]

    def address(self, prefixes: list[IPv4Network]) -> str:
        """Returns an address of these prefixes, often the first or last of one, an adjacent one, or any other."""
        while True:
            prefix = self.chance.choice(prefixes) if prefixes else ipaddress.IPv4Network('0.0.0.0/0')
            first, last = int(prefix[0]), int(prefix[-1])
            inside, anywhere = self.chance.randint(first, last), self.chance.randrange(2 ** 32)
            number = self.chance.choice([first, last, *[inside] * 4, first - 1, last + 1, anywhere]) % 2 ** 32
            if is_routed(address := str(ipaddress.IPv4Address(number))):
                return address

    def events(self, count: int) -> list[Event]:
        """Returns packets of a few connections at a time, from either end, with some forget events."""
        addresses = [self.address(self.prefixes) for _ in range(12)]
        talks: list[Event] = []
        events: list[Event] = []
        for _ in range(count):
            if not talks or self.chance.random() < 0.2:
                is_asked = self.flows and self.chance.random() < 0.6
                talks = talks[-5:] + [self.asked() if is_asked else self.packet(addresses)]
            events.append(self.event(self.chance.choice(talks)))
        return events

    def event(self, talk: Event) -> Event:
        drawn = self.chance.random()
        if drawn < 0.5:
            return talk
        if drawn < 0.82:
            return talk.answer()
        if drawn < 0.9:
            return self.astray(talk.answer())
        return self.chance.choice([talk, talk.answer()]).forgotten()

    def packet(self, addresses: list[str]) -> Event:
        source, destination = self.chance.choice(addresses), self.chance.choice(addresses)
        protocol = self.chance.choice([TCP, TCP, TCP, UDP, UDP, ICMP, self.chance.choice(BARE)])
        return Event(False, source, destination, protocol, self.ports(protocol, self.chance.choice(PORTS)))

    def asked(self) -> Event:
        """Returns a packet of a flow: of one of its services, or with an adjacent port or another protocol."""
        source, destination, *services = self.chance.choice(self.flows)
        name, low, high = spelled(self.chance.choice(services or ['tcp', 'udp', 'icmp']))
        protocol = self.chance.choice([NUMBERS[name]] * 7 + [TCP, UDP])
        inside = self.chance.randint(low, high)
        port = self.chance.choice([low, high, inside, low - 1, high + 1, high + 1]) % 2 ** 16
        ends = self.address(self.at[source]), self.address(self.at[destination])
        return Event(False, *ends, protocol, self.ports(protocol, port))

    def ports(self, protocol: int, port: int) -> tuple[int, int]:
        """Returns the ports of a packet to this port."""
        if protocol == ICMP:
            return port, port
        return (0, 0) if protocol in BARE else (self.chance.choice(PORTS), port)

    def astray(self, answer: Event) -> Event:
        """Returns the answer from another port, if its protocol has ports."""
        if answer.protocol not in (TCP, UDP):
            return answer
        ports = (answer.ports[0] + self.chance.choice([-1, 1, 1000])) % 2 ** 16, answer.ports[1]
        return Event(False, answer.source, answer.destination, answer.protocol, ports)


def some(chance: Random, names: list[str]) -> str:
    return '[' + ', '.join(f'"{name}"' for name in names if chance.random() < 0.5) + ']'


def taints(chance: Random, _: list[str]) -> str:
    labels = [label for label in 'uvw' if chance.random() < 0.5]
    clean = [label for label in labels if chance.random() < 0.5]
    return f'taints = {listed(labels)}, untaints = {listed(clean)}'


def listed(labels: list[str]) -> str:
    return '[' + ', '.join(f'"{label}"' for label in labels) + ']'


def kind_of(*kinds: str) -> Attribute:
    return lambda chance, others: f'kind = "{chance.choice(kinds)}"'


def subnets(chance: Random, _: list[str]) -> str:
    kind = chance.choice(['subnet', 'subnet', 'border', 'unassigned'])
    return f'kind = "{kind}"' + ('' if kind == 'unassigned' else f', number = {chance.randint(1, 2)}')


def partners(chance: Random, others: list[str]) -> str:
    kind = chance.choice(['dontcare', 'care', 'master', 'master'])
    return f'kind = "{kind}"' + (f', from = {some(chance, others)}' if kind == 'master' else '')


ATTRIBUTES: dict[str, Attribute] = {
    'blp': lambda chance, _: f"level = {chance.randint(0, 2)}, trusted = {chance.choice(['true', 'false', 'false'])}",
    'tainting': taints,
    'sink': kind_of('sink', 'pool', 'unassigned'),
    'gateway': kind_of('gateway', 'gateway-in', 'member', 'accessible', 'unassigned'),
    'subnets': subnets,
    'partners': partners,
    'domains': lambda chance, _: f'path = "{chance.choice(PATHS)}", trust = {chance.choice([0, 0, 0, 1])}',
    'dependability': lambda chance, others: f'limit = {chance.randint(0, len(others))}',
    'noninterference': kind_of('interfering', 'unrelated', 'unrelated'),
    'noreach': lambda chance, others: f'deny = {some(chance, others) if chance.random() < 0.5 else "[]"}',
}
