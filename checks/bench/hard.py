"""Networks and rules that are hard for questions on all packets: many addresses, rules on several fields at once."""
import random
from collections.abc import Callable, Iterable, Iterator
from dataclasses import dataclass

from descriptions import quoted, small_description

WIDTHS_WIDE = (16, 24, 24, 25, 26, 28, 30, 32, 32, 32)
WIDTHS_NARROW = (24, 26, 28, 30, 32, 32, 32)
PORTS = (22, 53, 80, 443)


def address(number: int) -> str:
    return '.'.join(str(number >> shift & 255) for shift in (24, 16, 8, 0))


def prefix(number: int, width: int) -> str:
    """The prefix of a width that an address has."""
    return f'{address(number >> 32 - width << 32 - width)}/{width}'


def rules_text(lines: Iterable[str], chains: Iterable[str] = (), policy: str = 'DROP') -> str:
    heads = ['*filter', ':INPUT ACCEPT [0:0]', f':FORWARD {policy} [0:0]', ':OUTPUT ACCEPT [0:0]']
    return '\n'.join([*heads, *(f':{chain} - [0:0]' for chain in chains), *lines, 'COMMIT']) + '\n'


def network(count: int, flows: str = '') -> str:
    """A description of hosts of one class C each, and a rest host."""
    hosts = [f'{{ name = "h{number}", at = ["{prefix((10 << 24) + (number << 8), 24)}"] }},\n'
             for number in range(count)]
    return small_description(flows, [*hosts, '{ name = "world", rest = true },\n'], version=2)


def some_flows(chance: random.Random, count: int, flows: int, services: int) -> str:
    """Flows between hosts, each with services of random ports."""
    pairs = [(one, other) for one in range(count) for other in range(count) if one != other]
    listed = ([f'h{one}', f'h{other}', *(f'tcp/{port}' for port in chance.sample(range(1, 65536), services))]
              for one, other in chance.sample(pairs, flows))
    return ''.join(quoted(flow) + ',' for flow in listed)


def single_addresses(addresses: int, rules: int) -> tuple[str, str]:
    """One host of single addresses, no two adjacent, and rules that accept one port each."""
    at = quoted(address((10 << 24) + 2 * number + 1) for number in range(addresses))
    lines = [f'-A FORWARD -p tcp -m tcp --dport {2 * number + 1} -j ACCEPT' for number in range(rules)]
    hosts = [f'{{ name = "h", at = {at} }},\n', '{ name = "world", rest = true },\n']
    return small_description('', hosts, version=2), rules_text(lines)


def four_fields(rules: int) -> tuple[str, str]:
    """Rules that drop by source, by destination, by receiver's port and by sender's port; then all is accepted."""
    chance = random.Random(rules)
    forms = ('-s {0}/32', '-d {0}/32', '-p tcp -m tcp --dport {1}', '-p tcp -m tcp --sport {1}')
    lines = [f'-A FORWARD {form.format(address(chance.getrandbits(32)), chance.randrange(65536))} -j DROP'
             for form in forms for _ in range(rules // 4)]
    host = ['{ name = "h", at = ["10.0.0.0/8"] },\n', '{ name = "world", rest = true },\n']
    return small_description('', host, version=2), rules_text([*lines, '-A FORWARD -j ACCEPT'])


def ports(chance: random.Random) -> str:
    """A port, or a range of ports."""
    low = chance.choice((*PORTS, chance.randrange(1024), chance.randrange(65536)))
    return str(low) if chance.random() < .7 else f'{low}:{min(65535, low + chance.randrange(2000))}'


@dataclass(frozen=True)
class Shape:
    """What random rules look like: the share of rules with each match, widths of prefixes, user chains, the policy."""
    source: float = .9
    destination: float = .9
    sender_port: float = 0.
    port: float = .95
    state: float = .1
    negated: float = 0.
    widths: tuple[int, ...] = WIDTHS_NARROW
    chains: int = 0
    accepted: float = .67
    jumps: float = .1
    negated_ports: float = 0.
    policy: str = 'DROP'


def random_rules(chance: random.Random, shape: Shape, count: int, hosts: int) -> str:
    """Rules in FORWARD and in user chains, each of which jumps to later ones alone."""
    names = [f'C{number}' for number in range(shape.chains)]
    chains = ['FORWARD', *names]
    lines = [f'-A {chain} {random_rule(chance, shape, hosts)} -j {target(chance, shape, names[place:], place > 0)}'
             for place, chain in enumerate(chains) for _ in range(count // len(chains))]
    return rules_text(lines, names, shape.policy)


def random_rule(chance: random.Random, shape: Shape, hosts: int) -> str:
    return ' '.join(matches(chance, shape, hosts))


def matches(chance: random.Random, shape: Shape, hosts: int) -> Iterator[str]:
    for option, share in (('-s', shape.source), ('-d', shape.destination)):
        if chance.random() < share:
            number = (10 << 24) + (chance.randrange(hosts) << 8) + chance.randrange(256)
            negation = '! ' if chance.random() < shape.negated else ''
            yield f'{negation}{option} {prefix(number, chance.choice(shape.widths))}'
    both = ('--sport', shape.sender_port), ('--dport', shape.port)
    sides = [side for side, share in both if chance.random() < share]
    if sides:
        protocol = chance.choice(('tcp', 'tcp', 'udp'))
        negations = ['! ' if shape.negated_ports > 0 and chance.random() < shape.negated_ports else '' for _ in sides]
        yield f'-p {protocol} -m {protocol} ' + ' '.join(f'{negation}{side} {ports(chance)}'
                                                         for negation, side in zip(negations, sides))
    if chance.random() < shape.state:
        yield f'-m conntrack --ctstate {chance.choice(("NEW", "ESTABLISHED"))}'


def target(chance: random.Random, shape: Shape, later: list[str], in_chain: bool) -> str:
    if later and chance.random() < shape.jumps:
        return chance.choice(later)
    if in_chain and chance.random() < .1:
        return 'RETURN'
    return 'ACCEPT' if chance.random() < shape.accepted else 'DROP'


def specific(hosts: int, rules: int) -> tuple[str, str]:
    """Rules on small prefixes and ports in one chain: few of them cover others."""
    chance = random.Random(f'specific {hosts} {rules}')
    return network(hosts, some_flows(chance, hosts, 200, 3)), random_rules(chance, Shape(), rules, hosts)


def wide(hosts: int, rules: int, chains: int) -> tuple[str, str]:
    """Rules of which many cover others, in user chains."""
    chance = random.Random(f'wide {hosts} {rules}')
    shape = Shape(.75, .75, .12, .6, .15, .04, WIDTHS_WIDE, chains, .55)
    return network(hosts, some_flows(chance, hosts, 200, 2)), random_rules(chance, shape, rules, hosts)


def served(hosts: int) -> str:
    """Every flow between hosts, each with 16 services."""
    return network(hosts, some_flows(random.Random(5), hosts, hosts * (hosts - 1), 16))


def entries(hosts: int, count: int) -> str:
    """A flow table of specific entries, with all priorities different."""
    chance = random.Random(f'entries {hosts} {count}')
    lines = []
    for number in range(count):
        source, destination = (prefix((10 << 24) + chance.randrange(hosts << 8), chance.choice(WIDTHS_NARROW))
                               for _ in range(2))
        protocol, port = chance.choice(('tcp', 'tcp', 'udp')), chance.choice((*PORTS, chance.randrange(65536)))
        action = 'NORMAL' if chance.random() < .67 else 'drop'
        lines.append(f'priority={65535 - number},{protocol},nw_src={source},nw_dst={destination},tp_dst={port},'
                     f'actions={action}\n')
    return ''.join(lines)


def open_to_all(hosts: int, rules: int) -> tuple[str, str]:
    """Rules that accept a port each from anywhere to anywhere."""
    lines = [f'-A FORWARD -p tcp -m tcp --dport {2 * number + 1} -j ACCEPT' for number in range(rules)]
    return network(hosts - 1), rules_text(lines)


def heirs(hosts: int) -> tuple[str, str]:
    """Two descriptions: a host of the second has an address of each of four hosts of the first, which denies all."""
    def named(place: Callable[[int, int], int]) -> list[str]:
        return [f'{{ name = "h{host}", at = {quoted(single(place(host, each)) for each in range(4))} }},\n'
                for host in range(hosts)]

    def single(place: int) -> str:
        return address((10 << 24) + 2 * place)

    denying = '[[invariant]]\ntemplate = "noreach"\nassign = []\n'
    old = small_description('', named(lambda host, each: 4 * host + each), denying, version=2)
    new = small_description('', named(lambda host, each: 4 * ((host + 7 * each) % hosts) + each), version=2)
    return old, new


def weaker(hosts: int) -> tuple[str, str]:
    """Two descriptions: the earlier one has an invariant that denies half of all flows. In the later one each flow has
    one service fewer."""
    chance = random.Random(f'weaker {hosts}')
    pairs = [(one, other) for one in range(hosts) for other in chance.sample(range(hosts), 14) if one != other]

    def flows(*services: str) -> str:
        return ''.join(quoted((f'h{one}', f'h{other}', *services)) + ',' for one, other in pairs)

    def denied(host: int) -> str:
        return quoted(f'h{other}' for other in range(hosts) if (host + other) % 2)

    entries = ''.join(f'{{ host = "h{host}", deny = {denied(host)} }}, ' for host in range(hosts))
    at = [f'{{ name = "h{host}", at = ["{prefix((10 << 24) + (host << 8), 24)}"] }},\n' for host in range(hosts)]
    more = f'[[invariant]]\ntemplate = "noreach"\nassign = [{entries}]\n'
    return (small_description(flows('tcp/22', 'tcp/443', 'udp/53'), at, more, version=2),
            small_description(flows('tcp/22', 'tcp/443'), at, version=2))
