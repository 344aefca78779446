"""Tables of nftables that are hard for questions on all packets, as checks/bench/hard.py has them for iptables."""
import random
from collections.abc import Iterable, Iterator

import hard

EACH = 125  # elements of the map of a source
SHARED = 64  # chains for services
SPACE = 10 << 24  # the first address of all hosts


def table(chains: Iterable[tuple[str, Iterable[str]]], base: Iterable[str]) -> str:
    """The text of a table: chains with their rules, and the rules of the base chain."""
    texts = [chain(name, rules) for name, rules in chains]
    head = 'type filter hook forward priority filter; policy drop;'
    return 'table ip topos {\n' + '\n'.join([*texts, chain('forward', [head, *base])]) + '}\n'


def chain(name: str, rules: Iterable[str]) -> str:
    return f'\tchain {name} {{\n' + ''.join(f'\t\t{rule}\n' for rule in rules) + '\t}\n'


def verdict_map(side: str, verdicts: dict[int, str]) -> str:
    """A rule with a map of addresses."""
    elements = ', '.join(f'{hard.address(number)} : {verdicts[number]}' for number in sorted(verdicts))
    return f'ip {side} vmap {{ {elements} }}'


def single_addresses(rules: int) -> str:
    """Rules that accept one port each."""
    return table([], [f'tcp dport {2 * number + 1} accept' for number in range(rules)])


def four_fields(rules: int) -> str:
    """Drops by source, by destination, by receiver's port and by sender's port; then all is accepted."""
    chance = random.Random(rules)
    maps = [verdict_map(side, {chance.getrandbits(32): 'drop' for _ in range(rules // 4)})
            for side in ('saddr', 'daddr')]
    ports = [f'tcp {side} {chance.randrange(65536)} drop' for side in ('dport', 'sport') for _ in range(rules // 4)]
    return table([], [*maps, *ports, 'accept'])


def services(chance: random.Random) -> Iterator[str]:
    for _ in range(chance.randrange(1, 6)):
        ports = hard.ports(chance).replace(':', '-')
        yield f'{chance.choice(("tcp", "tcp", "udp"))} dport {ports} {chance.choice(("accept", "accept", "drop"))}'


def specific(hosts: int, elements: int) -> str:
    """A map for each of many sources, with an element for each of many destinations, most of which lead to services."""
    chance = random.Random(f'table {hosts} {elements}')
    shared = [f'services_{number}' for number in range(SHARED)]
    verdicts = ['accept', 'drop', *(f'goto {name}' for name in shared)]
    sources = chance.sample(range(SPACE, SPACE + 256 * hosts), elements // EACH)
    chains = [(name, list(services(chance))) for name in shared]
    for source in sources:
        destinations = chance.sample(range(SPACE, SPACE + 256 * hosts), EACH)
        chains.append((f'from_{source}', [verdict_map('daddr', {to: chance.choice(verdicts) for to in destinations})]))
    return table(chains, [verdict_map('saddr', {source: f'goto from_{source}' for source in sources})])
