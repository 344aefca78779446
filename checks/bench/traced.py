"""Rule sets, flow tables and events at the limits, as lines."""
from collections.abc import Iterable, Iterator

from descriptions import PREFIXES, network

CHAINS, RULES, TEXT_LIMIT, EVENTS_LIMIT = 4093, 1000000, 67108864, 16777216
FLOWS, FLOW_PREFIXES = 8192, 90
SENDERS, RECEIVERS, PORTS = 22, 23, 16  # 8,096 flows of services


def table(chains: Iterable[str], rules: Iterable[str], policy: str = 'DROP') -> Iterator[str]:
    """Yields the lines of a rule set: its head, these user chains, and these rules."""
    yield from ('*filter', ':INPUT ACCEPT [0:0]', f':FORWARD {policy} [0:0]', ':OUTPUT ACCEPT [0:0]')
    yield from (f':{chain} - [0:0]' for chain in chains)
    yield from rules
    yield 'COMMIT'


def sender(number: int) -> str:
    """All have the same length."""
    return f'9.{100 + number // 10000}.{100 + number // 100 % 100}.{100 + number % 100}'


def many_rules() -> Iterator[str]:
    """All lines have the same length."""
    return (f'-A FORWARD -s {sender(number)} -d 8.8.8.8 -m state --state NEW -j LOG' for number in range(RULES))


def rules_with_ports() -> Iterator[str]:
    return (f'-A FORWARD -s {sender(number)} -p tcp -m tcp --dport 80:90 -j LOG' for number in range(RULES))


def many_jumps(chains: list[str]) -> Iterator[str]:
    return (f'-A FORWARD -j {chains[number * 7 % CHAINS]}' for number in range(RULES))


def late_fault() -> Iterator[str]:
    """Yields a rule set of the maximum length; its last line names a chain that is not declared."""
    begin, fault = '*filter', '-A nowhere -j DROP'
    rules = RULES * (len(next(many_rules())) + 1)
    yield begin
    yield from many_rules()
    yield '#' * (TEXT_LIMIT - rules - len(begin) - len(fault) - 3)
    yield fault


def steps(chains: list[str], times: int) -> Iterator[str]:
    """Each chain jumps to the next, so many times."""
    yield f'-A FORWARD -j {chains[0]}'
    for one, following in zip(chains, chains[1:]):
        yield from [f'-A {one} -j {following}'] * times


def rules_texts() -> dict[str, Iterator[str]]:
    alike = ['name-'.ljust(46, 'x') + f'{number:04}' for number in range(CHAINS)]
    deep = [f'c{number}' for number in range(CHAINS)]
    return {
        'rules': table([], many_rules()),
        'ports': table([], rules_with_ports()),
        'jumps': table(alike, many_jumps(alike)),
        'late-fault': late_fault(),
        'deep': table(deep, [*steps(deep, 1), f'-A {deep[-1]} -j ACCEPT']),
        'doubling': table(deep[:60], steps(deep[:60], 2), 'ACCEPT'),
    }


def flow_texts() -> dict[str, list[str]]:
    def ip(number: int) -> str:
        return f'{number // 65536}.{number // 256 % 256}.{number % 256}'

    def action(number: int) -> str:
        return ('drop', 'NORMAL')[number % 2]

    return {
        'alike': [f'ip,nw_src=10.{ip(number)}/8,actions=NORMAL' for number in range(FLOWS)],
        'apart': [f'ip,nw_src={10 + number % 2}.{ip(number)},actions={action(number)}' for number in range(FLOWS)],
        'ports-apart': [f'tcp,tp_dst={number},actions={action(number)}' for number in range(FLOWS)],
    }


def many_events() -> Iterator[str]:
    """Yields packets between all prefixes and an outside address, each of a new connection, and their answers."""
    size = number = 0
    while size <= EVENTS_LIMIT - 100:
        one, other = number % (PREFIXES + 1), number * 11 % (PREFIXES + 1)
        ends = (f'{network(one)}.1', f'{network(other)}.2')
        ports = (number % 50000, number // 50000)
        for step in (1, -1):
            event = ' '.join(('packet', *ends[::step], '6', *map(str, ports[::step])))
            size += len(event) + 1
            yield event
        number += 1


def short_events() -> Iterator[str]:
    """From each prefix to each other one, and now and then to or from the rest of the world."""
    size = number = 0
    while size <= EVENTS_LIMIT - 40:
        one, other = number % (FLOW_PREFIXES + 1) + 1, number * 11 % (FLOW_PREFIXES + 2) + 1
        event = f'packet {one}.0.0.1 {other}.0.0.2 6 1 2'
        size += len(event) + 1
        yield event
        number += 1


def served_events() -> Iterator[str]:
    """Yields packets between all prefixes of both hosts, to each port of a service and to one other."""
    size = number = 0
    while size <= EVENTS_LIMIT - 40:
        one, other = number % SENDERS + 1, number * 7 % RECEIVERS + 101
        event = f'packet {one}.0.0.1 {other}.0.0.2 6 1 {number * 3 % (PORTS + 1)}'
        size += len(event) + 1
        yield event
        number += 1


def shuffled(lines: list[str]) -> list[str]:
    """Reorders the flows: those of one sender are not adjacent."""
    return [lines[number * 89 % len(lines)] for number in range(len(lines))]
