"""Writes the flows that rules let pass as a list for a description."""
import json
from collections.abc import Iterator
from dataclasses import dataclass, field

from .flows_answer import POLICY, Flows, Pair, Range
from .flows_dead import DeadRule
from .flows_rules import Rules
from .flows_services import ALL_SERVICES, MOST_OF_FLOW, other_words, told_services, words_of_services
from .import_sets import Numbers, difference, intersection, joined

MOST_LINES = 8  # that are shown behind a flow


@dataclass
class Listing:
    """What passes between hosts: in `upper`, and surely, in `lower`."""
    hosts: list[str]
    upper: Flows
    lower: Flows
    has_parts: bool = False  # whether services that pass in part are listed too
    interfaces: dict[str, str] = field(default_factory=dict)  # of hosts that are behind one
    dead: list[DeadRule] = field(default_factory=list)

    def pairs(self) -> Iterator[tuple[str, str]]:
        for sender in self.hosts:
            for receiver in self.hosts:
                if sender != receiver:
                    yield sender, receiver

    def doubtful(self, pair: Pair, services: Numbers) -> Numbers:
        """Returns the services that only `upper` lets pass."""
        return difference(services, self.lower.whole(pair))

    # The text.

    def text(self, rules: Rules, description: str, notes: list[str]) -> str:
        """Returns the list of flows as it goes into a description."""
        lines = [*(f'# {line}' for line in self.head(rules.name, description)),
                 f'# Behind a flow are the lines of {rules.save} that let it pass.', 'flow = [']
        for pair in self.pairs():
            lines += self.entries(pair)
        return '\n'.join([*lines, ']', *(f'# {line}' for line in (*self.other_lines(rules), *notes)), ''])

    def head(self, rules: str, description: str) -> list[str]:
        between = [parts for pair, parts in self.upper.pairs.items() if None not in pair and pair[0] != pair[1]]
        counts = [sum(any((part['drops'] is None) is is_whole for part in parts) for parts in between)
                  for is_whole in (True, False)]
        return [f'New connections that {rules} lets pass between the hosts of {description}: {counts[0]} flows, '
                f'{counts[1]} in part.']

    def other_lines(self, rules: Rules) -> Iterator[str]:
        """Yields lines on what passes in other ways than between two hosts, and on dead rules."""
        yield from self.inner_lines()
        yield from self.nobody_lines()
        yield from self.dead_lines(rules)

    def dead_lines(self, rules: Rules) -> Iterator[str]:
        for each in self.dead:
            yield from rules.dead(each.rule.line, each.takers)

    def parts(self, pair: Pair) -> list[Range]:
        return [part for part in self.upper.ranges(pair) if part.dropped is not None]

    def entries(self, pair: Pair) -> Iterator[str]:
        """Yields the entry of a pair, and comments on what passes in part."""
        listed = self.upper.any(pair) if self.has_parts else self.upper.whole(pair)
        if listed:
            yield f'  {"" if is_flow(listed) else "# "}{entry(pair, listed)}  # {"; ".join(self.notes(pair, listed))}'
        for lines, ranges in grouped(self.parts(pair)).items():
            services = joined(each for part in ranges for each in part.services)
            if self.has_parts:
                yield f'  #   in part: {told_services(services)} ({lines_text(lines)})'
            else:
                doubt = '' if intersection(services, self.lower.any(pair)) else '; in doubt'
                yield f'  # in part: {entry(pair, services)}  # {lines_text(lines)}{doubt}'
            yield f'  #   {ranges[0].passes} passes, {ranges[0].drops} does not'

    def notes(self, pair: Pair, listed: Numbers) -> Iterator[str]:
        """Yields the notes behind an entry."""
        yield lines_text({line for part in self.upper.ranges(pair) if self.has_parts or part.dropped is None
                          for line in part.lines})
        interface = self.interfaces.get(pair[0] or '')
        if interface and interface == self.interfaces.get(pair[1] or ''):
            yield f'both behind {interface}'
        doubtful = difference(listed, self.lower.any(pair)) if self.has_parts else self.doubtful(pair, listed)
        if doubtful:
            yield 'in doubt: ' + told_services(doubtful)
        if other_words(listed):
            yield 'also ' + ', '.join(other_words(listed))
        if len(words_of_services(listed)) > MOST_OF_FLOW:
            yield f'{len(words_of_services(listed))} services: a flow has at most {MOST_OF_FLOW}'

    def inner_lines(self) -> Iterator[str]:
        for host in self.hosts:
            services = self.upper.any((host, host))
            if services:
                yield f'within {host}: {self.told((host, host))}'

    def nobody_lines(self) -> Iterator[str]:
        """Yields lines on addresses of no host."""
        for pair in self.upper.pairs:
            if None in pair:
                ends = [host or 'no host' for host in pair]
                yield f'from {ends[0]} to {ends[1]}: {self.told(pair)}, as {self.upper.ranges(pair)[0].passes}'

    def told(self, pair: Pair) -> str:
        lines = {line for part in self.upper.ranges(pair) for line in part.lines}
        in_part = ', in part' if self.parts(pair) else ''
        return f'{told_services(self.upper.any(pair))}{in_part} ({lines_text(lines)})'

    # The data.

    def tree(self) -> dict[str, object]:
        return {'version': 1, 'pairs': [self.pair_tree(pair) for pair in self.upper.pairs],
                'dead': [each.rule.line for each in self.dead],
                'dead_rules': [each.tree() for each in self.dead]}

    def pair_tree(self, pair: Pair) -> dict[str, object]:
        whole = self.upper.whole(pair)
        doubtful = self.doubtful(pair, whole)
        return {'from': pair[0], 'to': pair[1],
                'services': service_words(whole),
                'other': other_words(whole), 'in_doubt': service_words(doubtful) + other_words(doubtful),
                'lines': sorted({line for part in self.upper.ranges(pair) for line in part.lines}),
                'parts': [{'services': told_services(part.services), 'passes': part.passes, 'drops': part.drops,
                           'lines': list(part.lines)} for part in self.parts(pair)]}


def service_words(services: Numbers) -> list[str]:
    return ['everything'] if services == ALL_SERVICES else words_of_services(services)


def is_flow(services: Numbers) -> bool:
    """Whether a description can have the flow, perhaps without other protocols."""
    words = words_of_services(services)
    return services == ALL_SERVICES or 0 < len(words) <= MOST_OF_FLOW


def entry(pair: Pair, services: Numbers) -> str:
    """Returns a flow as a description has it, or in words if it has no service that a description can have."""
    words = words_of_services(services)
    if not words and services != ALL_SERVICES:
        return f'{pair[0]} -> {pair[1]}: {told_services(services)}'
    return json.dumps([*pair, *words]) + ','


def grouped(ranges: list[Range]) -> dict[tuple[int, ...], list[Range]]:
    """Groups ranges by the lines that let them pass."""
    found: dict[tuple[int, ...], list[Range]] = {}
    for each in ranges:
        found.setdefault(each.lines, []).append(each)
    return found


def lines_text(given: set[int] | tuple[int, ...] | list[int], most: int = MOST_LINES) -> str:
    lines = sorted(each for each in given if each != POLICY)
    shown = ' '.join(map(str, lines[:most])) + (f' and {len(lines) - most} more' if len(lines) > most else '')
    told = [('lines ' if len(lines) > 1 else 'line ') + shown] if lines else []
    return ' and '.join(told + (['the policy'] if POLICY in given else []))
