"""Groups what passes between hosts by the rules that let it pass."""
from collections.abc import Iterator
from dataclasses import dataclass, field

from .flows_answer import Pair, Range
from .flows_list import Listing, grouped
from .flows_services import brief_services, size
from .import_sets import Numbers, joined
from .flows_rules import Rules
from .names import arrow, products, told_hosts
from .query import lines_text

Ends = tuple[str, str]


@dataclass(frozen=True)
class Opening:
    """Services that some rules let pass, wholly or in part, surely or in doubt."""
    lines: tuple[int, ...]
    services: Numbers
    note: str = ''

    def told(self) -> str:
        return ', '.join(filter(None, [brief_services(self.services), self.note]))

    def place(self) -> list[float]:
        """Returns the lines as a key of an order with the policy behind all."""
        return [line or float('inf') for line in sorted(self.lines, key=lambda each: each or float('inf'))]


@dataclass
class Group:
    """Where rules open the same: between and within hosts, and between other addresses; and an example."""
    pairs: list[Ends] = field(default_factory=list)
    hosts: list[str] = field(default_factory=list)
    others: list[str] = field(default_factory=list)
    example: str = ''


class Groups:
    """The openings of a listing."""

    def __init__(self, listing: Listing) -> None:
        self.listing = listing
        self.numbers = {host: number for number, host in enumerate(listing.hosts)}
        self.found: dict[Opening, Group] = {}
        for pair in sorted(listing.upper.pairs, key=self.place_of):
            ranges = listing.upper.ranges(pair)
            for is_whole in (True, False):
                for lines, parts in grouped([part for part in ranges if (part.dropped is None) is is_whole]).items():
                    self.add(pair, lines, parts, is_whole)

    def place_of(self, pair: Pair) -> tuple[int, int]:
        """Returns a key of the order of hosts, in which the addresses of no host are the last."""
        first, second = (len(self.numbers) if host is None else self.numbers[host] for host in pair)
        return first, second

    def add(self, pair: Pair, lines: tuple[int, ...], ranges: list[Range], is_whole: bool) -> None:
        services = joined([each for part in ranges for each in part.services])
        opening = Opening(lines, services, self.note(pair, services, is_whole))
        group = self.found.get(opening) or self.found.setdefault(opening, Group())
        if pair[0] is None or pair[1] is None:
            ends = [host or 'no host' for host in pair]
            group.others.append(f'from {ends[0]} to {ends[1]}: {{}}, as {ranges[0].passes}')
        elif pair[0] == pair[1]:
            group.hosts.append(pair[0])
        else:
            group.pairs.append((pair[0], pair[1]))
        if not (is_whole or group.example):
            group.example = f'{ranges[0].passes} passes, {ranges[0].drops} does not'

    def note(self, pair: Pair, services: Numbers, is_whole: bool) -> str:
        if not is_whole:
            return 'in part' if self.listing.lower.meets(pair, services) else 'in part, in doubt'
        doubtful = self.listing.doubtful(pair, services)
        if not doubtful:
            return ''
        return 'in doubt' + ('' if doubtful == services else f': {brief_services(doubtful)}')

    def ordered(self) -> list[tuple[Opening, Group]]:
        """Lists the openings by the lines of their rules, those of the most services first."""
        return sorted(self.found.items(), key=lambda each: (each[0].place(), -size(each[0].services)))

    def lines(self, rules: Rules) -> Iterator[str]:
        """Yields the openings for a reader, below the rules that let them pass."""
        heads: list[str] = []
        for opening, group in self.ordered():
            if rules.heads(opening.lines) != heads:
                heads = rules.heads(opening.lines)
                yield from heads
            for senders, receivers in products(group.pairs):
                yield f'  {arrow(senders, receivers, self.listing.hosts)}: {opening.told()}'
            if group.hosts:
                yield f'  within {told_hosts(group.hosts, self.listing.hosts)}: {opening.told()}'
            for each in group.others:
                yield f'  {each.format(opening.told())}'
            if group.example:
                yield f'    {group.example}'

    def text(self, rules: Rules, description: str, notes: list[str]) -> str:
        """Returns the openings and all else that a reader of the rules has to know."""
        listing = self.listing
        return lines_text([*listing.head(rules.name, description), 'Below each rule is what it lets pass.',
                           *self.lines(rules), *self.neighbours(), *listing.dead_lines(rules), *notes])

    def neighbours(self) -> Iterator[str]:
        """Yields a line for hosts behind one interface whose packets to each other the rules let pass."""
        behind: dict[str, set[str]] = {}
        for pair in (pair for group in self.found.values() if self.listing.interfaces for pair in group.pairs):
            interfaces = {self.listing.interfaces.get(host, '') for host in pair}
            if len(interfaces) == 1 and interfaces != {''}:
                behind.setdefault(interfaces.pop(), set()).update(pair)
        for interface, hosts in behind.items():
            yield f'behind one interface, {interface}: {told_hosts(hosts, self.listing.hosts)}'

    def tree(self) -> list[dict[str, object]]:
        return [{'lines': list(opening.lines), 'services': brief_services(opening.services), 'note': opening.note,
                 'flows': [list(pair) for pair in group.pairs], 'within': group.hosts}
                for opening, group in self.ordered()]
