"""Reads the table of interfaces: networks, routes, rules of routing, and which senders each interface accepts."""
import re
from collections.abc import Iterator
from dataclasses import dataclass

from .import_routes import (MAIN, NOT_FORWARDED, OWN, RULE, Names, Route, Rule, Table, after, classes, is_network,
                            network_of, read_route, read_rule, regions, skipped, table_of)
from .import_sets import ALL_ADDRESSES, Numbers, joined, prefix_text, prefixes
from .import_words import Refused
from .query import plain

NONE = 'none'
KINDS = {*NOT_FORWARDED, 'unicast', 'throw'}  # of routes
FILTER = re.compile(r'net[./]ipv4[./]conf[./](\S+)[./]rp_filter\s*=\s*(\d)|'
                    r'/proc/sys/net/ipv4/conf/(\S+)/rp_filter:(\d)')
SETTING = re.compile(r'net[./]|/proc/sys/net/')
STRICT = 1
MOST_NAMED = 5


@dataclass
class Behind:
    """The addresses that surely, or perhaps, have a packet there."""
    surely: Numbers
    perhaps: Numbers


class Interfaces:
    """The addresses behind each interface, as senders and as receivers.

    The lines are `IFACE NET ..`, `IFACE rest`, `IFACE none` and `IFACE rp_filter N`, and those of `ip -4 route`,
    `ip -4 rule` and `sysctl`. The longest prefix that has an address decides, and of several interfaces with it any.
    """

    def __init__(self, text: str) -> None:
        self.tables: dict[str, list[Route]] = {MAIN: []}
        self.rules: list[Rule] = []
        self.skips: list[tuple[int, int]] = []
        self.filters: dict[str, int] = {}  # as sysctl prints them
        self.strict: dict[str, bool] = {}  # as a line of the table says
        self.stated: list[str] = []  # interfaces whose networks a line of the table says
        self.unused: list[str] = []
        self.is_routed = self.is_whole = False  # whether there are routes, and those of all tables
        self.head: tuple[str, list[str]] | None = None  # of a route that has its interfaces in the next lines
        lines = text.splitlines()
        for number, line in enumerate([*lines, ''], 1):
            try:
                self.read_line(line.split('#')[0].strip())
            except (ValueError, IndexError):
                number = min(number, len(lines))
                raise Refused(f'interfaces: line {number}: {lines[number - 1].strip()[:100]!r}') from None
        self.names = self.all_names()
        self.ways = classes(regions(self.tables, self.known_rules(), frozenset(self.names)))
        self.networks = self.main_networks()
        self.broadcasts = joined((high, high) for route in self.tables[MAIN] for low, high in route.network
                                 if high > low + 1)

    def read_line(self, line: str) -> None:
        words = line.split()
        if words[:1] == ['nexthop'] and self.head:
            self.head[1].extend(words)
            return
        if self.head:
            self.end_head(*self.head)
            self.head = None
        if not words or self.read_setting(line, words):
            return
        if RULE.match(line):
            self.read_rule(line)
        elif words[1:] == [NONE]:
            self.unused.append(words[0])
        elif {'dev', 'nexthop'} & set(words[1:]) or len(words) == 1 or words[0] in KINDS or is_network(words[0]):
            self.head = table_of(words), words
            self.is_whole = self.is_whole or self.head[0] == 'local'
        else:
            self.stated.append(words[0])
            self.tables[MAIN] += [Route(network_of(word), frozenset(words[:1])) for word in words[1:]]

    def read_setting(self, line: str, words: list[str]) -> bool:
        """Reads which senders an interface accepts. Returns whether the line says this, or another setting."""
        found = FILTER.fullmatch(line)
        if found:
            self.filters[(found[1] or found[3]).replace('/', '.')] = int(found[2] or found[4])
        elif words[1:2] == ['rp_filter']:
            self.strict[words[0]] = int(words[2]) == STRICT
        return bool(found) or words[1:2] == ['rp_filter'] or bool(SETTING.match(line))

    def read_rule(self, line: str) -> None:
        rule = read_rule(line)
        self.skips += skipped(line)
        self.rules += [rule] if rule else []
        self.is_routed = True

    def end_head(self, table: str, words: list[str]) -> None:
        """Adds a route, whose interfaces may have been in several lines."""
        self.is_routed = True
        route = read_route(words) if len(words) > 1 else None
        if len(words) < 2 or route and not route.names and not route.is_throw and not devices_of_box(words):
            raise ValueError(words[0])
        if route and table != 'local':
            self.tables.setdefault(table, []).append(route)

    def all_names(self) -> list[str]:
        routed = (name for routes in self.tables.values() for route in routes for name in sorted(route.names))
        found = dict.fromkeys([*self.stated, *routed, *self.strict, *self.filters])
        return [name for name in found if name not in ('all', 'default', 'lo', *self.unused)]

    # Routes.

    def known_rules(self) -> Iterator[Rule]:
        """Yields the rules. Without `ip rule` other tables may be used, and there may be tables that are not listed."""
        if self.rules:
            for rule in self.rules:
                is_skipped = any(first < rule.priority < last for first, last in self.skips)
                if rule.table != 'local':
                    yield rule._replace(is_sure=rule.is_sure and not is_skipped)
            if self.is_whole:
                self.tables = {**{rule.table: [] for rule in self.rules if rule.table}, **self.tables}
            return
        if self.is_routed and not self.is_whole:
            yield Rule(0, ALL_ADDRESSES, False, '')
        yield from (Rule(0, ALL_ADDRESSES, False, table) for table in self.tables if table not in OWN)
        yield Rule(1, ALL_ADDRESSES, True, MAIN)
        if 'default' in self.tables:
            yield Rule(2, ALL_ADDRESSES, True, 'default')

    def main_networks(self) -> dict[str, Numbers]:
        """Returns networks of each interface: an address of several is given to the first one."""
        parts: dict[str, list[tuple[int, int]]] = {name: [] for name in [*self.unused, *self.names]}
        for (low, high, names), _ in Table(self.tables[MAIN]).decisions(-1):
            if names:
                parts.setdefault(min(names, key=self.order), []).append((low, high))
        return {name: joined(intervals) for name, intervals in parts.items() if intervals or name not in self.filters}

    def order(self, name: str) -> int:
        return self.names.index(name) if name in self.names else len(self.names)

    # Senders.

    def is_strict(self, name: str) -> bool:
        """Whether an interface accepts senders of its routes alone: the greater of two settings decides."""
        if name in self.strict:
            return self.strict[name]
        if name in self.filters:
            return 'all' in self.filters and max(self.filters['all'], self.filters[name]) == STRICT
        return name in self.stated

    def open_names(self) -> list[str]:
        """Lists the interfaces that may accept any sender."""
        return [name for name in self.names if not self.is_strict(name)]

    # Answers.

    def matching(self, pattern: str) -> Names | None:
        """Returns the interfaces that a name means, which may end with `+`; None if no line has one."""
        known = {*self.names, *self.unused}
        if pattern.endswith('+'):
            return frozenset(name for name in known if name.startswith(pattern[:-1])) or None
        return frozenset({pattern}) if pattern in known or pattern == 'lo' else None  # lo forwards nothing

    def receivers(self, pattern: str) -> Behind | None:
        return self.behind(pattern, frozenset())

    def senders(self, pattern: str) -> Behind | None:
        return self.behind(pattern, frozenset(self.open_names()))

    def behind(self, pattern: str, added: Names) -> Behind | None:
        """Returns the addresses of which packets use interfaces, beside some by which every packet may come."""
        wanted = self.matching(pattern)
        if wanted is None:
            return None
        surely: list[tuple[int, int]] = []
        perhaps: list[tuple[int, int]] = []
        for names, numbers in self.ways.items():
            possible = names | added
            perhaps += numbers if possible & wanted else ()
            surely += numbers if possible and possible <= wanted else ()
        return Behind(joined(surely), joined(perhaps))

    # The report.

    def notes(self) -> Iterator[str]:
        """Yields lines on what the table leaves open."""
        if self.is_routed and not self.rules:
            others = [table for table in self.tables if table not in OWN]
            if others or not self.is_whole:
                told = f'the routes of table {" ".join(others)}' if others else 'routes of other tables'
                yield (f'interfaces: {told} may be used: the rules of routing decide (append the output of '
                       '`ip -4 rule`' + (')' if self.is_whole else ' and `ip -4 route show table all`)'))
        unlisted = sorted({rule.table for rule in self.rules} - {*self.tables, 'local'})
        if unlisted:
            yield f'interfaces: table {" ".join(unlisted)} is not listed (`ip -4 route show table all`)'
        yield from self.notes_of_senders()
        yield from self.notes_of_ways()

    def notes_of_senders(self) -> Iterator[str]:
        opened = self.open_names()
        if opened and self.names:
            lacks = any(name not in self.strict and not {name, 'all'} <= self.filters.keys() for name in opened)
            told = 'is not given (append the output of `sysctl -a | grep [.]rp_filter`)' if lacks else 'is not 1'
            yield (f'interfaces: every sender may come in by {" ".join(opened)}, where rp_filter {told}: matches of -i '
                   'are in doubt')

    def notes_of_ways(self) -> Iterator[str]:
        shared = [(names, numbers) for names, numbers in self.ways.items() if 1 < len(names) < len(self.names) or
                  len(names) == len(self.names) == 2]
        for names, numbers in shared[:MOST_NAMED]:
            shown = prefix_text(*prefixes(numbers)[0]) + (' ..' if len(prefixes(numbers)) > 1 else '')
            yield plain(f'interfaces: {shown} is behind any of {" ".join(sorted(names))}')


def devices_of_box(words: list[str]) -> bool:
    """Whether the only device of a route is the box itself."""
    return after(words, 'dev') == ['lo']
