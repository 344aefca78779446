"""Routes as `ip -4 route` and `ip -4 rule` print them: by which interfaces packets to an address may leave.

What decides beside the receiver (a mark, a sender, the link that is up) is not known: each interface that some packet
may use is listed, so that an address with one interface uses no other.
"""
import re
from collections.abc import Iterable, Iterator
from typing import NamedTuple

from .import_sets import ALL_ADDRESSES, MOST_ADDRESS, Numbers, difference, intersection, joined
from .import_words import address

Names = frozenset[str]
Region = tuple[int, int, Names]  # the first and the last address, and the interfaces that their packets may use

NOT_FORWARDED = {'local', 'broadcast', 'multicast', 'anycast', 'unreachable', 'blackhole', 'prohibit', 'nat'}
REST = {'rest', 'default', '0.0.0.0/0'}
MAIN = 'main'
OWN = {'local', MAIN, 'default'}  # the tables of every kernel
TABLE_NUMBERS = {'255': 'local', '254': MAIN, '253': 'default'}
RULE = re.compile(r'(\d+):\s+(.*)')
UNSURE = {'tos', 'dsfield', 'dead'}  # words of a route that some packets miss
DROPPING = {'blackhole', 'unreachable', 'prohibit', 'nop'}


class Route(NamedTuple):
    """A route of a table. A packet may miss it if it is not sure; `throw` leads to the next rule."""
    network: Numbers
    names: Names
    is_sure: bool = True
    is_throw: bool = False


Group = tuple[tuple[int, int], list[Route]]  # a prefix with its routes


class Rule(NamedTuple):
    """A rule of routing: which receivers it is for, and whether it is for all their packets."""
    priority: int
    receivers: Numbers
    is_sure: bool
    table: str  # that is looked up; '' for an action that is not known
    longest_suppressed: int = -1  # a route with a prefix of this length or less counts as none


def network_of(word: str) -> Numbers:
    """Reads a network. Fails with ValueError."""
    found = ALL_ADDRESSES if word in REST else address(word)
    if found is None:
        raise ValueError(word)
    return found


def is_network(word: str) -> bool:
    try:
        network_of(word)
    except ValueError:
        return False
    return True


def after(words: list[str], key: str) -> list[str]:
    """Lists the words behind each word of a key."""
    return [value for word, value in zip(words, words[1:]) if word == key]


def table_of(words: list[str]) -> str:
    named = (after(words[1:], 'table') or [MAIN])[0]
    return TABLE_NUMBERS.get(named, named)


def read_route(words: list[str]) -> Route | None:
    """Reads a line of a route; None for one by which nothing is forwarded. Fails with ValueError or IndexError."""
    kind = words[0]
    if kind in NOT_FORWARDED:
        return None
    place = 1 if kind in ('unicast', 'throw') else 0
    return Route(network_of(words[place]), devices(words), not UNSURE & set(words[place + 1:]), kind == 'throw')


def devices(words: list[str]) -> Names:
    return frozenset(after(words, 'dev')) - {'lo'}


def read_rule(line: str) -> Rule | None:
    """Reads a line of `ip rule`; None for one that is no rule or leads to no table. Fails with ValueError."""
    found = RULE.fullmatch(line)
    words = found[2].split() if found else []
    if not found or DROPPING & set(words):
        return None
    tables, receivers = after(words, 'lookup') or after(words, 'table'), after(words, 'to')
    left = ' '.join(words)
    for each in ('from all', *(f'to {word}' for word in receivers), *(f'lookup {word}' for word in tables)):
        left = left.replace(each, '', 1)
    longest = after(words, 'suppress_prefixlength')
    left = re.sub(r'suppress_prefixlength \d+|proto(col)? \S+|table \S+', '', left)
    table = TABLE_NUMBERS.get(tables[0], tables[0]) if tables and tables[0][0] != '[' else ''
    is_negated = words[0] == 'not'
    return Rule(int(found[1]), network_of(receivers[0]) if receivers and not is_negated else ALL_ADDRESSES,
                not left.strip() and bool(table), table, int(longest[0]) if longest else -1)


def skipped(line: str) -> Iterator[tuple[int, int]]:
    """Yields the priorities between which a rule may skip others."""
    found = re.fullmatch(r'(\d+):.*\bgoto (\d+).*', line)
    if found:
        yield int(found[1]), int(found[2])


class Table:
    """The routes of a table: for each range of receivers, what the longest prefixes say."""

    def __init__(self, routes: Iterable[Route]) -> None:
        groups: dict[tuple[int, int], list[Route]] = {}
        for route in routes:
            groups.setdefault(route.network[0], []).append(route)
        self.groups = sorted(groups.items(), key=lambda group: (group[0][0], -group[0][1]))

    def decisions(self, longest_suppressed: int) -> Iterator[tuple[Region, bool]]:
        """Yields regions with their interfaces, and whether some of their packets may go on to the next rule."""
        for low, high, above in self.segments():
            names, goes_on = decided(above, longest_suppressed)
            yield (low, high, names), goes_on

    def segments(self) -> Iterator[tuple[int, int, list[Group]]]:
        """Yields ranges with the prefixes that have them, the longest last."""
        above: list[Group] = []
        end: Group = (MOST_ADDRESS + 1, MOST_ADDRESS + 1), []
        start = 0
        for group in [*self.groups, end]:
            low = group[0][0]
            while above and above[-1][0][1] < low:
                if start <= above[-1][0][1]:
                    yield start, above[-1][0][1], list(above)
                    start = above[-1][0][1] + 1
                above.pop()
            if start < low:
                yield start, low - 1, list(above)
                start = low
            above.append(group)


def decided(above: list[Group], longest_suppressed: int) -> tuple[Names, bool]:
    """Returns the interfaces that routes lead to, the longest prefix first, and whether a packet may find none."""
    names: set[str] = set()
    goes_on = False
    for (low, high), routes in reversed(above):
        if 32 - (high - low + 1).bit_length() + 1 <= longest_suppressed:
            return frozenset(names), True
        for route in routes:
            names |= route.names
            goes_on = goes_on or route.is_throw
        if any(route.is_sure for route in routes):
            return frozenset(names), goes_on
    return frozenset(names), True


def regions(tables: dict[str, list[Route]], rules: Iterable[Rule], everything: Names) -> list[Region]:
    """Returns the interfaces that packets may use, by their receivers. A table that is not known may lead to any."""
    found: list[Region] = []
    left = ALL_ADDRESSES
    for rule in sorted(rules, key=lambda each: each.priority):
        within = intersection(left, rule.receivers)
        if rule.table not in tables:
            found += [(low, high, everything) for low, high in within]
            continue
        ended = []
        for (low, high, names), goes_on in Table(tables[rule.table]).decisions(rule.longest_suppressed):
            found += [(*each, names) for each in intersection(((low, high),), within) if names]
            if rule.is_sure and not goes_on:
                ended.append((low, high))
        left = difference(left, intersection(joined(ended), rule.receivers))
    return found


def classes(found: Iterable[Region]) -> dict[Names, Numbers]:
    """Returns the addresses with each set of interfaces."""
    changes: dict[int, list[tuple[str, int]]] = {0: [], MOST_ADDRESS + 1: []}
    for low, high, names in found:
        changes.setdefault(low, []).extend((name, 1) for name in names)
        changes.setdefault(high + 1, []).extend((name, -1) for name in names)
    counts: dict[str, int] = {}
    parts: dict[Names, list[tuple[int, int]]] = {}
    places = sorted(changes)
    for low, following in zip(places, places[1:]):
        for name, change in changes[low]:
            counts[name] = counts.get(name, 0) + change
        parts.setdefault(frozenset(name for name, count in counts.items() if count), []).append((low, following - 1))
    return {names: joined(intervals) for names, intervals in parts.items()}
