"""Changes of a description with which a flow, or its answers, are allowed.

This module knows no rule of a template: the entries that are tried have the keys and values of other entries, and a
change is printed only if `topos-query network` allows the flow in a copy with the change.
"""
from __future__ import annotations

import itertools

from .query import toml
from .why_network import ANSWERS, Description, Network, counted, joined, say
from .why_reasons import FEW, SHOWN, hosts_of

TYPE_CHECKING = False
if TYPE_CHECKING:
    from collections.abc import Iterator
    from typing import Any, TypeAlias

    from .why_network import Flow, Table, Thing
    from .why_reasons import Given

    Change: TypeAlias = 'Entry | Without'

AT_ONCE = 16  # invariants of a description
SCREENED = 2 * AT_ONCE  # entries that are screened together before changes are tried one by one; half on paths
TRIED = 5  # changes that are tried one by one, each in a copy


def other_lists(own: Table, host: str, others: list[str], entries: dict[str, Table]) -> Iterator[Table]:
    """An entry with more elements in a list, or without some: other hosts, and elements of other lists."""
    for key, value in own.items():
        if not isinstance(value, list):
            continue
        names = [[other] for other in others]
        beside = [entries.get(other, {}).get(key, []) for other in others]
        inside = [other for other in own.values() if isinstance(other, list)]
        for more in names + beside + inside:
            yield {**own, key: value + [each for each in more if each not in value and each != host]}
        for less in names + [[each for each in value if each not in kept] for kept in beside if kept]:
            yield {name: [each for each in old if each not in less] if isinstance(old, list) else old
                   for name, old in own.items()}


def other_values(own: Table, used: list[Table]) -> Iterator[Table]:
    """An entry with another value: of a flag the opposite, of a number also the next ones, else one in use."""
    for key, value in own.items():
        if isinstance(value, bool):
            yield {**own, key: not value}
        elif not isinstance(value, list):
            yield from ({**own, key: entry[key]} for entry in used if entry.keys() == own.keys())
            near = [value + 1, value - 1][:1 + (value > 0)] if isinstance(value, int) else []
            yield from ({**own, key: each} for each in near)


def entries_for(description: Description, given: Given, host: str, others: list[str]) -> list[Table]:
    """Entries of an invariant that may replace that of a host, those with the smallest difference first."""
    template, entries = given['template'], description.entries[given['invariant']]
    own = entries.get(host, {})
    used = [entries[other] for other in others if other in entries]
    used += [entry for number, each in enumerate(description.invariants, 1) if each['template'] == template
             for entry in description.entries[number].values()]
    templates = description.table.get('template', [])
    kinds: list[str] = next((each['kinds'] for each in templates if each['name'] == template), [])
    found: list[Table] = [*other_lists(own, host, others, entries), *other_values(own, used),
             *({key: [each for each in value if each != host] if isinstance(value, list) else value
                for key, value in entry.items()} for entry in used),
             *({'kind': kind} for kind in kinds), {}]
    strangers = {*description.names} - {host, *others}
    return list({toml(entry): entry for entry in found if entry != own and not adds(strangers, own, entry)}.values()
                )[:SCREENED]


def adds(hosts: set[str], own: Table, entry: Table) -> bool:
    """Whether a list of an entry has one of the hosts that the list of the present entry has not."""
    return any(hosts.intersection(value).difference(own.get(key) or ())
               for key, value in entry.items() if isinstance(value, list))


class Entry:
    """Another entry for a host in an invariant, and which things the invariant then opens and closes."""

    def __init__(self, description: Description, number: int, host: str, entry: Table) -> None:
        self.number, self.host, self.entry = number, host, entry
        self.invariant = description.with_entry(number, host, entry)
        self.old = description.entries[number].get(host, {})
        self.opened: set[Thing] = set()
        self.closed: set[Flow] = set()

    def said(self) -> str:
        values = [said_change(key, self.old.get(key), value) for key, value in self.entry.items()
                  if self.old.get(key) != value]
        values += [f'no {key}' for key in self.old if key not in self.entry]
        words = ', '.join(values) if self.entry else 'no entry'
        return f'{words} for {self.host} in {self.number} {self.invariant["template"]}'


class Without:
    """A flow that is no longer listed."""

    def __init__(self, flow: Flow) -> None:
        self.flow = flow

    def __eq__(self, other: object) -> bool:
        return isinstance(other, Without) and self.flow == other.flow

    def said(self) -> str:
        return f'{say(self.flow)} not asked for'


def said_change(key: str, old: Any, new: Any) -> str:
    """A value; of a list what is more in it, or what is less in a long one."""
    if isinstance(new, list) and old:
        more, less = [each for each in new if each not in old], [each for each in old if each not in new]
        if more and not less:
            return f'{key} = [.., {toml(more)[1:-1]}]'
        if less and not more and len(new) > FEW:
            return f'{key} = [..] without {toml(less)[1:-1]}'
    return f'{key} = {toml(new)}'


def said_changed(after: Network, flows: list[Flow]) -> str:
    """Returns a sentence on the flows that differ after a change."""
    said = [f'{say(flow)} is {after.state(flow)}' for flow in flows[:FEW]]
    more = len(flows) - FEW
    said += [f'{counted(more, "more flow")} {"changes" if more == 1 else "change"}'] if more > 0 else []
    return f' Then {joined(said)}.' if said else ''


def turns(lists: list[list[Entry]]) -> list[Entry]:
    """The elements of the lists, the first of each, then the second of each."""
    return [each for turn in itertools.zip_longest(*lists) for each in turn if each is not None]


class Changes:
    """Changes with which a thing is allowed: a flow, or its answers."""

    def __init__(self, description: Description, thing: Thing, reasons: list[Given], is_asked: bool) -> None:
        self.description, self.thing, self.reasons, self.is_asked = description, thing, reasons, is_asked
        self.flow, self.before = thing[:2], description.network
        self.on_ways = any(len(each['flows']) > 1 for each in reasons)
        numbers = {each['invariant'] for each in reasons}
        self.denied = {other: set(by) for other, by in self.before.denied.items() if by and numbers.issuperset(by)}

    def screened(self, entries: list[Entry]) -> list[Entry]:
        """The entries with which the thing is not denied. A copy has an invariant for each of them, and the flows that
        are allowed."""
        flows = self.before.allowed()
        network = self.description.tried(flow=[list(flow) for flow in flows],
                                         invariant=[each.invariant for each in entries])
        if network is None:
            half = len(entries) // 2
            return self.screened(entries[:half]) + self.screened(entries[half:]) if half else []
        for place, each in enumerate(entries, 1):
            # of answers of a flow that another of the entries denies: the way back
            each.opened = {thing for thing in self.denied
                           if place not in network.denied.get(thing, network.denied[thing[1::-1]])}
            each.closed = {flow for flow in flows if place in network.denied[flow]}
        others = [each for each in entries if not each.closed]
        if self.on_ways and len(others) < len(entries):  # the rest remove flows from the paths of these
            return self.screened(others) if others else []
        return [each for each in entries if self.thing in each.opened]

    def entries(self) -> list[list[Entry]]:
        """Entries with which the thing is not denied, for each of the reasons."""
        lists = []
        for given in self.reasons:
            hosts = hosts_of([tuple(flow) for flow in given['flows']])[:SHOWN]
            others = {host: [other for other in hosts if other != host] for host in hosts}
            lists.append(turns([[Entry(self.description, given['invariant'], host, entry)
                                 for entry in entries_for(self.description, given, host, others[host])]
                                for host in hosts]))
        chosen = turns(lists)[:SCREENED // (2 if self.on_ways else 1)]
        passing: dict[object, Entry] = {}
        for start in range(0, len(chosen), AT_ONCE):
            for each in self.screened(chosen[start:start + AT_ONCE]):  # of those with the same effects the first
                passing.setdefault((each.number, each.host, frozenset(each.opened), frozenset(each.closed)), each)
        return [[each for each in passing.values() if each.number == given['invariant']] for given in self.reasons]

    def without(self, given: Given) -> list[Without]:
        """The flows without which an invariant does not fail on these: those that are allowed, or whose answers are."""
        itself = self.flow[::-1] if self.thing[2:] else self.flow
        others: list[Flow] = [tuple(flow) for flow in given['flows'] if tuple(flow) != itself]
        flows = [flow if self.before.is_allowed(flow) else flow[::-1] for flow in others]
        return [Without(flow) for flow in dict.fromkeys(flows) if flow != self.flow]

    def weight(self, changes: list[Change]) -> tuple[int, int]:
        """How many things the changes open, and how many they close, as far as is known before they are tried."""
        entries = [each for each in changes if isinstance(each, Entry)]
        numbers = {each.number for each in entries}
        opened = set.intersection(*(each.opened for each in entries)) if entries else set()
        closed = set().union(*(each.closed for each in entries))
        return sum(numbers >= self.denied[thing] for thing in opened), len(closed) + len(changes) - len(entries)

    def combined(self) -> list[list[Change]]:
        """Lists of changes, one for each of the reasons, those that open the fewest flows first."""
        found: list[list[Change]] = [[]]
        for given, entries in zip(self.reasons, self.entries(), strict=True):
            found = [changes if each in changes else [*changes, each]
                     for changes in found for each in entries + self.without(given)]
            found = sorted(found, key=self.weight)[:2 * TRIED]
        return found[:TRIED]

    def tried(self, changes: list[Change]) -> Network | None:
        """The network with the changes, if the program accepts them and the thing is allowed with them."""
        entries = {each.number: each.invariant for each in changes if isinstance(each, Entry)}
        left_out = {each.flow for each in changes if isinstance(each, Without)}
        numbered = enumerate(self.description.invariants, 1)
        keys: dict[str, list[Any]] = {'invariant': [entries.get(number, each) for number, each in numbered]}
        asked = [list(flow) for flow in self.before.flows] if self.description.flows is None else self.description.flows
        flows = [each for each in asked if tuple(each[:2]) not in left_out]
        if left_out or not self.is_asked:
            keys['flow'] = flows + ([] if self.is_asked else [list(self.flow)])
        network = self.description.tried(**keys)
        return network if network and network.is_allowed(self.thing) else None

    def told(self) -> list[str]:
        """A line for each change that allows the thing, those that open the fewest flows first."""
        found: list[tuple[int, int, str, str]] = []
        is_alone = any(len(each['flows']) == 1 for each in self.reasons)
        alone: list[list[Change]] = [] if self.is_asked or is_alone else [[]]
        for changes in (alone + self.combined())[:TRIED]:
            network = self.tried(changes) if len(found) < FEW else None
            if network:
                said = joined(each.said() for each in changes) if changes else 'no other change'
                found.append((*self.effects(network, changes), f'  {said}.'))
        return [said + words for opened, others, words, said in sorted(found, key=lambda each: each[:2])]

    def effects(self, after: Network, changes: list[Change]) -> tuple[int, int, str]:
        """How many gaps the changes open, how many other flows they change, and both in words."""
        left_out = {self.flow} | {each.flow for each in changes if isinstance(each, Without)}
        opened = [flow for flow, each in after.flows.items() if each['gap'] and flow not in left_out
                  and not self.before.flows[flow]['gap']]
        others = self.before.changed(after, left_out)
        words = said_changed(after, others)
        if self.description.has_answers() and not after.is_allowed((*self.flow, ANSWERS)):
            words = f' Its answers are then denied by {after.by((*self.flow, ANSWERS))}.{words}'
        if opened:
            words += f' It opens {counted(len(opened), "more pair")} that nobody asks for.'
        return len(opened), len(others) + len(left_out), words
