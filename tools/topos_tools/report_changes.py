"""What changed since an older description: hosts, flows and invariants, each by name."""
from dataclasses import dataclass
from typing import Any

from .flows_services import of_words
from .report_model import Flow, Network, Source
from .report_words import DENIED, PERMITTED, attribute_words

SHOWN = PERMITTED + DENIED


@dataclass
class FlowChange:
    """A flow whose state or services changed. An empty state: one of its hosts does not exist."""
    flow: Flow
    before: str
    after: str
    services_before: list[str]
    services_after: list[str]


@dataclass
class EntryChange:
    """An attribute that changed in a changed invariant, by the newer number. An empty text: there is no entry."""
    invariant: int
    host: str
    before: str
    after: str


@dataclass
class Changes:
    """The differences from the older description to the newer one."""
    name: str
    sha256: str
    hosts_added: list[str]
    hosts_removed: list[str]
    hosts_moved: list[str]  # other addresses
    addresses_before: list[list[str]]  # of these hosts
    flows: list[FlowChange]
    invariants_added: list[int]  # numbers in the newer description
    invariants_removed: list[tuple[int, str]]  # numbers in the older one, and templates
    entries: list[EntryChange]
    holds: list[tuple[int, bool]]  # numbers of unchanged invariants that hold now and did not, or the reverse

    def is_empty(self) -> bool:
        return not any((self.hosts_added, self.hosts_removed, self.hosts_moved, self.flows, self.invariants_added,
                        self.invariants_removed, self.holds))


def flow_changes(old: Network, new: Network) -> list[FlowChange]:
    """Lists the flows that differ. A flow of a new or a removed host counts if it is asked for."""
    found = []
    for flow in dict.fromkeys([*new.states, *old.states]):
        before, after = old.states.get(flow, ''), new.states.get(flow, '')
        services = [each.services(flow) if flow in each.states else [] for each in (old, new)]
        is_shown = bool(before and after) or (before or after) in SHOWN
        has_others = services[0] != services[1] and of_words(services[0]) != of_words(services[1])
        if is_shown and (before != after or has_others):
            found.append(FlowChange(flow, before, after, *services))
    return found


def unordered(value: Any) -> Any:
    """Returns a value of a description for comparisons: without the order of lists, which has no effect."""
    if isinstance(value, dict):
        return frozenset((key, unordered(inner)) for key, inner in value.items())
    return frozenset(map(unordered, value)) if isinstance(value, list) else value


def matched(old: list[dict[str, Any]], new: list[dict[str, Any]]) -> dict[int, int]:
    """Returns the number of each invariant of the newer description with the number of an equal, older invariant."""
    before, after = ([unordered({'assign': [], **each}) for each in invariants] for invariants in (old, new))
    free = list(range(len(old)))
    found = {}
    for number, invariant in enumerate(after, 1):
        same = next((place for place in free if before[place] == invariant), None)
        if same is not None:
            free.remove(same)
            found[number] = same + 1
    return found


def entries_of(invariant: dict[str, Any]) -> dict[str, dict[str, Any]]:
    """Returns the entries of an invariant by host."""
    return {entry['host']: entry for entry in invariant.get('assign', [])}


def entry_changes(old: list[dict[str, Any]], new: list[dict[str, Any]], same: dict[int, int]) -> list[EntryChange]:
    """Lists the entries that differ. A changed invariant is compared with the next changed one of its template."""
    free = [place for place in range(1, len(old) + 1) if place not in same.values()]
    found = []
    for number in (number for number in range(1, len(new) + 1) if number not in same):
        template = new[number - 1]['template']
        other = next((place for place in free if old[place - 1]['template'] == template), None)
        if other is None:
            continue
        free.remove(other)
        before, after = entries_of(old[other - 1]), entries_of(new[number - 1])
        changes = [EntryChange(number, host, *(attribute_words(each.get(host, {})) for each in (before, after)))
                   for host in dict.fromkeys([*after, *before])
                   if unordered(before.get(host)) != unordered(after.get(host))]
        found += [each for each in changes if each.before != each.after]
    return found


def changes_between(old: Source, new: Source) -> Changes:
    """Compares two descriptions by their answers and tables."""
    before, after = old.network, new.network
    at = [{host['name']: (sorted(host['at']), host['rest']) for host in each.hosts} for each in (before, after)]
    tables = [each.table.get('invariant', []) for each in (old, new)]
    same = matched(*tables)
    moved = [name for name in after.names if name in before.number and at[0][name] != at[1][name]]
    return Changes(
        old.name, old.digest(),
        [name for name in after.names if name not in before.number],
        [name for name in before.names if name not in after.number],
        moved, [at[0][name][0] for name in moved],
        flow_changes(before, after),
        [number for number in range(1, len(tables[1]) + 1) if number not in same],
        [(number, each['template']) for number, each in enumerate(tables[0], 1) if number not in same.values()],
        entry_changes(tables[0], tables[1], same),
        [(number, after.invariants[number - 1]['holds']) for number, other in same.items()
         if after.invariants[number - 1]['holds'] != before.invariants[other - 1]['holds']])
