"""The flows and answers that come and go, by pairs of owners of addresses, after `topos-query changes`."""
from collections.abc import Iterator
from dataclasses import dataclass, field, replace
from typing import Any

from .diff_hosts import NOBODY, Owned, owned_by, owners
from .diff_words import arrow, invariant_names, products
from .flows_services import number_of, of_words, size, told_services
from .import_sets import ALL_ADDRESSES, Numbers, difference, intersection, joined
from .report_model import Flow, Source

OLD_ADDRESSES = ' (old addresses)'  # after a host with changed addresses
Owner = str | dict[str, str] | None


@dataclass
class FlowChange:
    """A flow, or the answers of a flow, that comes, goes, or has other services."""
    flow: Flow
    change: str  # comes, goes, changes, answers come, answers go
    services: str  # that come or go; of `changes` those that the flow has now
    before: str = ''  # of `changes` the services that it had
    note: str = ''  # on answers
    part: list[Flow] = field(default_factory=list)  # if some packets change: their flows in the other description
    has_old_names: bool = False  # whether `flow` has names of OLD, and `part` those of NEW
    weight: int = 0  # services that are opened
    is_wider: bool = False  # whether a flow that OLD permits gets more services

    def text(self, most: int | None) -> str:
        """Returns what follows the flow on a line."""
        listed = '; '.join(arrow(product, most) for product in products(self.part))
        part = f'in part ({"now" if self.has_old_names else "was"} {listed})' if listed else ''
        return ', '.join(filter(None, [self.services, self.before and f'was {self.before}', self.note, part]))


class Side:
    """One of the two descriptions: its owners, and the services of its permitted flows."""

    def __init__(self, source: Source) -> None:
        self.source, self.network = source, source.network
        self.owned: Owned = owned_by(source.network)
        self.owners: dict[Numbers, list[str]] = {}  # that are known

    def services(self, flow: Flow) -> Numbers:
        """Returns the services of a flow, or none if it is not permitted."""
        if flow not in self.network.flows or not self.network.flows[flow]['permitted']:
            return ()
        return of_words(self.network.services(flow))

    def flows_of(self, senders: Numbers, receivers: Numbers) -> list[Flow]:
        """Returns the flows to which packets between the addresses belong."""
        for each in (senders, receivers):
            if each not in self.owners:
                self.owners[each] = owners(each, self.owned)
        return [(sender, receiver) for sender in self.owners[senders] for receiver in self.owners[receivers]]


class Changes:
    """The changes of an answer, by pair of owners: hosts of NEW, else of OLD, else None."""

    def __init__(self, old: Source, new: Source, answer: dict[str, Any]) -> None:
        self.old, self.new = Side(old), Side(new)
        self.nobodys = _nobodys(self.old.owned), _nobodys(self.new.owned)
        self.pairs: dict[Flow, dict[str, Numbers]] = {}
        self.owned: Owned = {}
        self.lost: dict[Flow, dict[Flow, Numbers]] = {}  # of old flows, by flows of NEW
        for each in answer['changes']:
            pair = self._owner(each['from']), self._owner(each['to'])
            services = joined((number_of(part['low']), number_of(part['high'])) for part in each['services'])
            self.pairs.setdefault(pair, {})[each['change']] = services

    def _owner(self, owner: Owner) -> str:
        """Returns the name of an owner for a reader, and remembers its addresses."""
        if isinstance(owner, dict):
            name = owner['old'] + (OLD_ADDRESSES if owner['old'] in self.new.owned else '')
            addresses = intersection(self.old.owned[owner['old']], self.nobodys[1])
        elif owner is not None:
            name, addresses = owner, self.new.owned[owner]
        else:
            name, addresses = NOBODY, intersection(*self.nobodys)
        self.owned.setdefault(name, addresses)
        return name

    def flows(self) -> list[FlowChange]:
        """Lists the changes: wider flows, those from the rest host first, then those that open the most services."""
        rest = {host['name'] for host in self.new.network.hosts if host['rest']}
        found = [change for pair, kinds in self.pairs.items() for change in self._of_pair(pair, kinds)]
        found += [change for flow in self.lost for change in self._losses(flow)]
        return sorted(found, key=lambda each: (not each.is_wider, each.is_wider and each.flow[0] not in rest,
                                               -each.weight))

    def _of_pair(self, pair: Flow, kinds: dict[str, Numbers]) -> Iterator[FlowChange]:
        now, past = self.new.services(pair), self.old.flows_of(*(self.owned[end] for end in pair))
        was = self.old.services(past[0]) if len(past) == 1 else ()
        comes, goes = kinds.get('flow comes', ()), kinds.get('flow goes', ())
        if now and was and (comes or goes):
            yield FlowChange(pair, 'changes', told_services(now), told_services(was), self._silence(pair),
                             weight=size(comes), is_wider=bool(comes))
        else:
            if comes:
                yield from self._coming(pair, comes, past)
            if goes and len(past) == 1:
                yield FlowChange(pair, 'goes', told_services(goes))
            elif goes:
                self._lose(pair, goes, past)
        yield from self._answers(pair, kinds, past)

    def _coming(self, pair: Flow, comes: Numbers, past: list[Flow]) -> Iterator[FlowChange]:
        """Yields what a flow gains, for each set of services: packets of old flows with other services gain others."""
        gained = {flow: difference(comes, self.old.services(flow)) for flow in past}
        for services in filter(None, dict.fromkeys(gained.values())):
            gaining = [flow for flow in past if gained[flow] == services]
            part = [] if len(gaining) == len(past) else gaining
            yield FlowChange(pair, 'comes', told_services(services), '', self._silence(pair), part,
                             weight=size(services), is_wider=any(map(self.old.services, gaining)))

    def _lose(self, pair: Flow, goes: Numbers, past: list[Flow]) -> None:
        """Remembers which old flows lose services, of which other flows the packets belong to a pair too."""
        for flow in past:
            lost = intersection(goes, difference(self.old.services(flow), self.new.services(pair)))
            if lost:
                self.lost.setdefault(flow, {})[pair] = lost

    def _losses(self, flow: Flow) -> Iterator[FlowChange]:
        """Yields what an old flow loses, by its old names."""
        lost = self.lost[flow]
        now = self.new.flows_of(*(self.old.owned[end] for end in flow))
        for services in dict.fromkeys(lost.values()):
            losing = [pair for pair in lost if lost[pair] == services]
            part = [] if len(losing) == len(now) else losing
            yield FlowChange(flow, 'goes', told_services(services), part=part, has_old_names=True)

    def _silence(self, pair: Flow) -> str:
        if pair not in self.new.network.silent:
            return ''
        return 'no answers, so TCP fails' if self.new.network.lacks_tcp(pair) else 'no answers'

    def _answers(self, pair: Flow, kinds: dict[str, Numbers], past: list[Flow]) -> Iterator[FlowChange]:
        """Yields the answers that come or go while the flow stays."""
        silent, silent_before = self.new.network.silent, self.old.network.silent
        lost = intersection(kinds.get('answers go', ()), self.new.services(pair))
        if lost and pair in silent:
            denied_by = silent[pair]
            reason = f'denied by {invariant_names(self.new.source, denied_by)}' if denied_by else 'answers = "none"'
            fails = ', so TCP fails' if self.new.network.lacks_tcp(pair) else ''
            answered = [flow for flow in past if flow not in silent_before]
            yield from self._of_old(FlowChange(pair, 'answers go', '', note=reason + fails), lost, answered, past)
        unanswered = [flow for flow in past if flow in silent_before]
        gained = kinds.get('answers come', ())
        yield from self._of_old(FlowChange(pair, 'answers come', ''), gained, unanswered, past)

    def _of_old(self, change: FlowChange, services: Numbers, flows: list[Flow],
                past: list[Flow]) -> Iterator[FlowChange]:
        """Yields the change for each set of services that some of these old flows had."""
        changed = {flow: intersection(services, self.old.services(flow)) for flow in flows}
        for each in filter(None, dict.fromkeys(changed.values())):
            changing = [flow for flow in flows if changed[flow] == each]
            part = [] if len(changing) == len(past) else changing
            yield replace(change, services=told_services(each), part=part)


def _nobodys(owned: Owned) -> Numbers:
    """Returns the addresses that no host has."""
    return difference(ALL_ADDRESSES, joined(each for numbers in owned.values() for each in numbers))
