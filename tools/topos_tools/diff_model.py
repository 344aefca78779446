"""The difference of two descriptions: the answers of `topos-query`, and additions from the files.

Nothing here decides whether a flow may pass, or whether an invariant denies it.
"""
from collections.abc import Iterable
from dataclasses import asdict, dataclass
from typing import Any

from .diff_flows import Changes, FlowChange
from .diff_hosts import HostChange, host_changes, owned_by, renamed
from .diff_invariants import InvariantChange, invariant_changes, numbers_of, setting_changes
from .query import Programs, TimedOut
from .report_model import Flow, Source, flow_of, read_source

SCHEMA = 'topos-diff 1'
REVIEW, NOT_READ = 1, 2  # exit statuses


@dataclass
class Failing:
    """An invariant that fails on the flows that NEW asks for."""
    number: int
    offending: list[Flow]
    failed_before: bool


@dataclass
class Judged:
    """A flow that no invariant denies, though invariants of the other description deny the flow of the same packet."""
    flow: Flow
    other: Flow
    denied_by: list[int]  # in the other description


@dataclass
class Openings:
    """The flows and the gaps that a description opens and the other one does not."""
    judged: list[Judged]
    gaps: list[Flow]

    @classmethod
    def of(cls, answer: dict[str, Any]) -> 'Openings | None':
        """Returns the openings of an answer, or None if the program does not list them."""
        if 'weaker' not in answer or 'gaps' not in answer:
            return None
        judged = [Judged(flow_of(each['flow']), flow_of(each['old']), each['denied_by']) for each in answer['weaker']]
        return cls(judged, [flow_of(each) for each in answer['gaps']])


@dataclass
class Difference:
    """All that differs between OLD and NEW."""
    old: Source
    new: Source
    same: dict[int, int]  # numbers of invariants of OLD, by those of NEW
    fails: list[Failing]
    opened: Openings | None
    closed: Openings | None
    flows: list[FlowChange]
    hosts: list[HostChange]
    invariants: list[InvariantChange]
    settings: list[str]
    stopped: TimedOut | None = None  # if it is not known what is stricter

    def weaker(self) -> list[int] | None:
        """Returns the numbers of OLD of the invariants that are weaker, or None if they are not known."""
        if self.opened is None:
            return None
        return sorted({number for each in self.opened.judged for number in each.denied_by})

    def wider(self) -> list[FlowChange]:
        """Returns the flows that get more services, those from the rest host first."""
        return [each for each in self.flows if each.is_wider]

    def status(self) -> int:
        is_known_harmless = self.opened is not None and not self.opened.judged and not self.opened.gaps
        return 0 if is_known_harmless and not self.fails and not self.wider() else REVIEW

    def is_empty(self) -> bool:
        """Whether nothing at all differs."""
        openings = [found for each in (self.opened, self.closed) if each for found in (each.judged, each.gaps)]
        return not any((self.flows, self.hosts, self.invariants, self.settings, self.stopped, *openings))

    def tree(self) -> dict[str, Any]:
        """Returns the data of `--json`."""
        opened, closed = (each and asdict(each) for each in (self.opened, self.closed))
        return {'schema': SCHEMA, **{key: {'name': each.name, 'sha256': each.digest()}
                                     for key, each in (('old', self.old), ('new', self.new))},
                'status': self.status(), 'fails': [asdict(each) for each in self.fails],
                'weaker': opened and opened['judged'], 'gaps': opened and opened['gaps'],
                'flows': [asdict(each) for each in self.flows],
                'stricter': closed and closed['judged'], 'closed': closed and closed['gaps'],
                'hosts': [asdict(each) for each in self.hosts],
                'invariants': [asdict(each) for each in self.invariants], 'settings': self.settings}


def read_difference(programs: Programs, before: str, after: str, most: int | None) -> Difference:
    """Reads two descriptions, and returns their difference; `most` words are shown of a list in an entry, or all."""
    old, new = (read_source(programs, path, NOT_READ) for path in (before, after))
    answer, stopped, back = programs.ask_changes(old.data, new.data), None, dict[str, Any]()
    try:
        back = programs.ask_changes(new.data, old.data)
    except TimedOut as error:
        stopped = error
    names = renamed(owned_by(old.network), owned_by(new.network))
    same = numbers_of(old, new, names)
    return Difference(
        old, new, same, list(_failing(old, new, same)), Openings.of(answer), Openings.of(back),
        Changes(old, new, answer).flows(), host_changes(old.network, new.network),
        invariant_changes(old, new, names, most), list(setting_changes(old, new, most)), stopped)


def _failing(old: Source, new: Source, same: dict[int, int]) -> Iterable[Failing]:
    for each in new.network.invariants:
        if not each['holds']:
            before = same.get(each['invariant'])
            failed = before is not None and not old.network.invariants[before - 1]['holds']
            yield Failing(each['invariant'], [flow_of(flow) for flow in each['offending']], failed)
