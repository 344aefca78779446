"""A description, and the answers of `topos-query` on it and on copies with a change."""
from __future__ import annotations

import functools

from .flows_services import TCP, covers
from .query import LONGEST, Programs, Stopped, line_of, toml

TYPE_CHECKING = False
if TYPE_CHECKING:
    from collections.abc import Iterable, Sequence
    from typing import Any

    Table = dict[str, Any]
    Flow = tuple[str, ...]  # two hosts
    Thing = tuple[str, ...]  # a flow, or the answers of a flow: its hosts and ANSWERS

ANSWERS = 'answers'
VERSION = 2  # of the format, in which copies are written


def counted(number: int, noun: str) -> str:
    return f'{number} {noun}{"" if number == 1 else "s"}'


def joined(words: Iterable[str], last: str = 'and') -> str:
    words = list(words)
    return f' {last} '.join([', '.join(words[:-1]), words[-1]] if len(words) > 1 else words)


def say(flow: Sequence[str]) -> str:
    return f'{flow[0]} -> {flow[1]}'


class Description:
    """A description that the program accepts, as a text and as a table, and the answers of `topos-query` on it."""

    def __init__(self, programs: Programs, text: bytes) -> None:
        self.programs, self.text = programs, text
        self.origin = self  # whose tables are known

    @functools.cached_property
    def table(self) -> Table:
        """The table of version 2. Only a text of another version, or that `tomllib` cannot read, is migrated."""
        import tomllib
        try:
            table = tomllib.loads(self.text.decode())
        except (ValueError, RecursionError):
            table = {}
        return table if table.get('topos') == VERSION else self.programs.table(self.text)

    @functools.cached_property
    def known(self) -> dict[int, str]:
        """The texts of the invariants and of their entries, by id(). Copies have the same tables."""
        known: dict[int, str] = {}
        for invariant in self.invariants:
            known.update({id(entry): toml(entry) for entry in invariant.get('assign', [])})
            known[id(invariant)] = toml(invariant, known)
        return known

    @functools.cached_property
    def lines(self) -> dict[str, str]:
        """The lines of the text of a copy, by key."""
        return {key: line_of(key, value, self.known) for key, value in self.table.items()}

    @functools.cached_property
    def network(self) -> Network:
        return Network(self.programs.ask(self.text, 'network'))

    @property
    def names(self) -> list[str]:
        return [host['name'] for host in self.table['host']]

    @property
    def flows(self) -> list[list[str]] | None:
        return self.table.get('flow')

    @property
    def invariants(self) -> list[Table]:
        invariants: list[Table] = self.table.get('invariant', [])
        return invariants

    def why(self, flow: Flow) -> Table:
        return self.programs.ask(self.text, 'why', *flow)

    def copy(self, **keys: Any) -> Description:
        """A copy with other values of these keys."""
        lines = {**self.lines, **{key: line_of(key, value, self.known) for key, value in keys.items()}}
        copy = Description(self.programs, '\n'.join(lines.values()).encode())
        copy.origin, copy.table, copy.lines, copy.known = self.origin, {**self.table, **keys}, lines, self.known
        return copy

    def listed(self, flow: Flow) -> 'Description':
        copy = self.copy(flow=[*(self.flows or []), list(flow)])
        if len(copy.text) > LONGEST:
            raise Stopped('with one more flow the description would be longer than topos reads')
        return copy

    def tried(self, **keys: Any) -> Network | None:
        """The network of a copy, or nothing if the program refuses the copy."""
        answer = self.programs.ask_if_accepted(self.copy(**keys).text, 'network')
        return Network(answer) if answer else None

    def has_answers(self) -> bool:
        return bool(self.table.get('answers', 'all') == 'all')

    @functools.cached_property
    def entries(self) -> dict[int, dict[str, Table]]:
        """For each invariant its entries by host, with sorted keys, as `topos migrate` writes them."""
        return {number: {each['host']: {key: each[key] for key in sorted(each) if key != 'host'}
                         for each in invariant.get('assign', [])}
                for number, invariant in enumerate(self.invariants, 1)}

    def with_entry(self, number: int, host: str, entry: Table) -> Table:
        """An invariant as a table, with another entry for a host, or with none if the entry is empty."""
        invariant = self.invariants[number - 1]
        entries = {each['host']: each for each in invariant.get('assign', [])}
        if entry:
            entries[host] = {'host': host, **entry}
        else:
            entries.pop(host, None)
        return {**invariant, 'assign': list(entries.values())}


class Network:
    """The answer of `topos-query network`. A thing is a flow, or the answers of a flow that is allowed."""

    def __init__(self, answer: Table) -> None:
        self.flows: dict[Flow, Table] = {tuple(each['flow']): each for each in answer['flows']}
        self.template: dict[int, str] = {each['invariant']: each['template'] for each in answer['invariants']}
        self.without_answers: list[Table] = answer['without_answers']

    @functools.cached_property
    def denied(self) -> dict[Thing, list[int]]:
        """For each thing the invariants that deny it."""
        denied: dict[Thing, list[int]] = {flow: each['denied_by'] for flow, each in self.flows.items()}
        denied.update({(*flow, ANSWERS): [] for flow, each in self.flows.items() if each['permitted']})
        denied.update({(*each['flow'], ANSWERS): each['denied_by'] for each in self.without_answers})
        return denied

    def is_allowed(self, thing: Thing) -> bool:
        return bool(self.flows[thing[:2]]['answered' if thing[2:] else 'permitted'])

    def allowed(self) -> list[Flow]:
        return [flow for flow in self.flows if self.is_allowed(flow)]

    def by(self, thing: Thing) -> str:
        return joined(f'{number} {self.template[number]}' for number in self.denied[thing])

    def state(self, flow: Flow) -> str:
        """The state of a flow, in words."""
        if self.is_allowed(flow):
            return f'allowed {"with" if self.is_allowed((*flow, ANSWERS)) else "without"} answers'
        return f'denied by {self.by(flow)}' if self.flows[flow]['asked'] else 'not asked for'

    def changed(self, after: Network, left_out: set[Flow]) -> list[Flow]:
        """The flows except these that are allowed, or get answers, only before or only after a change."""
        return [flow for flow, each in self.flows.items()
                if (each['permitted'] != after.flows[flow]['permitted']
                    or each['answered'] != after.flows[flow]['answered']) and flow not in left_out]

    def covers_answers(self, flow: Flow) -> bool:
        """Whether the flow back is permitted for all of TCP, since answers have any destination port."""
        back = self.flows[flow[::-1]]
        return bool(back['permitted']) and covers(back['services'], TCP)

    def carries_tcp(self, flow: Flow) -> bool:
        services = self.flows[flow]['services']
        return not services or any(service.startswith('tcp') for service in services)
