"""The data of a report: the answers of `topos-query network`, and additions from the description.

Nothing here decides whether a flow may pass. `Report.tree` is the output of `topos-report --json`.
"""
import datetime
import functools
import hashlib
import os
import time
from dataclasses import asdict, dataclass, field
from typing import Any

from .flows_services import TCP, covers
from .page import Page, Place, read_page
from .query import REFUSED, Programs, Stopped, read_bytes
from .report_words import (ANSWERED, COUNT_KEYS, DEFAULTS, DENIED, FORBIDDEN, GAP, ONE_WAY, PERMITTED, SELF,
                           attribute_words)

SCHEMA = 'topos-report 1'
Flow = tuple[str, str]


def flow_of(names: list[str]) -> Flow:
    """Returns a flow of an answer."""
    sender, receiver = names
    return sender, receiver


def state_of(answer: dict[str, Any]) -> str:
    """Returns the state of a flow of the answer."""
    if answer['permitted']:
        return ANSWERED if answer['answered'] else ONE_WAY
    if answer['asked']:
        return DENIED
    return GAP if answer['gap'] else FORBIDDEN


class Network:
    """The answer to `topos-query network`, by flow."""

    def __init__(self, answer: dict[str, Any]) -> None:
        self.hosts: list[dict[str, Any]] = answer['hosts']
        self.invariants: list[dict[str, Any]] = answer['invariants']
        self.names: list[str] = [host['name'] for host in self.hosts]
        self.number = {name: number for number, name in enumerate(self.names)}
        self.flows: dict[Flow, dict[str, Any]] = {flow_of(each['flow']): each for each in answer['flows']}
        self.states: dict[Flow, str] = {flow: state_of(each) for flow, each in self.flows.items()}
        self.silent: dict[Flow, list[int]] = {flow_of(each['flow']): each['denied_by']
                                              for each in answer['without_answers']}

    def of_state(self, states: str) -> list[Flow]:
        return [flow for flow, state in self.states.items() if state in states]

    def services(self, flow: Flow) -> list[str]:
        services: list[str] = self.flows[flow]['services']
        return services

    def denied_by(self, flow: Flow) -> list[int]:
        numbers: list[int] = self.flows[flow]['denied_by']
        return numbers

    @functools.cached_property
    def rows(self) -> list[str]:
        """A string for each sender, with the state to each receiver."""
        size, states = len(self.names), list(self.states.values())
        rows = [''.join(states[start:start + size - 1]) for start in range(0, len(states), max(size - 1, 1))]
        return [row[:number] + SELF + row[number:] for number, row in enumerate(rows or [''] * size)]

    def lacks_tcp(self, flow: Flow) -> bool:
        """Whether TCP passes, gets no answers, and is not answered by the flow back either."""
        services, back = self.services(flow), flow[::-1]
        carries = not services or any(each.startswith('tcp') for each in services)
        if not carries or self.states[flow] != ONE_WAY:
            return False
        return self.states[back] not in PERMITTED or not covers(self.services(back), TCP)


@dataclass
class Host:
    name: str
    at: list[str]
    rest: bool
    place: Place


@dataclass
class Listed:
    """A flow of the key `flow`."""
    flow: Flow
    services: list[str]
    state: str
    place: Place


@dataclass
class Entry:
    host: str
    attribute: str
    values: dict[str, Any]
    place: Place


@dataclass
class Guard:
    """A host that an invariant protects: the hosts that it lets through, and those that pass today."""
    host: str
    may: list[str]
    flows: list[str]
    answers: list[str]


@dataclass
class Exempt:
    """A part of an entry without which an invariant denies more pairs, and no fewer."""
    host: str
    part: str
    opens: int | None = None
    in_use: bool | None = None  # None: not judged
    flows: list[Flow] = field(default_factory=list)
    answers: list[Flow] = field(default_factory=list)


@dataclass
class Invariant:
    number: int
    template: str
    strategy: str
    holds: bool
    offending: list[Flow]
    own: dict[str, Any] | None  # the table of a template of one's own
    place: Place
    entries: list[Entry]
    default: str
    default_hosts: list[str]
    denied: list[Flow]  # not permitted, and denied by this invariant
    denied_asked: list[Flow]
    guards: list[Guard]
    exceptions: list[Exempt] = field(default_factory=list)
    unjudged: int = 0  # parts of entries for which there was no time

    @property
    def name(self) -> str:
        """The title, or else the comment."""
        return self.place.title or self.place.comment


@dataclass
class Source:
    """A description: its bytes, its table, its places and the answer on it."""
    path: str
    data: bytes
    table: dict[str, Any]
    page: Page
    network: Network
    seconds: float  # of the answer

    @classmethod
    def read(cls, programs: Programs, path: str) -> 'Source':
        data = read_bytes(path)
        began = time.monotonic()
        network = Network(programs.ask(data, 'network'))
        seconds = time.monotonic() - began
        table = programs.table(data)
        return cls(path, data, table, read_page(data, table), network, seconds)

    @property
    def name(self) -> str:
        return os.path.basename(self.path)

    def digest(self) -> str:
        return hashlib.sha256(self.data).hexdigest()

    @property
    def has_flow_key(self) -> bool:
        return 'flow' in self.table


def read_source(programs: Programs, path: str, status: int) -> Source:
    """Reads one of several descriptions. A refusal names the file, and ends with a status."""
    try:
        return Source.read(programs, path)
    except Stopped as stopped:
        if stopped.status != REFUSED:
            raise
        raise Stopped(f'{path} is refused: {stopped}', status) from None


def guards_of(network: Network, strategy: str, denied: list[Flow]) -> list[Guard]:
    """Lists for each protected host who passes the invariant; the sender is protected if it is on information."""
    side = 0 if strategy == 'information' else 1
    closed: dict[str, set[str]] = {}
    for flow in denied:
        closed.setdefault(flow[side], set()).add(flow[1 - side])
    found = []
    for host in (name for name in network.names if name in closed):
        may = [other for other in network.names if other != host and other not in closed[host]]
        flows = [(host, other) if side == 0 else (other, host) for other in may]
        used = [other for other, flow in zip(may, flows) if network.states[flow] in PERMITTED]
        answers = [other for other, flow in zip(may, flows) if side == 0 and other not in used
                   and network.states[flow[::-1]] == ANSWERED]
        found.append(Guard(host, may, used, answers))
    return found


def invariant_of(source: Source, answer: dict[str, Any]) -> Invariant:
    """Returns the facts on an invariant: those of the answer and those of the text."""
    network, page, number = source.network, source.page, answer['invariant']
    table = source.table['invariant'][number - 1]
    template = answer['template']
    own = next((each for each in source.table.get('template', []) if each['name'] == template), None)
    entries = []
    for entry in table.get('assign', []):
        values = {key: value for key, value in entry.items() if key != 'host'}
        entries.append(Entry(entry['host'], attribute_words(values), values, page.entry(number, entry['host'])))
    named = {entry.host for entry in entries}
    place = page.invariant(number)
    if own and not (place.title or place.comment):
        above = page.templates.get(template, place)
        place = Place(place.line, above.title, place.why or above.why, above.comment)
    denied = [flow for flow, each in network.flows.items() if number in each['denied_by']]
    return Invariant(
        number, template, answer['strategy'], answer['holds'], [flow_of(flow) for flow in answer['offending']], own,
        place, entries, own['default'] if own else DEFAULTS.get(template, 'default'),
        [name for name in network.names if name not in named], denied,
        [flow for flow in denied if network.states[flow] == DENIED], guards_of(network, answer['strategy'], denied))


@dataclass
class Report:
    """All that a page shows."""
    source: Source
    made: str
    program: dict[str, Any]
    hosts: list[Host]
    flows: list[Listed]
    invariants: list[Invariant]
    reasons: dict[Flow, dict[int, list[Flow]]] = field(default_factory=dict)
    groups: list[list[int]] = field(default_factory=list)
    orders: dict[str, list[int]] = field(default_factory=dict)
    reached: dict[str, list[str]] = field(default_factory=dict)  # for each judged host, the hosts that reach it
    changes: Any = None  # report_changes.Changes

    @property
    def network(self) -> Network:
        return self.source.network

    def counts(self) -> dict[str, int]:
        """Returns the numbers of the summary."""
        states = ''.join(self.network.rows)
        counts = {name: states.count(state) for state, name in COUNT_KEYS.items()}
        failing = sum(not each.holds for each in self.invariants)
        asked = counts['with_answers'] + counts['without_answers'] + counts['denied']
        return {'hosts': len(self.hosts), 'pairs': len(self.network.flows), 'asked': asked,
                'permitted': asked - counts['denied'], **counts, 'invariants': len(self.invariants),
                'holding': len(self.invariants) - failing, 'failing': failing}

    def tree(self) -> dict[str, Any]:
        """Returns the report as plain values, for JSON."""
        network = self.network
        return {
            'schema': SCHEMA, 'made': self.made,
            'file': {'name': self.source.name, 'bytes': len(self.source.data), 'sha256': self.source.digest()},
            'program': self.program, 'has_flow_key': self.source.has_flow_key,
            'answers': self.source.table.get('answers', 'all'), 'lines_known': self.source.page.is_known,
            'counts': self.counts(),
            'hosts': [{**placed(each), 'reached_from': self.reached.get(each.name)} for each in self.hosts],
            'flows': [placed(each) for each in self.flows],
            'states': network.rows,
            'denied': [{'flow': flow, 'denied_by': each['denied_by']}
                       for flow, each in network.flows.items() if each['denied_by']],
            'without_answers': [{'flow': flow, 'denied_by': by, 'lacks_tcp': network.lacks_tcp(flow)}
                                for flow, by in network.silent.items()],
            'reasons': [{'flow': flow, 'invariant': number, 'flows': flows}
                        for flow, each in self.reasons.items() for number, flows in each.items()],
            'invariants': [invariant_tree(each) for each in self.invariants],
            'groups': [[network.names[host] for host in group] for group in self.groups],
            'changes': asdict(self.changes) if self.changes else None,
        }


def placed(item: Any) -> dict[str, Any]:
    """Returns an item as plain values, with the keys of its place and its own."""
    found = asdict(item)
    place = found.pop('place')
    return {**found, 'line': place['line'], 'title': place['title'], 'why': place['why']}


def invariant_tree(invariant: Invariant) -> dict[str, Any]:
    found = placed(invariant)
    found.pop('denied')
    found['entries'] = [placed(entry) for entry in invariant.entries]
    return {**found, 'comment': invariant.place.comment, 'denied_pairs': len(invariant.denied)}


def proof_of(path: str, name: str) -> dict[str, Any]:
    """Returns the SHA-256 of a program, and whether the list `topos.proved` beside it has it under a name."""
    with open(path, 'rb') as program:
        digest = hashlib.file_digest(program, 'sha256').hexdigest()
    try:
        with open(os.path.join(os.path.dirname(os.path.realpath(path)), 'topos.proved'), encoding='utf-8') as file:
            is_listed = f'{digest}  {name}' in file.read().splitlines()
    except OSError:
        is_listed = False
    return {'sha256': digest, 'proved': is_listed}


def read_report(programs: Programs, path: str) -> Report:
    """Reads a description, and returns its report without exceptions, reasons and orders."""
    source = Source.read(programs, path)
    network, page = source.network, source.page
    hosts = [Host(each['name'], each['at'], each['rest'], page.host(each['name'])) for each in network.hosts]
    listed = [Listed(flow, network.services(flow), network.states[flow], page.flow(*flow))
              for flow in network.of_state(PERMITTED + DENIED)] if source.has_flow_key else []
    made = datetime.datetime.now(datetime.UTC).strftime('%Y-%m-%d %H:%M UTC')
    program = {**proof_of(programs.query, 'query'), 'topos': proof_of(programs.topos, 'program')}
    return Report(source, made, program, hosts, listed, [invariant_of(source, each) for each in network.invariants])


def read_reasons(programs: Programs, report: Report, seconds: float) -> None:
    """Sets the minimal failing sets of more than one flow, of as many denied flows as the time allows."""
    until = time.monotonic() + seconds
    for flow in report.network.of_state(DENIED):
        if time.monotonic() > until:
            return
        answer = programs.ask(report.source.data, 'why', *flow)
        sets = {each['invariant']: [flow_of(step) for step in each['flows']] for each in answer['denied_by']
                if len(each['flows']) > 1}
        if sets:
            report.reasons[flow] = sets
