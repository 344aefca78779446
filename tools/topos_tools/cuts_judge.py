"""Evaluates saved connections by `topos trace`, and finds the reason by `topos-query network`."""
import bisect
from collections.abc import Iterable
from dataclasses import asdict, dataclass, field
from typing import Any

from .cuts_read import Connection
from .diff_flows import Side
from .diff_words import few, invariant_names
from .flows_services import NAMES, PORTS, of_words
from .import_sets import address_text, intersection, single
from .query import Programs, Stopped
from .report_model import Source
from .report_words import counted

AT_ONCE = 20_000  # connections that are traced by one program


@dataclass
class Cut:
    """The connections of one flow and one service that the rules do not let begin, or that get no answers."""
    flow: tuple[str, str]
    service: str
    reason: str
    connections: int = 0
    machines: set[int] = field(default_factory=set)
    example: str = ''

    def add(self, connection: Connection) -> None:
        self.connections += 1
        self.machines.add(connection.sender)
        self.example = self.example or f'packet {connection.words()}'

    def text(self) -> str:
        """Returns a line, in the words of `topos-load --dry-run`."""
        machines = counted(len(self.machines), 'machine')
        service = f' {self.service}' if self.service else ''
        flow = ' -> '.join(self.flow)
        return f'{flow}{service}: {counted(self.connections, "connection")} from {machines}, {self.reason}'

    def tree(self) -> dict[str, Any]:
        return {**asdict(self), 'machines': len(self.machines)}


@dataclass
class Judgement:
    """What a load would delete, and which of the others get no answers."""
    deleted: list[Cut]
    silent: list[Cut]
    remain: int

    def count(self) -> int:
        return sum(each.connections for each in self.deleted)


class Judge:
    """A description, its rules, and the owners of addresses."""

    def __init__(self, programs: Programs, source: Source) -> None:
        self.programs, self.source, self.side = programs, source, Side(source)
        intervals = sorted((low, high, host) for host, numbers in self.side.owned.items() for low, high in numbers)
        self.lows = [low for low, _, _ in intervals]
        self.intervals = intervals

    def owner(self, address: int) -> str | None:
        place = bisect.bisect_right(self.lows, address) - 1
        if place < 0 or self.intervals[place][1] < address:
            return None
        return self.intervals[place][2]

    def verdicts(self, connections: list[Connection]) -> list[bool]:
        """Returns for each connection whether the rules let it begin. Each first packet is traced alone."""
        rules, found = self.programs.rules(self.source.data), list[bool]()
        for start in range(0, len(connections), AT_ONCE):
            part = connections[start:start + AT_ONCE]
            events = ''.join(f'packet {each.words()}\nforget {each.words()}\n' for each in part)
            answers = self.programs.trace(rules, events)
            if len(answers) != 2 * len(part):
                raise Stopped('topos trace does not answer each event')
            found += [each == 'forward' for each in answers[::2]]
        return found

    def judge(self, connections: list[Connection]) -> Judgement:
        """Groups the connections that are deleted, and those that get no answers, by flow, service and reason."""
        deleted: dict[tuple[object, ...], Cut] = {}
        silent: dict[tuple[object, ...], Cut] = {}
        verdicts = self.verdicts(connections)
        for connection, passes in zip(connections, verdicts):
            ends = self.owner(connection.sender), self.owner(connection.receiver)
            if not passes:
                _add(deleted, connection, self._named(connection, ends), self._reason(connection, ends))
            elif self._is_silent(connection, ends):
                reason = 'the rules drop the answers'
                _add(silent, connection, self._named(connection, ends), reason)
        return Judgement(_sorted(deleted.values()), _sorted(silent.values()), sum(verdicts))

    def _named(self, connection: Connection, ends: tuple[str | None, str | None]) -> tuple[str, str]:
        sender, receiver = ends
        return sender or address_text(connection.sender), receiver or address_text(connection.receiver)

    def _is_silent(self, connection: Connection, ends: tuple[str | None, str | None]) -> bool:
        sender, receiver = ends
        if sender is None or receiver is None or connection.protocol != 6:
            return False
        return self.source.network.lacks_tcp((sender, receiver))

    def _reason(self, connection: Connection, ends: tuple[str | None, str | None]) -> str:
        """Returns why the rules drop the first packet of a connection."""
        sender, receiver = ends
        if sender is None or receiver is None:
            return 'an address of no host'
        if sender == receiver:
            return 'within one host'
        fact = self.source.network.flows[sender, receiver]
        said = []
        if not fact['asked']:
            said.append('not asked for')
        elif fact['services'] and not self._is_of(connection, fact['services']):
            said.append(f'asked for as {few(fact["services"])}')
        if fact['denied_by']:
            said.append(f'denied by {invariant_names(self.source, fact["denied_by"])}')
        if not said:
            raise Stopped(f'topos-query permits what topos drops: packet {connection.words()}')
        return ' and '.join(said)

    @staticmethod
    def _is_of(connection: Connection, words: list[str]) -> bool:
        service = connection.protocol * PORTS + connection.dport
        return bool(intersection(single(service), of_words(words)))


def service_of(connection: Connection) -> str:
    """Returns the service of a connection, as `topos-load` writes it."""
    name = NAMES.get(connection.protocol, f'protocol {connection.protocol}')
    return f'{name}/{connection.dport}' if connection.dport else name


def without_ports(cuts: Iterable[Cut]) -> list[Cut]:
    """Joins the connections of a flow and a reason, for any service."""
    found: dict[tuple[object, ...], Cut] = {}
    for each in cuts:
        whole = found.setdefault((each.flow, each.reason), Cut(each.flow, '', each.reason, example=each.example))
        whole.connections += each.connections
        whole.machines |= each.machines
    return _sorted(found.values())


def _add(cuts: dict[tuple[object, ...], Cut], connection: Connection, flow: tuple[str, str], reason: str) -> None:
    service = service_of(connection)
    cuts.setdefault((flow, service, reason), Cut(flow, service, reason)).add(connection)


def _sorted(cuts: Iterable[Cut]) -> list[Cut]:
    return sorted(cuts, key=lambda each: (-each.connections, each.flow, each.service))
