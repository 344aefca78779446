"""Asks `topos-query flows` what rules let pass, and leads its rules back to the lines of the save."""
import functools
import re
from dataclasses import dataclass
from typing import Any

from .flows_services import ALL_SERVICES, PORTS, number_of
from .import_bounds import Bound
from .import_save import MARK, Save
from .import_sets import Numbers, intersection, is_subset, joined, single
from .query import Programs, Stopped

Pair = tuple[str | None, str | None]  # None is for the addresses of no host
Packet = dict[str, Any] | str  # as an answer has it, or as the line of an events file
Places = dict[tuple[str, int], int]  # the line of the save by chain and number of the rule
POLICY = 0  # in place of a line
SOURCE = re.compile(rf'{MARK}\w+: forwards at .* what (.*) forwards\.\n')
COMMENT = re.compile(r'-m comment --comment "line (\d+)')
PROTOCOLS = {1: 'icmp', 6: 'tcp', 17: 'udp'}


@dataclass
class Range:
    """A range of services that pass, wholly or in part."""
    services: Numbers
    passing: Packet
    dropped: Packet | None  # if some packets of the services do not pass
    lines: tuple[int, ...]
    shown: int  # the service of `passing`

    @property
    def passes(self) -> str:
        return event_of(self.passing)

    @property
    def drops(self) -> str | None:
        return None if self.dropped is None else event_of(self.dropped)

    def example(self, services: Numbers) -> str | None:
        """Returns a packet of the services that passes, if one is known: if none is dropped, every packet passes."""
        shared = intersection(self.services, services)
        if is_subset(single(self.shown), shared):
            return self.passes
        if not shared or self.dropped is not None:
            return None
        protocol, port = divmod(shared[0][0], PORTS)
        return f'{" ".join(self.passes.split()[:3])} {PROTOCOLS.get(protocol, protocol)} 0 {port}'


Part = dict[str, Any]  # a range of services as an answer has it


class Flows:
    """What one text lets pass, by pairs. Of most pairs of a bound only the services are asked for."""

    def __init__(self, pairs: dict[Pair, list[Part]], text: str) -> None:
        self.pairs, self.text = pairs, text
        self.joined: dict[tuple[Pair, bool], Numbers] = {}
        self.read: dict[Pair, list[Range]] = {}
        self.lines: dict[tuple[tuple[str, int], ...], tuple[int, ...]] = {}  # of rules that were asked for

    @functools.cached_property
    def places(self) -> Places:
        return places_of(self.text)

    def ranges(self, pair: Pair) -> list[Range]:
        """Returns the ranges of services of which packets pass, with the rules."""
        if pair not in self.read:
            self.read[pair] = [self.range_of(part) for part in self.pairs.get(pair, ())]
        return self.read[pair]

    def range_of(self, part: Part) -> Range:
        rules = tuple([(each['chain'], each['rule']) for each in part.get('rules', ())])
        if rules not in self.lines:
            if not self.places.keys() >= set(rules):
                raise Stopped('the answer of topos-query names a rule that the text does not have')
            self.lines[rules] = tuple(sorted({self.places[place] for place in rules}))
        lines = (POLICY, *self.lines[rules]) if part.get('default') else self.lines[rules]
        passes = part['passes']
        return Range((interval(part),), passes, part['drops'], lines, number_of((passes['proto'], passes['dport'])))

    def whole(self, pair: Pair) -> Numbers:
        """Returns the services of which every packet passes."""
        return self.services(pair, True)

    def any(self, pair: Pair) -> Numbers:
        """Returns the services of which some packet passes."""
        return self.services(pair, False)

    def services(self, pair: Pair, is_whole: bool) -> Numbers:
        if (pair, is_whole) not in self.joined:
            self.joined[pair, is_whole] = joined([interval(part) for part in self.pairs.get(pair, ())
                                                  if part['drops'] is None or not is_whole])
        return self.joined[pair, is_whole]

    def meets(self, pair: Pair, services: Numbers) -> bool:
        """Whether some packet of the services passes."""
        return bool(intersection(self.any(pair), services))

    def without(self, omitted: Numbers) -> 'Flows':
        """Returns the flows without the services, which stay where all services pass."""
        if not omitted:
            return self

        def left(pair: Pair, parts: list[Part]) -> list[Part]:
            if self.whole(pair) == ALL_SERVICES:
                return parts
            return [part for part in parts if not is_subset((interval(part),), omitted)]

        pairs = {pair: left(pair, parts) for pair, parts in self.pairs.items()}
        return Flows({pair: parts for pair, parts in pairs.items() if parts}, self.text)


def interval(part: Part) -> tuple[int, int]:
    """Returns the numbers of the first and the last service of a range."""
    return number_of(part['low']), number_of(part['high'])


def texts_of(text: str, save: Save | None) -> list[str]:
    """Returns the texts that are asked about: both bounds of a save, or one if they are the same."""
    if save is None:
        return [text]
    bounds = [Bound(save, True).text, Bound(save, False).text]
    different = bounds if bounds[0].chains != bounds[1].chains else bounds[:1]
    return [bound.written(['topos-flows']) for bound in different]


def is_imported(text: str) -> bool:
    return text.startswith(MARK)


def source_of(text: str) -> str:
    """Returns the name of the save from which `topos-import` wrote a text, which has the lines of the save."""
    found = SOURCE.match(text)
    return found[1] if found else ''


def places_of(text: str) -> Places:
    """Returns the line of the save for each rule, which its comment has; the line itself without a comment."""
    places: Places = {}
    counts: dict[str, int] = {}
    for number, line in enumerate(text.split('\n'), 1):
        words = line.split(maxsplit=2)
        if words[:1] == ['-A']:
            counts[words[1]] = counts.get(words[1], 0) + 1
            comment = COMMENT.search(line)
            places[words[1], counts[words[1]]] = int(comment[1]) if comment else number
    return places


def ask_flows(programs: Programs, description: bytes, text: str) -> Flows:
    """Returns what `topos-query flows` answers on one text."""
    return flows_of(programs.ask_flows(description, encoded(text)), text)


def encoded(text: str) -> bytes:
    return text.encode(errors='surrogateescape')


def flows_of(answer: dict[str, Any], text: str) -> Flows:
    """Returns an answer on a text."""
    return Flows({(each['from'], each['to']): each['services'] for each in answer['pairs']}, text)


def event_of(packet: Packet) -> str:
    """Returns a packet as the line of an events file."""
    if isinstance(packet, str):
        return packet
    protocol = PROTOCOLS.get(packet['proto'], packet['proto'])
    return f'packet {packet["src"]} {packet["dst"]} {protocol} {packet["sport"]} {packet["dport"]}'
