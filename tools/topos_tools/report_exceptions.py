"""Which parts of entries are exceptions, and which permitted flows use them.

A part of an entry is an exception if its invariant denies more pairs without it, and no fewer. No rule of a template
is defined here: each part is left out in a copy of the description, and `topos-query` evaluates the copy. In an entry
without an exception the kind is replaced by one that another entry has. The copies are:

1. the permitted flows alone, with up to 16 changed invariants: a part is in use if its invariant fails;
2. the flows that all of these permit, with the invariants and their changes: which pairs only a part opens. If no
   changed invariant fails in the first copy, its answer reports it;
3. the description with one part less, for a part that no flow uses: whether answers use it.
"""
import functools
import os
import time
from collections.abc import Iterator
from dataclasses import dataclass, field
from typing import Any

from .query import Programs, text_of, waves
from .report_model import Exempt, Flow, Network, Report, flow_of
from .report_words import ANSWERED, PERMITTED, attribute_words

AT_ONCE = 16  # invariants of a description


@dataclass
class Part:
    """A part of an entry, and the invariant without it."""
    number: int
    host: str
    words: str
    invariant: dict[str, Any]
    fails: bool = False
    uses: list[Flow] = field(default_factory=list)
    opens: frozenset[int] = frozenset()  # pairs by their number
    is_exception: bool = False
    is_judged: bool = False


def smaller_entries(values: dict[str, Any]) -> Iterator[tuple[str, dict[str, Any] | None]]:
    """Yields the words for a part of an entry, and the entry without it, or None for no entry."""
    has_parts = False
    for key, value in values.items():
        if isinstance(value, list):
            for element in dict.fromkeys(value):
                has_parts = True
                yield f'{key} {element}', {**values, key: [each for each in value if each != element]}
        elif value is True:
            has_parts = True
            yield key, {**values, key: False}
        elif isinstance(value, int) and value and len(values) > 1 and 'kind' not in values:
            yield f'{key} {value}', {other: each for other, each in values.items() if other != key}
    if not has_parts:
        yield attribute_words(values), None


def parts_of(number: int, invariant: dict[str, Any]) -> Iterator[Part]:
    """Yields the parts of all entries of an invariant."""
    entries = invariant.get('assign', [])
    for entry in entries:
        values = {key: value for key, value in entry.items() if key != 'host'}
        for words, changed in smaller_entries(values):
            assign = [{'host': entry['host'], **(changed or {})} if other is entry else other
                      for other in entries if other is not entry or changed is not None]
            yield Part(number, entry['host'], words, {**invariant, 'assign': assign})


def kinds_of(number: int, invariant: dict[str, Any], known: set[str]) -> Iterator[Part]:
    """Yields the entries of other hosts than the known ones, each with another kind that an entry with its keys has."""
    entries = invariant.get('assign', [])
    for entry in entries:
        kinds = dict.fromkeys(other['kind'] for other in entries if 'kind' in entry
                              and other.keys() == entry.keys() and other['kind'] != entry['kind'])
        for kind in kinds if entry['host'] not in known else ():
            words = attribute_words(entry)
            assign = [other if other is not entry else {**entry, 'kind': kind} for other in entries]
            yield Part(number, entry['host'], f'{words}, not {kind}', {**invariant, 'assign': assign})


class Judge:
    """Evaluates parts on copies of a description until its time is over."""

    def __init__(self, programs: Programs, report: Report, seconds: float) -> None:
        self.programs, self.table, self.network = programs, report.source.table, report.network
        self.permitted = report.network.of_state(PERMITTED)
        self.until = time.monotonic() + seconds
        # The seconds of the last questions. A copy takes about as long as the file, and those asked side by side share
        # this process.
        self.step = report.source.seconds * (os.cpu_count() or 1)

    def is_late(self, questions: int = 1) -> bool:
        """Whether the time ends before a number of questions is answered."""
        return time.monotonic() + questions * self.step > self.until

    def copy(self, flows: list[Flow], invariants: list[dict[str, Any]]) -> bytes:
        return text_of({**self.table, 'flow': [list(flow) for flow in flows], 'invariant': invariants})

    def ask(self, texts: list[bytes]) -> list[dict[str, Any] | None]:
        began = time.monotonic()
        answers = self.programs.ask_all(texts, 'network')
        self.step = time.monotonic() - began
        return answers

    def read_use(self, batches: list[list[Part]]) -> list[Part]:
        """Sets whether the invariants fail on the permitted flows, and returns the parts to evaluate on fewer flows."""
        left: list[Part] = []
        texts = [self.copy(self.permitted, [part.invariant for part in parts]) for parts in batches]
        for parts, answer in zip(batches, self.ask(texts), strict=True):
            if answer is None:
                left += self.read_halves(parts)
                continue
            for part, told in zip(parts, answer['invariants'], strict=True):
                part.is_judged = True
                part.fails = not told['holds']
                part.uses = [flow_of(flow) for flow in told['offending']]
            if any(part.fails for part in parts):
                left += parts
            else:
                compare(parts, self.denied, denied_places(answer))
        return left

    def read_halves(self, parts: list[Part]) -> list[Part]:
        """Does the same for parts with which the copy is refused. A part that is refused by itself is no exception."""
        half = len(parts) // 2
        if half:
            return [] if self.is_late() else self.read_use([parts[:half], parts[half:]])
        parts[0].is_judged = True
        return []

    @functools.cached_property
    def denied(self) -> dict[int, set[int]]:
        """The flows that each invariant denies, by number."""
        found: dict[int, set[int]] = {number: set() for number in range(1, len(self.network.invariants) + 1)}
        for place, each in enumerate(self.network.flows.values()):
            for number in each['denied_by']:
                found[number].add(place)
        return found

    def read_opened(self, batches: list[list[Part]]) -> None:
        """Sets which pairs only the parts open, given flows on which the invariants hold with and without them."""
        texts, numbers = [], []
        for parts in batches:
            offending = {flow for part in parts for flow in part.uses}
            numbers.append(list(dict.fromkeys(part.number for part in parts)))
            invariants = [self.table['invariant'][number - 1] for number in numbers[-1]]
            texts.append(self.copy([flow for flow in self.permitted if flow not in offending],
                                   [*invariants, *(part.invariant for part in parts)]))
        for parts, own, answer in zip(batches, numbers, self.ask(texts), strict=True):
            if answer:
                denied = denied_places(answer)
                compare(parts, dict(zip(own, denied)), denied[len(own):])

    def read_lost(self, parts: list[Part]) -> Iterator[tuple[list[Flow], list[Flow]]]:
        """Yields for each part the flows that are not permitted without it, and those that get no answers."""
        texts = []
        for part in parts:
            invariants = [*self.table['invariant']]
            invariants[part.number - 1] = part.invariant
            texts.append(text_of({**self.table, 'invariant': invariants}))
        for answer in self.ask(texts):
            after = Network(answer) if answer else self.network
            yield ([flow for flow in self.permitted if after.states[flow] not in PERMITTED],
                   [flow for flow in self.permitted if self.network.states[flow] == ANSWERED
                    and after.states[flow] != ANSWERED])


def denied_places(answer: dict[str, Any]) -> list[set[int]]:
    """Returns for each invariant of an answer the flows that it denies, by their places."""
    denied: list[set[int]] = [set() for _ in answer['invariants']]
    for place, each in enumerate(answer['flows']):
        for number in each['denied_by']:
            denied[number - 1].add(place)
    return denied


def compare(parts: list[Part], before: dict[int, set[int]], denied: list[set[int]]) -> None:
    """Sets which pairs only the parts open, from what the invariants deny with them, and without each."""
    for part, now in zip(parts, denied, strict=True):
        part.opens = frozenset(now - before[part.number])
        part.is_exception = bool(part.opens) and before[part.number] <= now


def batches_of(parts: list[Part], has_originals: bool) -> Iterator[list[Part]]:
    """Yields the parts in lists whose invariants, with the unchanged ones if these are wanted, fit in a description."""
    batch: list[Part] = []
    for part in parts:
        numbers = {each.number for each in [*batch, part]} if has_originals else set()
        if len(batch) + 1 + len(numbers) > AT_ONCE:
            yield batch
            batch = []
        batch.append(part)
    if batch:
        yield batch


def distinct(parts: list[Part]) -> list[Part]:
    """Returns the exceptions. If several of one host have the same effect, it returns the first."""
    found: dict[tuple[int, str, frozenset[int]], Part] = {}
    for part in parts:
        if part.is_exception:
            found.setdefault((part.number, part.host, part.opens), part)
    return list(found.values())


def least(parts: list[Part]) -> list[Part]:
    """Returns the exceptions, for each host the one that opens the fewest pairs."""
    found: dict[tuple[int, str], Part] = {}
    for part in sorted(filter(lambda each: each.is_exception, parts), key=lambda each: len(each.opens)):
        found.setdefault((part.number, part.host), part)
    return list(found.values())


def read_exceptions(programs: Programs, report: Report, seconds: float) -> None:
    """Sets the exceptions of all invariants, as far as the time suffices."""
    judge = Judge(programs, report, seconds)
    tables = list(enumerate(report.source.table.get('invariant', []), 1))
    found = distinct(judged_parts(judge, report, [part for each in tables for part in parts_of(*each)]))
    known = {number: {part.host for part in found if part.number == number} for number, _ in tables}
    found += least(judged_parts(judge, report, [part for each in tables for part in kinds_of(*each, known[each[0]])]))
    unused: list[tuple[Part, Exempt]] = []
    for part in found:
        told = Exempt(part.host, part.words, len(part.opens), True if part.fails else None, part.uses)
        report.invariants[part.number - 1].exceptions.append(told)
        if not part.fails:
            unused.append((part, told))
    read_unused(judge, unused)


def judged_parts(judge: Judge, report: Report, parts: list[Part]) -> list[Part]:
    """Evaluates the first parts, as many as the time allows, and returns them."""
    for wave in waves(list(batches_of(parts, False))):
        if judge.is_late(2):
            break
        for left in waves(list(batches_of(judge.read_use(wave), True))):
            if judge.is_late():
                set_unjudged(left)
            else:
                judge.read_opened(left)
    for part in parts:
        report.invariants[part.number - 1].unjudged += not part.is_judged
    return [part for part in parts if part.is_judged]


def set_unjudged(batches: list[list[Part]]) -> None:
    for parts in batches:
        for part in parts:
            part.is_judged = False


def read_unused(judge: Judge, unused: list[tuple[Part, Exempt]]) -> None:
    """Sets whether flows or answers use the exceptions that no permitted flow needs by itself."""
    for wave in waves(unused):
        if judge.is_late():
            return
        for (_, told), (flows, answers) in zip(wave, judge.read_lost([part for part, _ in wave]), strict=True):
            told.flows, told.answers = flows, answers
            told.in_use = bool(flows or answers)
