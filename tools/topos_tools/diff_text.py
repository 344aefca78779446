"""Writes a difference for a reader, the weightiest first: as lines, or as Markdown."""
import re
from collections.abc import Iterable, Iterator
from dataclasses import dataclass

from .diff_flows import FlowChange
from .diff_model import Difference, Judged
from .diff_words import MOST_NAMES, arrow, invariant_name, invariant_names, products
from .report_model import Flow, Source
from .report_words import counted

MOST_LINES = 6  # of a section
GAINS = 'Flows that come or change'
UNKNOWN = 'this topos-query does not report which invariants are weaker and which gaps are new'
MARKS = {'comes': '+ flow', 'goes': '- flow', 'changes': '~ flow', 'answers come': 'answers come:',
         'answers go': 'answers go:'}
SPECIAL = re.compile(r'([\\`*_{}\[\]<>()#+|~&!])')


@dataclass
class Section:
    """A heading, and its lines, of which some are never cut."""
    title: str
    lines: list[str]
    uncut: int = 0

    def shown(self, is_whole: bool) -> list[str]:
        most = max(MOST_LINES, self.uncut)
        if is_whole or len(self.lines) <= most + 1:
            return self.lines
        return [*self.lines[:most], f'and {len(self.lines) - most} more lines (--all)']


class View:
    """The lines of a difference. `is_whole` cuts no list."""

    def __init__(self, difference: Difference, is_whole: bool) -> None:
        self.difference, self.is_whole = difference, is_whole
        self.most = None if is_whole else MOST_NAMES

    def text(self) -> str:
        lines = [self.verdict()]
        for section in self.sections():
            lines += section.shown(self.is_whole)
        return '\n'.join(lines) + '\n'

    def markdown(self) -> str:
        """Returns the difference for the description of a merge request."""
        lines = [f'**{escaped(self.verdict())}**']
        for section in self.sections():
            lines += ['', f'{section.title}:', '', *(f'- {escaped(line)}' for line in section.shown(self.is_whole))]
        return '\n'.join(lines) + '\n'

    def verdict(self) -> str:
        """Returns the sentence that a reviewer reads first."""
        difference = self.difference
        if difference.is_empty() and not difference.fails:
            nothing = 'nothing differs'
            return nothing if difference.opened else f'{nothing}, but {UNKNOWN}'
        weaker, opened = difference.weaker(), difference.opened
        known = [UNKNOWN] if weaker is None or opened is None else [
            _sentence(len(weaker), 'invariant is weaker', 'invariants are weaker'),
            _sentence(len(opened.gaps), 'gap is new', 'gaps are new')]
        return ', '.join([*known, _sentence(len(difference.fails), 'invariant fails', 'invariants fail'),
                          self.wider()])

    def wider(self) -> str:
        """Returns the part of the first line on flows that get more services: it names all of them."""
        found = self.difference.wider()
        told = '; '.join(f'{flows}: {services}' for _, flows, services in self.grouped(found, None))
        return _sentence(len(found), 'flow is wider', 'flows are wider') + (told and f': {told}')

    def sections(self) -> Iterator[Section]:
        """Yields the sections that have lines."""
        difference = self.difference
        opened, closed = difference.opened, difference.closed
        gains = [each for each in difference.flows if each.change in ('comes', 'changes')]
        others = [each for each in gains if not each.is_wider]
        rest = [each for each in difference.flows if each not in gains]
        wider = list(self.flows(difference.wider(), None))
        for title, lines in (
                ('Invariants that fail', self.failing()),
                ('Invariants that are weaker', self.judged('weaker', opened.judged if opened else [], self.old_names)),
                ('New gaps', self.gaps('new gap', opened.gaps if opened else [])),
                (GAINS, [*wider, *self.flows(others, self.most)]),
                ('Flows and answers that go, answers that come', self.flows(rest, self.most)),
                ('Invariants that are stricter',
                 self.judged('stricter', closed.judged if closed else [], self.new_names)),
                ('Gaps that are closed', self.gaps('closed gap', closed.gaps if closed else [])),
                ('Hosts', self.hosts()),
                ('Invariants and settings', self.settings()), ('Not known', self.unknown())):
            found = list(lines)
            if found:
                yield Section(title, found, len(wider) if title == GAINS else 0)

    def unknown(self) -> Iterator[str]:
        if self.difference.stopped:
            yield f'not known, since {self.difference.stopped}: what is stricter, and which gaps are closed'

    def failing(self) -> Iterator[str]:
        for each in self.difference.fails:
            before = ' (it failed before)' if each.failed_before else ''
            name = invariant_name(self.difference.new, each.number)
            flows = '; '.join(arrow(product, self.most) for product in products(each.offending))
            yield f'fails: invariant {name}: {flows}{before}'

    def judged(self, word: str, found: Iterable[Judged], names: 'Names') -> Iterator[str]:
        """Yields a line for each set of invariants, and of flows whose packets had the same other owners."""
        groups: dict[tuple[tuple[int, ...], str], list[Flow]] = {}
        for each in found:
            key = tuple(each.denied_by), ', '.join(
                f'{now} {names.verb} {other}' for now, other in zip(each.flow, each.other) if now != other)
            groups.setdefault(key, []).append(each.flow)
        for (numbers, note), flows in sorted(groups.items(), key=lambda group: -len(group[1])):
            listed = products(flows)
            told = '; '.join(arrow(product, self.most) for product in (listed if self.is_whole else listed[:3]))
            more = '' if self.is_whole or len(listed) <= 3 else f' and {len(listed) - 3} more groups'
            yield f'{word}: {names.of(numbers)}: {told}{more}{note and f" ({note})"}'

    @property
    def old_names(self) -> 'Names':
        gone = {each.old for each in self.difference.invariants if each.new is None}
        return Names(self.difference.old, 'was', {number: ' (removed)' for number in gone if number})

    @property
    def new_names(self) -> 'Names':
        came = {each.new for each in self.difference.invariants if each.old is None}
        return Names(self.difference.new, 'is', {number: ' (new)' for number in came if number})

    def gaps(self, word: str, flows: Iterable[Flow]) -> Iterator[str]:
        for product in products(flows):
            count = len(product[0]) * len(product[1])
            yield f'{word}: {arrow(product, self.most)}' + (f' ({count})' if count > 1 else '')

    def flows(self, found: Iterable[FlowChange], most: int | None) -> Iterator[str]:
        """Yields a line for flows that change in the same way."""
        for change, flows, told in self.grouped(found, most):
            yield f'{MARKS[change]} {flows}: {told}'

    def grouped(self, found: Iterable[FlowChange], most: int | None) -> Iterator[tuple[str, str, str]]:
        """Yields a change, the flows that it is of, and what follows them; of a list, the most names are shown."""
        groups: dict[tuple[str, str], list[Flow]] = {}
        for each in found:
            source = self.difference.old if each.change == 'goes' else self.difference.new
            told = each.text(most) + _quoted(source.page.flow(*each.flow).title)
            groups.setdefault((each.change, told), []).append(each.flow)
        for (change, told), flows in groups.items():
            for product in products(flows):
                yield change, arrow(product, most), told

    def hosts(self) -> Iterator[str]:
        for each in self.difference.hosts:
            source = self.difference.old if each.change in ('goes', 'renamed') else self.difference.new
            yield each.text(self.is_whole) + _quoted(source.page.host(each.host).title)

    def settings(self) -> Iterator[str]:
        for each in self.difference.invariants:
            yield each.text()
        yield from self.difference.settings


@dataclass
class Names:
    """Names the invariants of one of the descriptions."""
    source: Source
    verb: str  # between a host and the host of the other description
    notes: dict[int, str]

    def of(self, numbers: Iterable[int]) -> str:
        listed = list(numbers)
        notes = {self.notes.get(number, '') for number in listed}
        return invariant_names(self.source, listed) + (notes.pop() if len(notes) == 1 else '')


def _quoted(title: str) -> str:
    return f' "{title}"' if title else ''


def _sentence(number: int, one: str, many: str) -> str:
    return counted(number, one, many) if number else f'no {one}'


def escaped(text: str) -> str:
    """Returns a text without meaning in Markdown."""
    return SPECIAL.sub(r'\\\1', text)
