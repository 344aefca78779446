"""A text by its lines, on which parts are marked."""
import bisect
import re
import textwrap
import unicodedata
from typing import Any

WIDTH = 110  # longer lines are cut around what is marked


class Mark:
    """A part of the text, and a word on it."""

    def __init__(self, start: int, end: int, note: str = '') -> None:
        self.start, self.end, self.note = start, max(end, start + 1), note


class Finding:
    """What a refusal is about: its title, the parts of the text, and sentences."""

    def __init__(self, title: str, marks: list[Mark], sentences: list[str]) -> None:
        self.title, self.marks, self.sentences = title, marks, sentences


def say(sentence: str) -> None:
    """Prints a sentence, a command of a shell on one line, and no character that acts on a terminal."""
    plain = ''.join(char if char == '\t' or char.isprintable() else char.encode('unicode_escape').decode()
                    for char in sentence)
    is_command = ': sed ' in plain
    print(plain if is_command else textwrap.fill(plain, WIDTH, break_long_words=False, break_on_hyphens=False))


def visible(text: str) -> str:
    """Returns the text with a ? in the place of each character that has no column of its own on a terminal."""
    return ''.join(char if char == '\t' or char.isprintable() and unicodedata.category(char)[0] != 'M' else '?'
                   for char in text)


def columns(text: str) -> int:
    return sum(2 if unicodedata.east_asian_width(char) in 'WF' else 1 for char in text)


class Page:
    """A text by its lines, on which parts are marked."""

    def __init__(self, name: str, text: str, is_shown: bool = True) -> None:
        self.name, self.text, self.is_shown = name, text, is_shown
        self.findings: list[Finding] = []
        self.sentences: list[str] = []  # at the end
        self.starts = [int(text.startswith('\ufeff'))] + [found.end() for found in re.finditer('\n', text)]
        self.said: set[str] = set()

    def line_of(self, at: int) -> int:
        return max(1, bisect.bisect_right(self.starts, at))

    def line(self, number: int) -> str:
        if number > len(self.starts):
            return ''
        end = self.starts[number] if number < len(self.starts) else len(self.text)
        return self.text[self.starts[number - 1]:end].rstrip('\r\n')

    def say(self, sentence: str) -> None:
        """Adds a sentence on all findings."""
        self.sentences.append(sentence)
        if self.is_shown:
            say(sentence)

    def show(self, finding: Finding, again: bool = True) -> None:
        """Adds a finding, and prints it; unless `again`, without the sentences that were printed before."""
        self.findings.append(finding)
        if self.is_shown:
            self.print(finding, again)

    def print(self, finding: Finding, again: bool) -> None:
        by_line: dict[int, list[Mark]] = {}
        for mark in finding.marks:
            by_line.setdefault(self.line_of(mark.start), []).append(mark)
        first = next(iter(by_line), 0)
        name = visible(self.name)
        print(f'{name}:{first}: {finding.title}' if first else f'{name}: {finding.title}')
        wide = len(str(max(by_line, default=0)))
        for number, marks in by_line.items():
            self.show_line(number, marks, wide)
        for sentence in finding.sentences:
            if again or sentence not in self.said:
                say(sentence)
            self.said.add(sentence)

    def show_line(self, number: int, marks: list[Mark], wide: int) -> None:
        begin, text = self.starts[number - 1], self.line(number)
        low, high = 0, len(text)
        if len(text) > WIDTH:
            low = min(max(0, marks[0].start - begin - WIDTH // 3), len(text) - WIDTH)
            high = low + WIDTH
        before, after = '.. ' if low else '', ' ..' if high < len(text) else ''
        shown = visible(text[low:high])
        print(f'{number:>{wide}} | {before}{shown}{after}'.rstrip())
        near = [mark for mark in marks if mark is marks[0] or low <= mark.start - begin < high + (high == len(text))]
        plain = [mark for mark in near if not mark.note]
        for row in [plain] * bool(plain) + [[mark] for mark in near if mark.note]:
            under = ' ' * len(before)
            for place, char in enumerate(shown + ' ' * (high == len(text)), low):
                hit = any(mark.start - begin <= place < mark.end - begin for mark in row)
                under += char if char == '\t' else ('^' if hit else ' ') * columns(char)
            print(f'{"":>{wide}} | {under.rstrip()} {row[0].note}'.rstrip())
        far = [mark for mark in marks if mark not in near]
        if far:
            self.show_line(number, far, wide)

    def tree(self) -> dict[str, Any]:
        """Returns the findings as data, with lines and columns counted from 1."""
        def place(mark: Mark) -> dict[str, Any]:
            line = self.line_of(mark.start)
            column = mark.start - self.starts[line - 1] + 1
            return {'line': line, 'column': column, 'length': mark.end - mark.start, 'note': mark.note}

        return {'file': self.name, 'sentences': self.sentences, 'places': [
            {'title': each.title, 'marks': list(map(place, each.marks)), 'sentences': each.sentences}
            for each in self.findings]}
