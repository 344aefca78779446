"""Texts that are read line by line: the place of a fault in a line, and advice, both by answers of the program.

A mark begins with the first word from which on the program refuses the line for the reason that it reports, and it ends
with the first word after which none of the endings helps that are tried. Advice is shown if the program bears it out:
it accepts the advised line, or refuses it further right.
"""
import itertools
import re
import shlex
from collections.abc import Iterable, Iterator

from .where_advice import WORDS, Remedy, advice, explained, first_where, near
from .where_page import Finding, Mark, Page
from .where_refusals import Program, Refusal

Word = tuple[str, int, int]  # and its columns
LONG, WIDE = 200, 40  # lines above which fewer are asked about, and words of a line above which places are bisected
CONFLICTS = ('BadChain', 'Ambiguous', 'DuplicateFlow', 'Absent')  # reasons that a line above may have
ALONE = ('BadValue', 'Interface')  # reasons that no other word of the line has
FAULTS = 8  # that are looked for in a line
ENDING = {
    'NoCommit': 'The text ends without COMMIT: it was cut off. Save it again.',
    'TooLong': 'The text is too long: a text of rules has at most 67,108,864 bytes, of events 16,777,216, of edits '
               '1,048,576.'}
WINDOWS = {  # characters that an editor adds there, with what is said of them, and a command of sed that takes them out
    '\ufeff': ('The text begins with a byte order mark, U+FEFF: save it without one.', r'1s/^\xEF\xBB\xBF//'),
    '\r': ("The line ends as those of Windows do: take the ends out with tr -d '\\r'.", r's/\r//g')}


def unix(line: str) -> str:
    """Returns the line without the characters that an editor adds on Windows."""
    return line.removeprefix('\ufeff').replace('\r', '')


def words_of(line: str) -> list[Word]:
    return [(found[0], found.start(), found.end()) for found in re.finditer(r'[^ \t]+', line)]


class Told:
    """What is wrong in a line: its columns, sentences, other lines that are shown, and the lines that a copy drops."""

    def __init__(self, start: int, end: int, sentences: Iterable[str], others: Iterable[int] = (),
                 drop: set[int] | None = None, more: Iterable[tuple[int, int]] = ()) -> None:
        self.spans, self.sentences = [(start, end), *more], [each for each in sentences if each]
        self.others, self.drop = list(others), drop  # None is the line itself


class RefusedLine:
    """A line that is refused after the lines above it, and what the program says of parts of it."""

    def __init__(self, text: 'LineText', above: list[str], line: str, name: str) -> None:
        self.text, self.above, self.line, self.name = text, above, line, name
        self.words, self.tail = text.parts(line)
        self.asked: dict[str, str] = {}
        self.mended = ''  # the line with what was accepted last

    def reason(self, *lines: str) -> str:
        """Returns why one of these lines is refused after the lines above, or nothing."""
        key = '\n'.join(lines)
        if key not in self.asked:
            refusal, at = self.text.whole(self.text.text(self.above + list(lines))), len(self.above)
            self.asked[key] = refusal.name if refusal and at < refusal.line <= at + len(lines) else ''
        return self.asked[key]

    def beginning(self, count: int, ending: str) -> str:
        """Returns the first words of the line, with an ending."""
        return f'{self.line[:self.words[count - 1][2]] if count else ""} {ending}'.rstrip()

    def is_refused(self, count: int) -> bool:
        """Whether the line is refused for the reason up to this word."""
        return self.is_stuck(count, self.text.closings(self, count))

    def is_stuck(self, count: int, endings: Iterable[str]) -> bool:
        """Whether each of these endings after a word leaves the reason, if it makes a whole line at all."""
        said = set()
        for ending in endings:
            said.add(self.reason(self.beginning(count, ending)))
            if not said <= {self.name, 'BadLine'}:
                return False
        return self.name in said

    def place(self) -> tuple[int, int]:
        """Returns the first and the last marked word, counted from 1, or 0 for what follows the words."""
        count = len(self.words)
        if self.reason(self.line) != self.name:
            return min(1, count), count
        first = first_where(self.is_refused, 0, count) if count > WIDE else count
        while first > 0 and self.is_refused(first - 1):
            first -= 1
        last = first
        while 0 < last < count and self.text.endings and not self.is_stuck(last, self.text.endings):
            last += 1
        return first, last

    def columns(self, place: tuple[int, int]) -> tuple[int, int]:
        if not place[0]:
            return self.line.rindex(self.tail) if self.tail else 0, len(self.line.rstrip(' \t\r'))
        return self.words[place[0] - 1][1], self.words[place[1] - 1][2]

    # Advice.

    def helps(self, low: int, high: int, put: str, more: int = 0) -> bool:
        """Whether the program, with other text in a part of the line, reads the line, or that part and `more` words."""
        lines = [self.line[:low] + each + self.line[high:] for each in put.split('\n')]
        if not lines[0].strip():
            return False
        said, end = self.reason(*lines), low + len(put)
        is_read = not said or not self.text.is_free and said not in (self.name, 'BadLine')
        if not is_read and len(lines) == 1 and (self.text.is_free or said == self.name):
            other = RefusedLine(self.text, self.above, lines[0], said)
            count = sum(start < end for _, start, _ in other.words) + more
            is_read = count < len(other.words) + bool(other.tail) and not other.is_refused(count)
        if is_read:
            self.mended = lines[0] if len(lines) == 1 else ''
        return is_read

    def advice(self, place: tuple[int, int]) -> list[str]:
        """Returns sentences on a way to mend the line, or none."""
        (start, end), general = self.columns(place), self.text.sentence(self.name, self.marked(place), self.line)
        told = self.likely_word(place)
        if told:
            return [f'{general} {told}']
        for remedy in self.text.remedies:
            for found in remedy.pattern.finditer(self.line):
                for put in remedy.puts(found) if found.start() < end and found.end() > start else ():
                    if self.helps(found.start(), found.end(), put, not put):
                        said = remedy.sentence(found[0], put)
                        return [said if remedy.said else f'{general} {said}', self.text.by_hand * (not remedy.shown)]
        for piece, low, high in self.pieces(place):
            value = explained(piece, self.text.values.get(self.name, []), lambda put: self.helps(low, high, put))
            if value:
                return [value[0] + (f' Write `{value[1]}` in place of `{piece}`.' if value[1] else '')]
        if self.name == 'BadValue' and self.text.endings and not self.is_stuck(place[1], self.text.endings):
            return [f'After `{self.words[place[1] - 1][0]}` the line ends, and the value is missing.']
        cut = self.without(place)
        return [general + f' Without `{cut}` topos reads on.' * bool(cut), self.text.by_hand * bool(cut)]

    def marked(self, place: tuple[int, int]) -> str:
        start, end = self.columns(place)
        return self.line[start:end]

    def pieces(self, place: tuple[int, int]) -> Iterator[Word]:
        """Returns the marked words from the last one on, and before each of them what its signs part."""
        for word, start, _ in reversed(self.words[max(place[0], 1) - 1:place[1]]):
            for piece in [*re.finditer('[^=,]+', word), *re.finditer('.*[=,].*', word)]:
                yield piece[0], start + piece.start(), start + piece.end()

    def likely_word(self, place: tuple[int, int]) -> str:
        for piece, low, high in self.pieces(place):
            likely = near(piece, self.text.known())
            if likely and self.helps(low, high, likely):
                return f'Is `{likely}` meant?'
        return ''

    def without(self, place: tuple[int, int]) -> str:
        """Returns the least part of the line, around the mark, without which the program reads on, or nothing."""
        (first, last), parts = place, list[tuple[int, int]]()
        for size in range(last - first + 1, last - first + 13) if first and self.text.is_free else ():
            for start in (first, first - 1, first - 2):
                stop = start + size - 1
                if 0 < start and last <= stop <= len(self.words):
                    low, high = self.words[start - 1][1], self.words[stop - 1][2]
                    parts.append((low, high + len(self.line[high:]) - len(self.line[high:].lstrip(' \t,'))))
        for part in [each for each in parts if not self.reason(self.line[:each[0]] + self.line[each[1]:])] + parts:
            if self.helps(*part, '', 1):
                return self.line[slice(*part)].rstrip(' \t,')
        return ''

    def conflict(self) -> int | None:
        """Returns which line above, counted from 0, is why the line is refused, if one is."""
        def after(count: int) -> str:
            return RefusedLine(self.text, self.above[:count], self.line, self.name).reason(self.line)
        count = first_where(lambda each: after(each) == self.name, 0, len(self.above))
        return count - 1 if count and not after(count - 1) else None


class LineText:
    """A text that is read line by line, and copies of it without lines."""
    what, section = '', ''  # as the program names it in its refusals, and as where_advice.toml does
    question: list[str] = []  # the words with which the program reads it
    before: tuple[bytes, ...] = ()  # the files that are named before it
    is_free = True  # whether a line goes on where words are cut out of it
    description: bytes | None = None  # which edits change

    def __init__(self, program: Program, page: Page) -> None:
        self.program, self.page, own = program, page, WORDS[self.section]
        self.lines = list(enumerate(page.text.split('\n'), 1))  # with their numbers in FILE
        self.dropped: list[int] = []
        self.added: list[str] = []  # commands of sed
        self.sentences: dict[str, str] = own['sentences']  # on each reason
        self.remedies = [Remedy(*row) for row in own['remedies']]
        self.values = {name: advice(*names) for name, names in own['values'].items()}  # advice on a word, by reasons
        self.vocabulary: list[str] = own['vocabulary']  # words that may be meant
        self.endings: list[str] = own.get('endings', [])  # which are tried after a word that may want one
        self.by_hand, self.loss, self.more = (own.get(key, '') for key in ('by_hand', 'loss', 'more'))

    def whole(self, text: bytes) -> Refusal | None:
        """Returns the refusal of a text of this kind."""
        return self.program.ask(self.question, *self.before, text)

    def parts(self, line: str) -> tuple[list[Word], str]:
        """Returns the words of a line, and what has to follow each of its beginnings."""
        return words_of(line), ''

    def closings(self, line: RefusedLine, count: int) -> Iterable[str]:
        """Returns what is needed after the first words of a line to judge them."""
        return line.tail,

    def told(self, line: RefusedLine, refusal: Refusal, at: int) -> Told | None:
        """Returns what is wrong in a line of the copy, whose place is counted from 0, if that is known otherwise."""
        return None

    def is_read_as(self, refused: RefusedLine, plain: str) -> bool:
        """Whether another line in the place of a refused one is not refused for the same reason."""
        return refused.reason(plain) != refused.name

    def depends(self, refusal: Refusal, line: str) -> bool:
        """Whether the line may be refused only because a line was dropped."""
        return False

    def summary(self, accepted: bool) -> Iterator[str]:
        """Returns sentences on what a copy leaves out."""
        if self.dropped and self.loss:
            yield f'{self.loss}: {spans(sorted(self.dropped))}.'
        if accepted and (self.dropped or self.added):
            yield self.command()

    def known(self) -> Iterable[str]:
        """Returns words that may be meant."""
        return self.vocabulary

    def text(self, lines: list[str] | None = None) -> bytes:
        return '\n'.join([line for _, line in self.lines] if lines is None else lines).encode(errors='surrogateescape')

    def ask(self) -> Refusal | None:
        """What topos says of the copy."""
        return self.whole(self.text())

    def sentence(self, name: str, marked: str, line: str) -> str:
        """Returns a sentence on a reason for which the program refuses a line."""
        return self.sentences.get(name, f'{name}: see docs/TEXTS.md.').replace('{}', f'`{marked}`')

    def refused(self, at: int, line: str, name: str) -> RefusedLine:
        """Returns the line after those above it, in a long text without rules if it is refused alike there."""
        above = [text for _, text in self.lines[:at]]
        if len(above) > LONG and name not in CONFLICTS:
            few = RefusedLine(self, [text for text in above if text.lstrip(' \t').startswith((':', '*'))], line, name)
            if few.reason(line) == name:
                return few
        return RefusedLine(self, above, line, name)

    def explained(self, refusal: Refusal, at: int, line: str) -> Told:
        """Returns what is wrong in a line of the copy, whose place is counted from 0."""
        refused = self.refused(at, line, refusal.name)
        told = self.told(refused, refusal, at)
        if told is not None:
            return told
        if unix(line) != line and self.is_read_as(refused, unix(line)):
            sentences = [said for char, (said, _) in WINDOWS.items() if char in line]
            return Told(0, len(line) - 1 if '\r' in line else 1, sentences, drop=set())
        if refusal.name == 'TooMany':
            return Told(0, len(line), [self.sentence(refusal.name, '', line)])
        place, plain = refused.place(), re.sub('[\udc80-\udcff]', 'x', line)
        if plain != line and refused.reason(plain) != refusal.name:
            return Told(*refused.columns(place), ['This is no UTF-8: save the file as UTF-8.'])
        other = refused.conflict() if refusal.name in CONFLICTS else None
        if other is not None:
            number = self.lines[other][0]
            name = f'{refusal.name} again' if f'{refusal.name} again' in self.sentences else refusal.name
            said = f'{self.sentence(name, refused.marked(place), line)} Without line {number} topos reads it.'
            return Told(*refused.columns(place), [said], [number])
        told = Told(*refused.columns(place), refused.advice(place))
        self.look_on(told, refused, at)
        return told

    def look_on(self, told: Told, refused: RefusedLine, at: int) -> None:
        """Adds further faults of the line that no change to a word on their left can cause."""
        line = refused.line
        for _ in range(FAULTS):
            name = refused.reason(refused.mended) if refused.mended else ''
            if name not in ALONE:
                return
            refused = self.refused(at, refused.mended, name)
            place, shift = refused.place(), len(line) - len(refused.line)
            start, end = refused.columns(place)
            if not place[0] or start + shift < told.spans[-1][1]:
                return
            told.spans.append((start + shift, end + shift))
            told.sentences += [said for said in refused.advice(place) if said and said not in told.sentences]

    def shown(self, refusal: Refusal) -> tuple[Finding, set[int] | None]:
        """The finding, and the lines that a copy leaves out."""
        is_line = 0 < refusal.line <= len(self.lines)
        number, line = self.lines[refusal.line - 1] if is_line else (refusal.line, '')
        if refusal.name in ENDING or not is_line:
            at = len(self.page.text)
            marks = [Mark(at, at)] if refusal.line else []
            said = ENDING.get(refusal.name, f'{refusal.name} of the whole text.')
            return Finding(f'line {number}: {refusal.name}', marks, [said]), None
        if not 0 < number <= len(self.page.starts):
            return Finding(f'line {refusal.line} of a copy: {refusal.name}', [], []), None
        told, starts = self.explained(refusal, refusal.line - 1, line), self.page.starts
        marks = [Mark(starts[number - 1] + start, starts[number - 1] + end) for start, end in told.spans]
        for other in told.others:
            marks.append(Mark(starts[other - 1], starts[other - 1] + len(self.page.line(other))))
        return Finding(f'line {number}: {refusal.name}', marks, told.sentences), \
            {number} if told.drop is None else told.drop

    def go_on(self, refusal: Refusal, numbers: set[int] | None) -> bool:
        """Whether the copy is another one now, without these lines."""
        line = self.lines[refusal.line - 1][1] if 0 < refusal.line <= len(self.lines) else ''
        if numbers == set() and unix(line) != line:
            self.added += [command for char, (_, command) in WINDOWS.items() if char in self.page.text]
            self.lines = [(number, unix(line)) for number, line in self.lines]
            return True
        self.dropped += sorted(numbers or [])
        self.lines = [(number, line) for number, line in self.lines if number not in (numbers or [])]
        return bool(numbers)

    def command(self) -> str:
        dropped = ';'.join(f'{span.replace("-", ",")}d' for span in spans(sorted(self.dropped)).split(', ') if span)
        scripts = [*self.added, *[dropped] * bool(dropped)]  # a line to insert goes on to the end of its script
        words = ' '.join('-e ' * (len(scripts) > 1) + f"'{script}'" for script in scripts)
        return f'topos reads what this leaves{self.more}: sed {words} {shlex.quote(self.page.name)}'


def spans(numbers: list[int]) -> str:
    """Numbers in order as `3, 7-9`."""
    rows = [[number for _, number in row] for _, row in
            itertools.groupby(enumerate(numbers), lambda each: each[1] - each[0])]
    return ', '.join(f'{row[0]}-{row[-1]}' if len(row) > 1 else str(row[0]) for row in rows)
