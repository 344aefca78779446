"""Where a text that is no TOML stops, and the small change after which the program reads on."""
import bisect
import re
from collections.abc import Iterator

from .toml_places import BLANKS, CURLED, Fault, Scanner, alien, quoted
from .where_page import Finding, Mark
from .where_refusals import Program

Repair = tuple[int, int, str]  # the place, how much is taken out, and what is put in


class Edited:
    """A text after some changes, and where its places were before them."""

    def __init__(self, text: str) -> None:
        self.text = text
        self.changes: list[tuple[int, int, int]] = []
        self.touched: list[int] = []  # where the changes are in the text now
        self.statements: list[int] = []  # where they begin, if it is TOML

    def replaced(self, at: int, gone: int, put: str) -> 'Edited':
        other = Edited(self.text[:at] + put + self.text[at + gone:])
        other.changes = self.changes + [(at, gone, len(put))]
        other.touched = [place if place < at else place - gone + len(put) for place in self.touched] + [at]
        return other

    def original(self, place: int) -> int:
        for at, gone, put in reversed(self.changes):
            place = place - put + gone if place >= at + put else min(place, at)
        return place

    def mark(self, mark: Mark) -> Mark:
        return Mark(self.original(mark.start), self.original(mark.end), mark.note)

    def is_touched(self, mark: Mark) -> bool:
        """Whether the statement of a mark was changed."""
        changed = [bisect.bisect(self.statements, place) for place in self.touched]
        return bisect.bisect(self.statements, mark.start) in changed


CLOSING = {'[': ']', '{': '}'}
SIGNS = {',': 'comma', '"': 'quote', '= ': 'sign ='}


def fault_in(text: str) -> Fault | None:
    """Where the scanner stops."""
    try:
        Scanner(text).document()
    except Fault as fault:
        return fault
    return None


def is_toml(program: Program, text: str) -> bool:
    refusal = program.description(text.encode(errors='surrogateescape'))
    return refusal is None or refusal.number not in (1, 2)


class NoToml:
    """A text that topos says is no TOML: where reading stops, as the scanner says and topos bears out."""

    def __init__(self, program: Program, edited: Edited) -> None:
        self.program, self.edited, self.text = program, edited, edited.text

    def find(self) -> tuple[Finding, Edited | None]:
        """A finding without its title, and the text with which one can go on, if one can."""
        fault = fault_in(self.text)
        if fault is None or not self.is_borne_out(fault):
            return self.read_so_far(), None
        sentence = fault.sentence.replace('{}', str(self.line_of(fault.first[0] if fault.first else 0)))
        marks = [Mark(fault.at, fault.end)] + ([Mark(*fault.first)] if fault.first else [])
        if fault.twice:
            doubled = self.doubled(fault.twice)
            is_read = doubled is not None and self.reads_on(doubled.text, fault)
            return Finding('', self.placed(marks), [sentence]), doubled if is_read else self.without(fault)
        for at, gone, put in self.repairs(fault):
            mended = self.edited.replaced(at, gone, put)
            if self.reads_on(mended.text, fault, len(put) - gone):
                if at != fault.at:
                    marks.insert(0, Mark(at, at + gone, 'here'))
                old = self.text[at:at + gone]
                told = f'With `{put}`' + (f' in place of `{old}`' if gone else '') if put else f'Without `{old}`'
                said = self.missing(fault, at, put, marks) if put and (not gone or put == ',') else sentence
                return Finding('', self.placed(marks), [f'{said} {told} topos reads on.']), mended
        return Finding('', self.placed(marks), [sentence]), self.without(fault)

    def without(self, fault: Fault) -> Edited | None:
        """The text without the statement that has the fault, if the program reads the rest."""
        end = self.text.find('\n', fault.at)
        mended = self.edited.replaced(fault.statement, max(end, fault.at) - fault.statement, '')
        return mended if is_toml(self.program, mended.text) and fault_in(mended.text) is None else None

    def missing(self, fault: Fault, at: int, put: str, marks: list[Mark]) -> str:
        """What is told of a text that is missing; marks the bracket that is not closed."""
        if put in SIGNS:
            return f'A {SIGNS[put]} is missing here.'
        bracket = next(one for one in reversed(fault.open) if one < at)
        if not fault.first:
            marks.append(Mark(bracket, bracket + 1))
        return f'The {"array" if put[0] == "]" else "table"} that begins in line {self.line_of(bracket)} is not closed.'

    def line_of(self, at: int) -> int:
        return self.text.count('\n', 0, at) + 1

    def placed(self, marks: list[Mark]) -> list[Mark]:
        """The marks by their places in FILE."""
        return list(map(self.edited.mark, marks))

    def is_borne_out(self, fault: Fault) -> bool:
        """Whether topos reads all before the statement with the fault, and no more of the text to the end of any of the
        next lines."""
        if not is_toml(self.program, self.text[:fault.statement]):
            return False
        ends = [found.end() for found in re.finditer(r'\n', self.text[fault.at:fault.at + 4000])][:20]
        return not any(is_toml(self.program, self.text[:fault.at + end]) for end in ends)

    def read_so_far(self) -> Finding:
        """Where topos stops, by its answers alone: after the longest beginning by lines that it reads."""
        ends = [found.end() for found in re.finditer(r'\n', self.text)]
        at = next((end for end in reversed(ends[-400:]) if is_toml(self.program, self.text[:end])), 0)
        return Finding('', self.placed([Mark(at, at + 1)]), ['topos reads all above this line, and no more.'])

    def reads_on(self, text: str, fault: Fault, more: int = 0) -> bool:
        """Whether topos, with this change, reads the line with the fault and what belongs to it."""
        now = fault_in(text)
        if now is None:
            return is_toml(self.program, text)
        end = self.text.find('\n', fault.at)
        return 0 <= end < now.statement - more and is_toml(self.program, text[:now.statement])

    def doubled(self, key: str) -> Edited | None:
        """The text with [[key]] in place of each [key]."""
        edited = self.edited
        header = re.compile(rf'^[ \t]*(\[)[ \t]*{re.escape(key)}[ \t]*(\])', re.MULTILINE)
        for found in reversed(list(header.finditer(edited.text))):
            edited = edited.replaced(found.start(2), 0, ']').replaced(found.start(1), 0, '[')
        return edited if edited is not self.edited else None

    def repairs(self, fault: Fault) -> Iterator[Repair]:
        """Small changes to try: the place, how much is taken out, and what is put in."""
        text, at = self.text, fault.at
        begin = text.rfind('\n', 0, at) + 1
        end = text.find('\n', at)
        end = len(text) if end < 0 else end - (text[end - 1:end] == '\r')
        if fault.open:
            yield self.end_before(at), 0, ','
        if fault.first and not fault.open:
            yield at, 0, '= '
        for place, before in ((at, at), (begin, begin)):
            closing = ''.join(CLOSING[text[one]] for one in reversed(fault.open) if one < before)
            for count in range(1, len(closing) + 1):
                yield self.end_before(place), 0, closing[:count]
        if alien(text[at:at + 1]):
            plain = re.sub(f'[{CURLED}]', '"', text[at:end]).translate(dict.fromkeys(map(ord, BLANKS), ' '))
            yield at, end - at, plain
        word = re.compile(r'[^\s,\[\]{}#"\'=]+').match(text, at)
        if word:
            for put in (word[0].lower(), word[0].lstrip('0'), quoted(word[0])):
                if not word[0].isdigit() or put.isdigit():
                    yield at, len(word[0]), put
            if text[word.end():word.end() + 1] == '"':
                yield at, 0, '"'
        for found in re.finditer(r'(?<=[^\s,\[\]{}"])(?=[ \t]*[,\]}])|$', text[begin:end]):
            yield begin + found.start(), 0, '"'
        for put, signs in ((',', '-;:.|/'), ('', '[]{},"\'=.;')):
            if text[at:at + 1] and text[at] in signs:
                yield at, 1, put

    def end_before(self, at: int) -> int:
        """The end of the text before a place, without comments."""
        code = re.compile(r'(?:"(?:\\.|[^"\\\n])*"|\'[^\'\n]*\'|[^#"\'\n])*')
        while at > 0:
            begin = self.text.rfind('\n', 0, at) + 1
            found = code.match(self.text, begin, at)
            line = found[0].rstrip(' \t\r') if found else ''
            if line.strip():
                return begin + len(line)
            at = begin - 1
        return 0
