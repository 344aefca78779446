"""Refusals of edits of a description."""
import re
from collections.abc import Iterable

from .query import NO_REFUSAL, Stopped
from .toml_places import Fault, Scanner
from .where_description import Explanation
from .where_lines import CONFLICTS, LineText, RefusedLine, Told, Word, words_of
from .where_page import Page
from .where_parts import Description
from .where_refusals import Program, Refusal
from .where_toml import Edited, NoToml, fault_in

VALUE = 'v = '  # before what follows the number of an invariant: a TOML value
EMPTY = b'topos = 2\nhost = []\nflow = []\n'  # in the place of a description that is not named
PARSED = ('BadLine', 'BadValue', 'TooMany', 'TooLong')  # reasons without a description
NO_ENTRY = ('add', 'remove', 'unset')  # first words that no entry follows
MOST = 6  # hosts of which pairs are tried


class EditsText(LineText):
    what, section, question, is_free = 'edits', 'edits', ['edit', '/dev/stdin'], False

    def __init__(self, program: Program, page: Page, description: bytes | None = None) -> None:
        super().__init__(program, page)
        self.description, self.hosts = description, list[str]()
        self.unread = set[int]()  # dropped lines whose hosts are not known
        self.before = (description if description is not None else EMPTY,)
        self.source = (description or b'').decode(errors='replace').lstrip('\ufeff')
        if description is not None and fault_in(self.source) is None:
            self.hosts = Description(program, Edited(self.source)).copy.names()

    def whole(self, text: bytes) -> Refusal | None:
        refusal = super().whole(text)
        if refusal and refusal.what == 'description':
            raise Stopped('the description is refused itself: show that refusal first', NO_REFUSAL)
        is_told = self.description is not None or refusal and refusal.name in PARSED
        return refusal if is_told else None

    def parts(self, line: str) -> tuple[list[Word], str]:
        """Returns the words of a line, where the table of an entry is one word."""
        words = words_of(line)
        if len(words) > 3 and words[0][0] == 'set':
            words[2:] = [(line[words[2][1]:words[-1][2]], words[2][1], words[-1][2])]
        return words, ''

    def closings(self, line: RefusedLine, count: int) -> Iterable[str]:
        """Returns what makes an edit of the first words of a line: hosts, or an entry for one unless the first word
        takes none."""
        yield ''
        if count > 2:
            return
        hosts = self.hosts or ['a']
        few = hosts[:MOST]
        entries = [f'{{ host = "{host}" }}' for host in few if not count or line.words[0][0] not in NO_ENTRY]
        yield from hosts
        yield from entries
        if count < 2:
            yield from (f'{first} {second}' for first in ('1', *few) for second in few)
            yield from (f'1 {entry}' for entry in entries)

    def depends(self, refusal: Refusal, line: str) -> bool:
        """Whether a line was dropped that names a host of this one, and no other invariant."""
        mine = re.findall(r'[\w-]+', line)
        hosts = set(mine[1:]) & set(self.hosts)
        for number in self.dropped if refusal.name in CONFLICTS else ():
            gone = re.findall(r'[\w-]+', self.page.line(number))
            is_other = all(words[1:2] and words[1].isdigit() for words in (mine, gone)) and mine[1] != gone[1] or \
                gone[:1] and gone[0] in self.vocabulary and \
                (gone[0] in ('add', 'remove')) != (mine[0] in ('add', 'remove'))
            is_unread = number in self.unread and gone[1:2] == mine[1:2] != [] and mine[1].isdigit()
            if (is_unread or hosts & set(gone) or not set(gone) & set(self.hosts)) and not is_other:
                return True
        return False

    def go_on(self, refusal: Refusal, numbers: set[int] | None) -> bool:
        self.unread |= (numbers or set()) if refusal.name in PARSED else set()
        return super().go_on(refusal, numbers)

    def known(self) -> Iterable[str]:
        return *self.vocabulary, *self.hosts

    def told(self, line: RefusedLine, refusal: Refusal, at: int) -> Told | None:
        if line.words[0][0] != 'set' or len(line.words) < 3 or refusal.name in ('BadLine', 'TooMany', 'Absent') or \
                not line.words[2][0].startswith('{'):
            return None
        begin = line.words[2][1]
        fault, shift = fault_in(VALUE + line.line[begin:]), begin - len(VALUE)
        if fault:
            told = self.unclosed(line, shift, fault)
            if told:
                return told
            said = fault.sentence.replace(' that begins in line {}', '').replace('line {}', 'it')
            start = shift + max(fault.at, len(VALUE))
            return Told(start, max(start + 1, shift + fault.end), [said])
        return None if refusal.name == 'BadValue' else self.entry(line, shift)

    def unclosed(self, line: RefusedLine, shift: int, fault: Fault) -> Told | None:
        """Returns where a comma, a quote or a bracket is missing with which the program reads the line on."""
        toml = NoToml(self.program, Edited(VALUE + line.line[shift + len(VALUE):]))
        for at, gone, put in toml.repairs(fault) if fault.first and fault.open else ():
            mended = toml.text[:at] + put + toml.text[at:]
            if put and not gone and fault_in(mended) is None and line.helps(shift + at, shift + at, put):
                said = toml.missing(fault, at, put, []).replace(' that begins in line 1', '')
                return Told(shift + at, shift + at + 1, [f'{said} With `{put}` topos reads on.'])
        return None

    def entry(self, line: RefusedLine, shift: int) -> Told | None:
        """What a description with this entry alone is refused for."""
        try:
            text = Description(self.program, Edited(self.source))
            value = Scanner(VALUE + line.line[shift + len(VALUE):]).document().need('v')
            row = text.copy.rows('invariant')[int(line.words[1][0]) - 1]
        except (Fault, ValueError, IndexError):
            return None
        value.number = 1
        text.copy.set(row, 'assign', [value])
        now = text.ask()
        if now is None or now.name != line.name:
            return None
        finding = Explanation(text, now)
        if not finding.marks:
            return None
        spans = [(shift + mark.start, shift + mark.end) for mark in finding.marks]
        return Told(*spans[0], finding.sentences, more=spans[1:])
