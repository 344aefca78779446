"""Shows the lines of a file that a refusal of topos is about, the wrong words, and the remedy."""
import io
import re
import sys
from typing import NoReturn

from .query import LONGEST as MOST
from .query import (NO_REFUSAL, UNAVAILABLE, Stopped, TimedOut, Tool, data_text, find_program, need_words, read_bytes,
                    write_text)
from .toml_places import Fault
from .where_description import Explanation
from .where_edits import EditsText
from .where_flows import EventsText, FlowsText
from .where_lines import LineText, spans
from .where_mends import Mends
from .where_page import Finding, Mark, Page
from .where_parts import Description
from .where_refusals import Program, Refusal, refusals_in
from .where_rules import RulesText
from .where_samples import GENERAL
from .where_toml import Edited, NoToml

USAGE_TEXT = '''usage: topos-where [--all] [--json] [--program TOPOS] FILE [DESCRIPTION]
  FILE            the description, rules, flows, events or edits that topos refused; the refusal is on the
                  standard input, else the program is asked about FILE
  DESCRIPTION     what the edits in FILE are for
options
  --all           go on past each fault in a copy of FILE
  --json          print the places as JSON
  --program TOPOS the program topos; else $TOPOS, the one beside this script, the one that is built, or `topos`
  --help, --version
exit status
  0 shown; with --all: topos accepts FILE
  1 with --all: all places are shown, and without them topos accepts the rest
  2 with --all: places are shown, and there may be more
  6 FILE cannot be read, 64 usage, 65 no refusal of FILE, 69 no program
'''
SCHEMA = 'topos-where 1'
ROUNDS, LINE_ROUNDS = 50, 1000  # faults that are looked for, in a description and in another text
LONGEST = 67_108_864  # bytes of the longest text that topos reads

KINDS = {  # of texts that are no description, by how they begin
    'rules': r'[*:-]\w|COMMIT\b|iptables|\[\d+:\d+\]', 'events': r'(packet|forget)\s+[^=\s]',
    'edits': r'(add|remove|set|unset)\s+[^=\s]', 'flows': r'.*(actions=|_FLOW reply)'}


def kind_of(text: str) -> str:
    """Returns the kind of a text without a refusal, by its first line that is no comment."""
    lines = (line.strip() for line in text.removeprefix('\ufeff').splitlines())
    first = next((line for line in lines if line and not line.startswith('#')), '')
    return next((kind for kind, pattern in KINDS.items() if re.match(pattern, first, re.IGNORECASE)), 'description')


class Search:
    """A file, and whether all its faults are searched for or only that of a refusal."""

    def __init__(self, program: Program, page: Page, is_whole: bool) -> None:
        self.program, self.page, self.is_whole = program, page, is_whole

    def other_answer(self, now: Refusal | None) -> Stopped:
        said = 'accepts it'
        if now is not None:
            where = f'{now.number} {now.name}' if now.what == 'description' else f'line {now.line}: {now.name}'
            said = f'refuses it as {where}'
        return Stopped(f'the refusal is none of {self.page.name}: topos {said} now', NO_REFUSAL)

    def accepted(self) -> NoReturn:
        raise Stopped(f'topos accepts {self.page.name}: there is no refusal to show', NO_REFUSAL)

    def status(self, accepted: bool) -> int:
        """Adds the number of places, and returns the exit status."""
        if not self.is_whole:
            return 0
        count = len(self.page.findings)
        more = '' if accepted else ', and there may be more once these are mended'
        self.page.say(f'{count:,} place{"s" * (count != 1)}{more}')
        return 2 if not accepted else 1 if count else 0

    def stop(self, stopped: TimedOut) -> int:
        """Says that the search is not complete, and returns the exit status; raises the error if nothing is found."""
        if not self.is_whole or not self.page.findings:
            raise stopped
        self.page.say(f'The search was stopped: {stopped}.')
        return self.status(False)

    # Texts that are read line by line.

    def line_text(self, what: str, refusal: Refusal | None, description: bytes | None) -> LineText:
        """Returns the text of the kind that the refusal is of."""
        if what == 'edits':
            return EditsText(self.program, self.page, description)
        rules, flows = RulesText(self.program, self.page), FlowsText(self.program, self.page)
        # of two that are refused alike it is a flow text: a rules text has no line of fields
        is_flows = what == 'flows' or what == 'rules' and refusal is not None and refusal == flows.ask()
        return EventsText(self.program, self.page) if what == 'events' else flows if is_flows else rules

    def lines(self, text: LineText, refusal: Refusal | None) -> int:
        now = text.ask()
        if refusal is not None and refusal != now:
            if text.what == 'edits' and text.description is None:
                raise Stopped(f'line {refusal.line}: {refusal.name}: name the description of the edits, '
                              f'topos-where {self.page.name} DESCRIPTION', NO_REFUSAL)
            raise self.other_answer(now)
        if not self.is_whole:
            self.page.show(text.shown(now or self.accepted())[0])
            return 0
        hidden, is_hidden = list[int](), False
        while now is not None and len(self.page.findings) + len(hidden) < LINE_ROUNDS:
            line = text.lines[now.line - 1][1] if 0 < now.line <= len(text.lines) else ''
            hides, (finding, drop) = text.depends(now, line), text.shown(now)
            hidden, is_hidden = hidden + sorted(drop or []) * hides, is_hidden or hides
            if not hides:
                self.page.show(finding, again=False)
            if not text.go_on(now, drop):
                break
            now = text.ask()
        if hidden:
            self.page.say(f'These lines depend on lines above that are refused, and are left out too: {spans(hidden)}.')
        for sentence in text.summary(now is None):
            self.page.say(sentence)
        return self.status(now is None and not is_hidden)

    # Descriptions.

    def description(self, data: bytes, refusal: Refusal | None) -> int:
        now, edited = self.program.description(data), Edited(self.page.text)
        if refusal is not None and refusal != now:
            raise self.other_answer(now)
        if now is None and not self.is_whole:
            self.accepted()
        if now is not None and now.number == 1:
            self.page.show(Finding('1 TooLong at document', [],
                                   [f'{self.page.name} has {len(data):,} bytes, and a description {MOST:,} at most. '
                                    f'{GENERAL[1]}']))
        while now is not None and now.number == 2:
            finding, edited_on = self.no_toml(edited)
            finding.title = '2 NotToml at document'
            self.page.show(finding)
            if edited_on is None or not self.is_whole or len(self.page.findings) == ROUNDS:
                return self.status(False)
            edited, now = edited_on, self.program.description(edited_on.text.encode(errors='surrogateescape'))
        if now is None or now.number == 1 and not self.is_whole:
            return self.status(now is None)
        return self.go_through(edited, now)

    def no_toml(self, edited: Edited) -> tuple[Finding, Edited | None]:
        """Returns the finding of a text that is no TOML, and the text to go on with."""
        found = re.search('[\udc80-\udcff]', edited.text)
        if not found:
            return NoToml(self.program, edited).find()
        byte, at = ord(found[0]) - 0xdc00, edited.original(found.start())
        on = Edited(re.sub('[\udc80-\udcff]', '?', edited.text))
        on.changes = edited.changes
        on.touched = edited.touched + [each.start() for each in re.finditer('[\udc80-\udcff]', edited.text)]
        return Finding('', [Mark(at, at + 1)], [f'The byte 0x{byte:02X} here is no UTF-8: save the file as UTF-8.']), on

    def go_through(self, edited: Edited, now: Refusal) -> int:
        """Shows the refusals of a text that is TOML."""
        try:
            text = Description(self.program, edited)
        except Fault:
            text = None
        if text is None or now.number != 1 and now != text.ask():
            if now.number != 1:
                self.page.show(Finding(f'{now.number} {now.name} at {now.place}', [], [GENERAL[now.number]]))
            return self.status(False)
        findings: list[Finding] = []
        try:
            accepted = self.find(text, edited, findings)
        finally:  # also at the time limit
            for finding in sorted(findings, key=lambda finding: finding.marks[0].start if finding.marks else 0):
                self.page.show(finding)
        return self.status(accepted)

    def find(self, text: Description, edited: Edited, findings: list[Finding]) -> bool:
        """Adds the findings of a description, and returns whether the copy without the faults is accepted."""
        mends, is_hidden = Mends(text, bool(edited.touched)), False
        now, most = text.ask(), ROUNDS - len(self.page.findings)
        while now is not None and len(findings) < most:
            finding = Explanation(text, now, self.page)
            is_lost = bool(edited.touched) and (now.place == 'document' or not finding.marks)
            hides = is_lost or any(map(edited.is_touched, finding.marks)) or mends.hides(finding)
            finding.marks = list(map(edited.mark, finding.marks))
            findings += [finding] * (not hides)
            is_hidden = is_hidden or hides
            if not self.is_whole or not mends.mend(finding):
                break
            now = text.ask()
        return now is None and not is_hidden


def search(words: list[str], program: Program, page: Page, data: bytes, is_whole: bool) -> int:
    is_told = sys.stdin is not None and not sys.stdin.isatty()
    told = sys.stdin.buffer.read(LONGEST).decode(errors='replace') if is_told else ''
    found = refusals_in(told)
    if told.strip() and not found and not is_whole:
        raise Stopped('no refusal of topos on the standard input: topos check FILE 2>&1 | topos-where FILE', NO_REFUSAL)
    refusal = found[0] if found else None
    what, task = refusal.what if refusal else kind_of(page.text), Search(program, page, is_whole)
    try:
        if what == 'description':
            return task.description(data, refusal)
        description = read_bytes(words[1], LONGEST) if len(words) > 1 else None
        return task.lines(task.line_text(what, refusal, description), refusal)
    except TimedOut as stopped:
        return task.stop(stopped)


def main(values: dict[str, str], options: set[str], words: list[str]) -> int:
    if isinstance(sys.stdout, io.TextIOWrapper):
        sys.stdout.reconfigure(errors='replace')
    need_words(words, 1, 'a file is required', 2)
    path, data = find_program(values.get('--program')), read_bytes(words[0], LONGEST)
    page = Page(words[0], data.decode(errors='surrogateescape'), '--json' not in options)
    try:
        status = search(words, Program(path), page, data, '--all' in options)
    except ValueError as error:
        raise Stopped(f'the file cannot be read here ({type(error).__name__})', UNAVAILABLE) from None
    if '--json' in options:
        write_text(None, data_text({'schema': SCHEMA, **page.tree()}))
    return status


TOOL = Tool(SCHEMA, USAGE_TEXT, {'--program'}, {'--all', '--json'}, main)
