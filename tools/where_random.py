"""Damaged texts for topos-where: places, advice and further faults are what the answers of the program say.

Words of correct texts are dropped, doubled, replaced and swapped. For texts that are read line by line, the place is
computed here by asking for every beginning of the refused line. Of each fault that `--all` shows, all other damage is
mended by hand, with the correct lines: the program has to refuse this place for the same reason. None of this uses the
code of topos-where.
"""
import random
import re
import shlex
import subprocess
from typing import Any

from topos_tools.query import Question, Stopped
from topos_tools.where import Search
from topos_tools.where_edits import EditsText
from topos_tools.where_flows import EventsText, FlowsText
from topos_tools.where_lines import LineText
from topos_tools.where_page import Finding, Page
from topos_tools.where_refusals import Program
from topos_tools.where_rules import RulesText

LINE = re.compile(r'topos: (?:rules|events|edits): line (\d+): (\w+)')
PLACE = re.compile(r'topos: description: (\d+ \w+ at [^:\n]*)')
EMPTY = '*filter\nCOMMIT\n'
NET = '''topos = 2
host = [
  { name = "web", at = ["10.0.1.10"] },
  { name = "db", at = ["10.0.2.20", "10.0.3.0/24"] },
  { name = "lan", at = ["192.168.0.0/16"] },
  { name = "inet", rest = true },
]
flow = [
  ["inet", "web", "tcp/443"],
  ["web", "db", "tcp/5432", "udp/53"],
  ["lan", "web"],
]
invariant = [
  { template = "partners", assign = [
    { host = "db", kind = "master", from = ["web"] },
  ] },
  { template = "blp", assign = [
    { host = "db", level = 3 },
    { host = "web", level = 1, trusted = true },
  ] },
  { template = "own", assign = [
    { host = "lan", kind = "blue" },
  ] },
]
template = [
  { name = "own", strategy = "access", kinds = ["red", "blue"], default = "red", deny = [] },
]
'''
HOSTS = ['web', 'db', 'lan', 'inet']
TEXTS = {
    'rules': '''*filter
:FORWARD DROP [0:0]
:lan - [0:0]
[4:240] -A FORWARD -s 192.168.1.0/24 -m comment --comment "from the office" -j lan
-A FORWARD -p tcp -m tcp ! --sport 22 --dport 80:90 -m conntrack --ctstate NEW,ESTABLISHED -j ACCEPT
-A FORWARD -j LOG --log-prefix "a b" --log-level 4
-A lan ! -d 10.0.0.0/8 -p udp -j RETURN
-A lan -j REJECT --reject-with icmp-port-unreachable
COMMIT
''',
    'flows': '''# guests
priority=20 ip nw_src=10.8.0.0/16 nw_dst=10.1.0.0/16 actions=drop
priority=10,tcp,nw_src=10.8.0.0/16,tp_dst=80,actions=NORMAL
priority=5,ip,nw_proto=132,actions=drop
arp,actions=NORMAL
priority=0,actions=drop
''',
    'events': '''packet 203.0.113.7 10.0.1.10 tcp 50000 443
# back
packet 10.0.1.10 203.0.113.7 6 443 50000
forget 203.0.113.7 10.0.1.10 udp 50000 53
''',
    'edits': '''add inet db
add db inet tcp/80 udp/53
set 1 { host = "web", kind = "care" }
remove inet web
unset 1 web
''',
    'description': NET,
}
WORDS = {
    'description': '''"web" "wbe" "a b" web "10.0.0.256" "10.0.0.0/33" "10.0.01.0/24" "10.0.1.10" "10.0.0.1/8" 7 70000
        true True "tcp:80" "tcp/90-80" "http" "master" "blpp" "red" [] {} nmae level kind name at = "''',
    'edits': 'x # dbb web wbe tcp/80-90 tcp/90-80 a.b { } 17 1 add set "web" "wbe" kind "master"',
    'events': 'x # 10.0.0.256 10.0.0.1/8 10.0.01.1 65536 080 http TCP packets 17 300',
    'flows': 'x # tp_dst=80 tcp_dst=80 nw_src=10.0.0.0/8 nw_src=10.0.0.1/33 ip udp priority=10 in_port=1 '
             'actions=output:2',
    'rules': '''x ! " # -i eth0 --dports --source -j -s 10.0.0.256 10.0.0.0/33 10.0.01.0/24 10.0.0.0/255.0.0.0 65536
        90:80 080 http TCP lan lam LOG FORWARD COMMIT *nat 17 -A :lan'''}
ENDINGS = '- ACCEPT FORWARD -A -s -d 0.0.0.0/0 tcp 0 NEW "'.split()  # of a line of rules
ELSEWHERE = ('Loop', 'NoCommit', 'TooMany')  # reasons that are not of a word
SPLIT = {'flows': r'([, \t]+)', 'description': r'([,\s\[\]{}]+)'}  # what parts words


def damaged(kind: str, source: random.Random) -> str:
    """A text with some damage; its lines have their places."""
    lines = [re.split(SPLIT.get(kind, r'([ \t]+)'), line) for line in TEXTS[kind].splitlines()]
    many = [line for line in lines if any(line[::2]) or kind != 'description']
    for _ in range(source.choice((1, 1, 2, 3))):
        words = source.choice(many)
        places = [place for place in range(0, len(words), 2) if words[place]] or [0]
        at, other = source.choice(places), source.choice(places)
        how = source.randrange(5)
        if how == 0:
            words[at] = ''
        elif how == 1:
            words[at] = f'{words[at]} {words[at]}'
        elif how == 2:
            words[at], words[other] = words[other], words[at]
        else:
            words[at] = source.choice(WORDS[kind].split() + [word for line in lines for word in line[::2]])
    if not source.randrange(8):
        lines[source.randrange(len(lines))] = ['']
    return '\n'.join(''.join(line) for line in lines) + '\n'


class Asked:
    """The program, asked about texts of one kind."""

    def __init__(self, program: str, kind: str) -> None:
        self.kind = kind
        kinds: dict[str, tuple[list[str], list[str]]] = {
            'rules': (['trace', 'iptables', '/dev/stdin', '/dev/null'], []), 'edits': (['edit', '/dev/stdin'], [NET]),
            'flows': (['trace', 'openflow', '/dev/stdin', '/dev/null'], []),
            'description': (['migrate', '/dev/stdin'], []),
            'events': (['trace', 'iptables', '/dev/stdin'], [EMPTY])}
        words, self.before = kinds[kind]
        self.words = [program, *words]

    def line(self, text: str) -> str:
        """The line of the refusal of a text, or nothing."""
        try:
            Question(self.words, *(each.encode() for each in [*self.before, text])).answer((0, 2, 5))
        except Stopped as stopped:
            return str(stopped)
        return ''

    def refusal(self, text: str) -> tuple[int, str]:
        """The line and the reason for which a text is refused, or 0; in a description, 1 and the place."""
        line = self.line(text)
        found, place = LINE.search(line), PLACE.search(line)
        return (1, place[1].strip()) if place else (int(found[1]), found[2]) if found else (0, '')


class Expected:
    """What the place of a refusal is, by asking for every beginning of its line."""

    def __init__(self, asked: Asked, text: str, number: int, name: str) -> None:
        self.asked, self.number, self.name = asked, number, name
        lines = text.split('\n')
        self.above, self.line = lines[:number - 1], lines[number - 1]
        parts = list(re.finditer(r'[^, \t]+' if asked.kind == 'flows' else r'[^ \t]+', self.line))
        place = next((each for each, part in enumerate(parts) if part[0].startswith('actions=')), len(parts))
        self.tail = self.line[parts[place].start():] if asked.kind == 'flows' and place < len(parts) else ''
        self.words = parts[:place] if asked.kind == 'flows' else parts
        if asked.kind == 'edits' and len(parts) > 3 and parts[0][0] == 'set':
            table = re.compile(r'.*[^ \t]').match(self.line, parts[2].start())
            self.words = [*parts[:2], *([table] if table else [])]

    def said(self, line: str) -> str:
        number, name = self.asked.refusal('\n'.join([*self.above, line]))
        return name if number == self.number else ''

    def closings(self, count: int) -> list[str]:
        """All that may follow the first words of a line."""
        if self.asked.kind == 'events':
            return [' '.join('packet 10.0.0.1 10.0.0.2 tcp 0 0'.split()[count:])]
        if self.asked.kind == 'edits' and count < 3:
            has_entry = not count or self.words[0][0] not in ('add', 'remove', 'unset')
            ones = [*HOSTS, *(f'{{ host = "{host}" }}' for host in HOSTS if has_entry)]
            return ['', *ones, *(f'{first} {second}' for first in ('1', *HOSTS) for second in ones if count < 2)]
        return [self.tail]

    def is_stuck(self, count: int, closings: list[str]) -> bool:
        head = self.line[:self.words[count - 1].end()] if count else ''
        said = {self.said(f'{head} {closing}'.rstrip()) for closing in closings}
        return self.name in said and said <= {self.name, 'BadLine'}

    def columns(self) -> tuple[int, int]:
        count = len(self.words)
        first = count
        for each in range(count - 1, -1, -1):
            if not self.is_stuck(each, self.closings(each)):
                break
            first = each
        if first == 0:
            return self.line.rindex(self.tail), len(self.line.rstrip())
        last = first
        while self.asked.kind == 'rules' and last < count and not self.is_stuck(last, ENDINGS):
            last += 1
        return self.words[first - 1].start(), self.words[last - 1].end()


def changed(line: str, sentence: str, start: int, end: int) -> list[tuple[str, int]]:
    """The lines that a sentence advises in place of a line, each with the column that has to be read."""
    found = re.search(r'Write `([^`]*)` in place of `([^`]*)`\.|Leave out `([^`]*)`\.|Without `([^`]*)` topos reads on'
                      r'|Is `([^`]*)` meant', sentence)
    if not found:
        return []
    put, gone = found[5] or found[1] or '', found[2] or found[3] or found[4] or line[start:end]
    return [(line[:each.start()] + put + line[each.end():], each.start() + max(len(put), 1))
            for each in re.finditer(re.escape(gone), line) if each.end() >= start and each.start() <= end]


def advice_fault(expected: Expected, sentences: list[str], start: int, end: int) -> str:
    """Whether the line that the first advice gives is refused in the same place for the same reason."""
    for sentence in sentences:
        lines = changed(expected.line, sentence, start, end)
        if lines:
            is_right = any(is_borne_out(expected, *each) for each in lines)
            return '' if is_right else f'not borne out: {sentence}'
    return ''


def is_borne_out(expected: Expected, line: str, column: int) -> bool:
    """Whether the program accepts the line, or refuses it for another reason or from the column on."""
    said = expected.said(line)
    text = '\n'.join([*expected.above, line])
    return said != expected.name or Expected(expected.asked, text, expected.number, said).columns()[0] >= column


def place_fault(expected: Expected, finding: Finding, page: Page) -> str:
    if expected.name in ELSEWHERE or not finding.marks:
        return '' if finding.marks or expected.name == 'TooLong' else 'no mark'
    begin = page.starts[expected.number - 1]
    marked = finding.marks[0].start - begin, finding.marks[0].end - begin
    if expected.words and expected.words[0][0] == 'set' and expected.name not in ('BadLine', 'Absent'):
        return '' if 0 <= marked[0] < len(expected.line) + 1 else f'marked {marked}'
    wanted = expected.columns()
    whole = expected.name in ('OtherTable', 'AfterCommit')
    if marked[0] != wanted[0] or marked[1] != wanted[1] and not whole:
        return f'marked {marked}, not {wanted}'
    return advice_fault(expected, finding.sentences, *marked)


def advised_fault(asked: Asked, text: str, finding: Finding) -> str:
    """Whether a description is refused as before with the text that is advised in the marked place."""
    found = re.search(r'(?:Write|Is) ((?:"[^"]*"(?:, )?)+)(?:\.| meant)', ' '.join(finding.sentences))
    if not found or len(finding.marks) != 1:
        return ''
    mark = finding.marks[0]
    now = asked.refusal(text[:mark.start] + found[1] + text[mark.end:])
    return f'not borne out: {found[0]}' if now[0] and now[1].split(',')[0] == finding.title.split(',')[0] else ''


def page_of(program: str, kind: str, text: str) -> Page:
    """What topos-where --all shows of a text."""
    there, page = Program(program), Page('text', text, False)
    search = Search(there, page, True)
    if kind == 'description':
        search.description(text.encode(), None)
        return page
    kinds: dict[str, Any] = {'rules': RulesText, 'flows': FlowsText, 'events': EventsText}
    lines: LineText = EditsText(there, page, NET.encode()) if kind == 'edits' else kinds[kind](there, page)
    search.lines(lines, None)
    return page


def command_fault(asked: Asked, text: str, sentences: list[str]) -> str:
    """Whether the program refuses what the shown command leaves of a text."""
    for command in [sentence.split(': sed ')[1] for sentence in sentences if ': sed ' in sentence]:
        left = subprocess.run(['sed', *shlex.split(command)[:-1]], input=text, capture_output=True, text=True).stdout
        if asked.line(left):
            return f'sed {command}: {asked.line(left)}'
    return ''


def mended(kind: str, lines: list[str], numbers: set[int]) -> str:
    """A text with correct lines of these numbers; a line that is correct and refused nevertheless is left out."""
    copy, right = list(lines), TEXTS[kind].split('\n')
    for number in numbers:
        is_damaged = number > len(right) or lines[number - 1] != right[number - 1]
        if is_damaged or kind != 'description':
            copy[number - 1] = right[number - 1] if is_damaged and number <= len(right) else ''
    return '\n'.join(copy)


def asked_without(asked: Asked, lines: list[str], numbers: set[int]) -> tuple[int, str]:
    """The refusal of a text with correct lines of these numbers, those left out that are refused nevertheless."""
    copy = mended(asked.kind, lines, numbers).split('\n')
    now = asked.refusal('\n'.join(copy))
    while asked.kind != 'description' and now[0] in numbers and copy[now[0] - 1]:
        copy[now[0] - 1] = ''
        now = asked.refusal('\n'.join(copy))
    return now


def lines_of(finding: Finding, page: Page, right: list[str]) -> set[int]:
    """The lines of a finding; a COMMIT that is missing is also missing where it stands in the correct text."""
    ends = {right.index('COMMIT') + 1} if finding.title.endswith(': NoCommit') else set()
    return {page.line_of(mark.start) for mark in finding.marks} | ends


def follow_up(asked: Asked, text: str, findings: list[Finding]) -> str:
    """A further fault that is none of the text: it is gone if all other damage is mended by hand, in both ways."""
    page, lines, is_table = Page('text', text, False), text.split('\n'), asked.kind == 'description'
    right = TEXTS[asked.kind].split('\n')
    shown = [lines_of(finding, page, right) for finding in findings]
    damage = {number for number, pair in enumerate(zip(lines, right), 1) if pair[0] != pair[1]}
    for place, (finding, own) in enumerate(zip(findings, shown)):
        if not place or any(own & other for each, other in enumerate(shown) if each != place):
            continue  # only whole lines are mended
        number = page.line_of(finding.marks[0].start) if finding.marks else 0
        wanted = finding.title if is_table else f'line {number}: {finding.title.split(": ")[1]}'
        for others in {each for numbers in shown for each in numbers} - own, damage - own:
            now = asked_without(asked, lines, others)
            told = now[1] if is_table else f'line {now[0]}: {now[1]}'
            if re.split(' item|,', told)[0] == re.split(' item|,', wanted)[0]:
                break
        else:
            return f'line {number}: {finding.title}: no fault of the text itself' if number <= len(lines) else ''
    return ''


def fault_of(program: str, kind: str, seed: int) -> str:
    """What topos-where says otherwise of a damaged text than the program's answers, or nothing."""
    text = damaged(kind, random.Random(f'{kind} {seed}'))
    asked = Asked(program, kind)
    number, name = asked.refusal(text)
    if not number:
        return ''
    page = page_of(program, kind, text)
    findings = page.findings
    if not findings:
        return f'{text}\n{name}: nothing is shown'
    first, fault = findings[0], ''
    if kind == 'description':
        fault = next((each for each in (advised_fault(asked, text, one) for one in findings[:1]) if each), '')
    elif first.title == f'line {number}: {name}':
        fault = place_fault(Expected(asked, text, number, name), first, Page('text', text, False))
    else:
        fault = f'shown as {first.title}'
    fault = fault or follow_up(asked, text, findings) or command_fault(asked, text, page.sentences)
    if not fault:
        return ''
    return f'{text}\nline {number}: {name}: {fault}\n{[each.title for each in findings]}\n{first.sentences}'
