"""Refusals of rules for iptables."""
import re
from collections.abc import Iterable, Iterator

from .where_advice import WORDS
from .where_lines import LineText, RefusedLine, Told, spans, words_of
from .where_page import Page
from .where_refusals import Program, Refusal

SAVE = 'Take the rules from iptables-save -t filter.'
MOST = 100  # lines of which the summary asks whether a packet reaches them
RULE = re.compile(r'\s*(\[\S*\s+)?-A\s+\S')


class RulesText(LineText):
    what, section, question = 'rules', 'rules', ['trace', 'iptables', '/dev/stdin', '/dev/null']

    def __init__(self, program: Program, page: Page) -> None:
        super().__init__(program, page)
        self.other_tables: set[int] = set()

    def sentence(self, name: str, marked: str, line: str) -> str:
        is_rule = name == 'BadLine' and re.match(r'\s*(\[\S*\s+)?-A\s', line)
        return super().sentence('BadLine -A' if is_rule else name, marked, line)

    def known(self) -> Iterable[str]:
        yield from self.vocabulary
        for _, line in self.lines:
            if line.lstrip(' \t').startswith(':'):
                yield words_of(line)[0][0][1:]

    def told(self, line: RefusedLine, refusal: Refusal, at: int) -> Told | None:
        if refusal.name == 'Loop':
            return self.loop(refusal, line)
        if refusal.name in ('OtherTable', 'AfterCommit') and '\r' not in line.line:
            return self.block(refusal.name, at, line)
        if refusal.name == 'BadLine' and not line.reason('*filter', line.line):
            return Told(0, line.words[0][2], [f'A rules text begins with *filter. {SAVE}'], drop=set())
        place = line.place() if refusal.name in ('UnknownChain', 'UnknownTarget') else (0, 0)
        name = line.words[place[1] - 1][0]
        for number, other in self.lines[at + 1:] if place[0] else []:
            if other.split()[:1] == [f':{name}'] and not line.reason(other, line.line):
                said = f'The line of the chain {name} is below: put it above the rules.'
                return Told(*line.columns(place), [said], [number])
        return None

    def block(self, name: str, at: int, line: RefusedLine) -> Told:
        """A table that is not read, up to the COMMIT after which topos reads on."""
        said, drop = [self.sentences[name]], set[int]()
        lines = [each for each in self.lines[at:] if each[1].strip()]
        for place, (number, other) in enumerate(lines, 1):
            if other.split() == ['COMMIT'] or place == len(lines):
                now = self.whole(self.text([text for _, text in self.lines[:at] + lines[place:]]))
                if now is None or now.line > at + 1:
                    said, drop = [f'{said[0]} This part ends in line {number}.'], {each for each, _ in lines[:place]}
                    break
        first = next((number for number, other in lines if other.lstrip(' \t').startswith('*')), 0)
        self.other_tables |= {number for number in drop if first and number >= first}
        return Told(0, len(line.line.rstrip()), [f'{said[0]} {SAVE}'], drop=drop or None)

    def is_read_as(self, refused: RefusedLine, plain: str) -> bool:
        return super().is_read_as(refused, plain) or not refused.reason('*filter', plain)

    def loop(self, refusal: Refusal, line: RefusedLine) -> Told:
        """The jumps without each of which topos finds no loop here."""
        here, name = self.lines[refusal.line - 1], line.words[0][0][1:]

        def is_needed(gone: tuple[int, str]) -> bool:
            left = [each for each in self.lines if each != gone]
            now = self.whole(self.text([text for _, text in left]))
            return now is None or now.name != 'Loop' or left[now.line - 1] != here
        chains = set(list(self.known())[len(self.vocabulary):])  # the only targets of a jump
        jumps = [each[0] for each in self.lines if chains & set(re.findall(r'-j +(\S+)', each[1])) and is_needed(each)]
        told = f'Jumps lead from {name} back to {name}. A kernel does not load such a text.'
        if not jumps:
            return Told(0, line.words[0][2], [told], drop=set())
        told += f' Without the jump in line {jumps[-1]} topos finds no loop here.'
        return Told(0, line.words[0][2], [told], jumps, {jumps[-1]})

    def go_on(self, refusal: Refusal, numbers: set[int] | None) -> bool:
        begun = any(line.lstrip(' \t').startswith('*') for _, line in self.lines)
        if super().go_on(refusal, numbers):
            return True
        if refusal.name == 'NoCommit' and begun and '$aCOMMIT' not in self.added:
            self.added.append('$aCOMMIT')
            self.lines.append((len(self.page.starts) + 1, 'COMMIT'))
        elif refusal.name == 'BadLine' and numbers == set() and '1i*filter' not in self.added:
            self.added.append('1i*filter')
            self.lines.insert(0, (0, '*filter'))
        else:
            return False
        return True

    # What a copy leaves out.

    def depends(self, refusal: Refusal, line: str) -> bool:
        """Whether a line was dropped that may have declared the chain, opened the table or closed it."""
        gone = [self.page.line(number).lstrip(' \t') for number in self.dropped if number not in self.other_tables]
        others = [text for text in gone if not RULE.match(text)]
        begun = any(text.lstrip(' \t').startswith('*') for _, text in self.lines)
        if refusal.name == 'BadLine':
            now = self.whole(self.text(['*filter', line])) if others and not begun else refusal
            return now is None or now.name != 'BadLine'
        if refusal.name == 'AfterCommit':
            return '1i*filter' in self.added
        return bool(others) and refusal.name in ('UnknownChain', 'UnknownTarget') or \
            refusal.name == 'NoCommit' and bool(self.dropped) and \
            not (begun and all(text.startswith(':') for text in others))

    def is_reached(self, number: int) -> bool:
        """Whether some packet of a trace may get to the line: to a rule in its place that accepts all."""
        def chain_of(line: str) -> str:
            found = re.match(r'\s*(?:\[\S*\s+)?-A\s+(\S+)', line)
            return found[1] if found else ''
        chain = chain_of(self.page.line(number))
        above = [text for other, text in self.lines if other < number]
        wide = [f'-A {chain} -j ACCEPT'] * 2
        answer = self.program.passing(self.text(above + wide + [text for other, text in self.lines if other > number]))
        if answer is None:
            return True
        nth = 1 + sum(chain_of(line) == chain for line in above)
        rule, next_rule = {'chain': chain, 'rule': nth}, {'chain': chain, 'rule': nth + 1}
        passes = any(rule in service['rules'] for pair in answer['pairs'] for service in pair['services'])
        return passes or next_rule in answer['dead'] and rule not in answer['dead']

    def summary(self, accepted: bool) -> Iterator[str]:
        """What was left out, and what of it counts."""
        gone = sorted(set(self.dropped))
        rules = [number for number in gone if number not in self.other_tables]
        tables = [number for number in gone if number in self.other_tables]
        lost = [number for number in rules if not accepted or len(rules) > MOST or self.is_reached(number)]
        if tables:
            yield f'These lines are of other tables: {spans(tables)}. If one rewrites addresses, a trace differs ' \
                  'from the box.'
        if len(lost) < len(rules):
            yield 'No packet of a trace reaches these lines, so they may be left out: ' \
                  f'{spans([number for number in rules if number not in lost])}.'
        for pattern, does in WORDS['rules']['targets'].items():
            some = [number for number in lost if re.search(pattern, self.page.line(number))]
            lost = [number for number in lost if number not in some]
            if some:
                yield f'On the box these lines {does}, which a trace without them gives to the rules below: ' \
                      f'{spans(some)}.' if does else f'These lines decide nothing: {spans(some)}.'
        if lost:
            yield f'These lines are no rules, or have no target: {spans(lost)}.'
        if accepted and (self.dropped or self.added):
            yield self.command()
