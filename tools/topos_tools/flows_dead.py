"""Dead rules: those that no packet of any state meets, whatever the matches in doubt do.

`topos-query flows` lists the rules that no packet meets in a text in which a match in doubt ends nothing. A *plain*
copy of a chain has its rules, but a verdict in doubt is a jump to an empty chain. A *copy in doubt* is for packets that
may have left the chain: a sure verdict becomes `RETURN`. docs/IMPORT.md has the argument.
"""
from collections.abc import Iterator
from dataclasses import dataclass
from typing import Any

from .flows_answer import encoded
from .flows_states import readings
from .flows_takers import Takers
from .import_bounds import Copy, steps_of
from .import_pieces import Action, Rule
from .import_save import Save
from .import_text import Text
from .query import Programs, Question

ENDS = {str(action) for action in (Action.ACCEPT, Action.DROP, Action.RETURN)}
OF_NO_LINE = Rule(0, '')
EVERYBODY = b'topos = 2\nflow = []\nhost = [{ name = "all", rest = true }]\n'


class Meeting:
    """A text in which a packet meets at least the rules of the save that it may meet."""

    def __init__(self, save: Save) -> None:
        policy = Action(save.policy)
        self.steps = {chain: steps_of(rules, policy if chain == 'FORWARD' else Action.RETURN)
                      for chain, rules in save.rules.items()}
        self.text = Text(save.policy)
        self.names: dict[Copy, str] = {}
        self.waiting: list[Copy] = []
        self.name(Copy('FORWARD', True))
        self.nothing = self.text.add_chain('nothing')
        while self.waiting:
            self.write(self.waiting.pop())

    def name(self, copy: Copy) -> str:
        """Returns the name of a copy, which is written later if it is new."""
        if copy not in self.names:
            self.names[copy] = self.text.add_chain('FORWARD' if not self.names else f'c{len(self.names)}')
            self.waiting.append(copy)
        return self.names[copy]

    def write(self, copy: Copy) -> None:
        """Writes the steps of a copy. Where the next copy in doubt of the chain begins, that one continues."""
        name, steps = self.names[copy], self.steps[copy.chain]
        for place in range(copy.start, len(steps)):
            following = Copy(copy.chain, False, place)
            if not copy.is_plain and place > copy.start and following in self.names:
                self.text.add_line(name, (), self.names[following], OF_NO_LINE, ())
                return
            for piece in steps[place].pieces:
                for target in self.targets(copy, place, not piece.doubts):
                    self.text.add_piece(name, piece, target, steps[place].rule)

    def targets(self, copy: Copy, place: int, is_sure: bool) -> list[str]:
        """Returns the targets of the rules that a piece of a step becomes."""
        step = self.steps[copy.chain][place]
        if step.action is Action.JUMP:
            return [self.name(Copy(step.target, is_sure and copy.is_plain))]
        if is_sure:
            return [str(step.action if copy.is_plain else Action.RETURN)]
        if step.action is Action.RETURN and copy.is_plain:
            rest = [self.name(Copy(copy.chain, False, place + 1))] if place + 1 < len(self.steps[copy.chain]) else []
            return [*rest, str(Action.RETURN)]
        return [self.nothing]

    def rules(self) -> Iterator[tuple[tuple[str, int], int]]:
        """Yields the place of each rule of the text that does what a rule of the save does, with the line of that."""
        copies = {*self.names.values(), self.nothing}
        for chain, lines in self.text.chains.items():
            for number, line in enumerate(lines, 1):
                is_helper = line.target not in copies | ENDS or chain not in copies and line.target == Action.RETURN
                if line.source and not is_helper:
                    yield (chain, number), line.source

    def ask(self, programs: Programs) -> Question:
        return programs.begin_flows(EVERYBODY, encoded(self.text.written(['topos-flows'])))

    def met(self, answer: dict[str, Any]) -> set[int]:
        """Returns the lines of which a packet meets a rule."""
        dead = {(each['chain'], each['rule']) for each in answer['dead']}
        return {line for place, line in self.rules() if place not in dead}


@dataclass
class DeadRule:
    """A rule that no packet meets, and the lines of the rules that take its packets, if they are known."""
    rule: Rule
    takers: list[int] | None

    def tree(self) -> dict[str, object]:
        return {'line': self.rule.line, 'rule': self.rule.text, 'taken_by': self.takers}


class Search:
    """The questions on the rules that no packet meets. They run at once."""

    def __init__(self, programs: Programs, text: str, save: Save) -> None:
        self.programs, self.save = programs, save
        self.readings = readings(text, save)
        self.meetings = [Meeting(each) for each in self.readings]
        self.asked = [each.ask(programs) for each in self.meetings]

    def found(self) -> list[DeadRule]:
        """Returns the rules that no packet meets, in the order of their lines."""
        listed, met = set[int](), set[int]()
        for meeting, asked in zip(self.meetings, self.asked):
            listed.update(line for _, line in meeting.rules())
            met |= meeting.met(self.programs.flows_of(asked))
        takers = Takers(self.readings)
        return [DeadRule(rule, takers.of(rule.line)) for rule in self.save.all_rules() if rule.line in listed - met]


def dead_rules(programs: Programs, text: str, save: Save) -> list[DeadRule]:
    return Search(programs, text, save).found()
