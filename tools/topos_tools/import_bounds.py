"""Writes two bounds of a save: `upper` forwards all that the box may forward, `lower` only what it surely forwards.

They are the in-doubt-allow and the in-doubt-deny closure of the rules. docs/IMPORT.md has the argument. A chain has two
kinds of copies. The plain copy is for packets that surely are in the chain. The copy in doubt is for packets that may
have passed the chain by: it never gives the verdict of the other bound.
"""
from typing import NamedTuple

from .import_pieces import Action, Piece, Rule, in_doubt
from .import_save import Save
from .import_text import Text


class Step(NamedTuple):
    """A rule, or a part of one, with an action other than to continue, goto and an unknown verdict."""
    rule: Rule
    action: Action
    target: str
    pieces: list[Piece]

    def may_fail(self) -> bool:
        return any(piece.doubts for piece in self.pieces)


class Copy(NamedTuple):
    """A copy of a chain from one of its steps on."""
    chain: str
    is_plain: bool
    start: int = 0


class Bound:
    """One of the two texts. `taken` is the verdict that is taken in doubt, and `other` the one that is left out."""

    def __init__(self, save: Save, is_upper: bool) -> None:
        self.taken, self.other = (Action.ACCEPT, Action.DROP) if is_upper else (Action.DROP, Action.ACCEPT)
        order = save.innermost_first()
        policy = Action(save.policy)
        self.steps = {chain: steps_of(save.rules[chain], policy if chain == 'FORWARD' else Action.RETURN)
                      for chain in order}
        self.may_take: dict[str, bool] = {}  # whether the chain may give the verdict that is taken
        self.is_same: dict[str, bool] = {}  # whether the copy in doubt is the plain copy
        for chain in order:
            self.may_take[chain] = any(map(self.takes, self.steps[chain]))
            self.is_same[chain] = all(map(self.stays, self.steps[chain]))
        self.text = Text(save.policy)
        self.names: dict[Copy, str] = {}
        self.waiting: list[Copy] = []
        self.name(Copy('FORWARD', True))
        while self.waiting:
            self.write(self.waiting.pop())

    def takes(self, step: Step) -> bool:
        return step.action is self.taken or step.action is Action.JUMP and self.may_take[step.target]

    def stays(self, step: Step) -> bool:
        """Whether a step is the same in a copy in doubt."""
        if step.action is Action.JUMP:
            return self.is_same[step.target]
        return step.action is not self.other and not (step.action is Action.RETURN and step.may_fail())

    def name(self, copy: Copy) -> str:
        """Returns the name of a copy, which is written later if it is new."""
        if not copy.is_plain and copy.start == 0 and self.is_same[copy.chain]:
            copy = Copy(copy.chain, True)
        if copy not in self.names:
            place = str(self.steps[copy.chain][copy.start].rule.line) if copy.start else ''
            self.names[copy] = self.text.add_chain(copy.chain if copy.is_plain else f'{copy.chain}?{place}')
            self.waiting.append(copy)
        return self.names[copy]

    def write(self, copy: Copy) -> None:
        """Writes the steps of a copy. Where the next copy in doubt of the chain begins, that one continues."""
        name, steps = self.names[copy], self.steps[copy.chain]
        for place in range(copy.start, len(steps)):
            following = Copy(copy.chain, False, place)
            if not copy.is_plain and place > copy.start and following in self.names:
                self.text.add_line(name, (), self.names[following], steps[place].rule, ())
                return
            for piece in steps[place].pieces:
                self.write_piece(name, copy, place, piece)

    def write_piece(self, name: str, copy: Copy, place: int, piece: Piece) -> None:
        step = self.steps[copy.chain][place]
        is_sure = not piece.doubts
        if step.action is self.taken:
            self.add(name, piece, self.taken, step)
        elif step.action is self.other:
            if is_sure:
                self.add(name, piece, self.other if copy.is_plain else Action.RETURN, step)
        elif step.action is Action.JUMP:
            if is_sure and copy.is_plain:
                self.add(name, piece, self.name(Copy(step.target, True)), step)
            elif self.may_take[step.target]:
                self.add(name, piece, self.name(Copy(step.target, False)), step)
        elif is_sure:
            self.add(name, piece, Action.RETURN, step)
        elif copy.is_plain:
            self.write_doubtful_return(name, copy.chain, place, piece)

    def write_doubtful_return(self, name: str, chain: str, place: int, piece: Piece) -> None:
        """Writes that a packet may have returned: what follows is in doubt for it."""
        step = self.steps[chain][place]
        if any(map(self.takes, self.steps[chain][place + 1:])):
            self.add(name, piece, self.name(Copy(chain, False, place + 1)), step)
        self.add(name, piece, Action.RETURN, step)

    def add(self, name: str, piece: Piece, target: str, step: Step) -> None:
        self.text.add_piece(name, piece, str(target), step.rule)


def steps_of(rules: list[Rule], returned: Action) -> list[Step]:
    """Returns the steps of a chain. `returned` is what a return does: in `FORWARD` it is the policy."""
    steps = []
    for rule in rules:
        if rule.action is Action.GOTO:
            steps += [Step(rule, Action.JUMP, rule.target, rule.pieces), Step(rule, returned, '', rule.pieces)]
        elif rule.action is Action.UNKNOWN:
            pieces = in_doubt(rule.pieces, f'target {rule.target}')
            steps += [Step(rule, Action.ACCEPT, '', pieces), Step(rule, Action.DROP, '', pieces)]
        elif rule.action is Action.RETURN:
            steps.append(Step(rule, returned, '', rule.pieces))
        elif rule.action is not Action.CONTINUE:
            steps.append(Step(rule, rule.action, rule.target, rule.pieces))
    return [step for step in steps if step.pieces]
