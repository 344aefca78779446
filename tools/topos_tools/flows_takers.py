"""The rules that take the packets of a dead rule: their sure matches before it leave it none."""
from collections.abc import Callable, Iterator
from dataclasses import replace
from typing import Any

from .import_bounds import Step, steps_of
from .import_pieces import DIMENSIONS, Action, Piece
from .import_save import Save
from .import_sets import difference, intersection

MOST_STEPS = 20_000  # that packets of a rule are followed
MOST_REDUCED = 12  # rules of which the needless ones are left out


class TooMany(Exception):
    """Packets of a rule take too many ways."""


def within(piece: Piece, other: Piece) -> Piece | None:
    """Returns the part of a piece within another one, or None if it is empty."""
    parts: dict[str, Any] = {'states': piece.states & other.states}
    for each in DIMENSIONS if parts['states'] else ():
        numbers, others = getattr(piece, each), getattr(other, each)
        both = numbers if numbers == others else intersection(numbers, others)
        if not both:
            return None
        parts[each] = both
    return Piece(**parts) if parts['states'] else None


def shared(pieces: list[Piece], other: Piece) -> list[Piece]:
    """Returns the parts of the pieces within another one, without the empty ones."""
    return [part for piece in pieces if (part := within(piece, other))]


def without(pieces: list[Piece], other: Piece) -> list[Piece]:
    """Returns the parts of the pieces outside another one."""
    return [part for piece in pieces for part in (parts_outside(piece, other) if within(piece, other) else [piece])]


def parts_outside(piece: Piece, other: Piece) -> Iterator[Piece]:
    for each in DIMENSIONS:
        numbers, within = getattr(piece, each), getattr(other, each)
        outside = difference(numbers, within)
        if outside:
            yield replace(piece, **{each: outside})
            piece = replace(piece, **{each: intersection(numbers, within)})
    if piece.states - other.states:
        yield replace(piece, states=piece.states - other.states)


class Way:
    """Follows packets of a rule through the save, as it is read for some states."""

    def __init__(self, save: Save) -> None:
        policy = Action(save.policy)
        self.steps = {chain: steps_of(rules, policy if chain == 'FORWARD' else Action.RETURN)
                      for chain, rules in save.rules.items()}
        self.rules = {rule.line: rule for rules in save.rules.values() for rule in rules}
        self.chains = {rule.line: chain for chain, rules in save.rules.items() for rule in rules}
        self.callers: dict[str, set[str]] = {}
        for chain, steps in self.steps.items():
            for step in steps:
                self.callers.setdefault(step.target, set()).add(chain)
        self.leading: set[str] = set()  # chains from which the rule can be reached
        self.line, self.count = 0, 0
        self.ends: Callable[[int], bool] = bool  # whether the rules of a line end something
        self.taken: dict[int, None] = {}  # lines of which a rule took packets

    def arriving(self, line: int, ends: Callable[[int], bool]) -> bool:
        """Whether packets of the rule of a line arrive there, if only some rules end something."""
        self.line, self.ends, self.count = line, ends, 0
        self.leading, waiting = set(), [self.chains[line]]
        while waiting:
            chain = waiting.pop()
            if chain not in self.leading:
                self.leading.add(chain)
                waiting += self.callers.get(chain, ())
        return self.arrives('FORWARD', self.rules[line].pieces)

    def covering(self, line: int) -> set[int] | None:
        """Returns the lines above in its chain that take all packets of a rule by themselves; None if it has none."""
        parts, found = self.rules[line].pieces, set[int]()
        for step in self.steps[self.chains[line]] if parts else ():
            if step.rule.line == line:
                break
            sure = [piece for piece in step.pieces if not piece.doubts and step.action is not Action.JUMP]
            if all(any(piece.covers(part) for piece in sure) for part in parts):
                found.add(step.rule.line)
        return found if parts else None

    def spend(self, count: int) -> None:
        self.count += count
        if self.count > MOST_STEPS:
            raise TooMany

    def is_led(self, line: int) -> bool:
        """Whether jumps lead packets of the rule of a line to its chain."""
        self.count = 0

        def led(chain: str, packets: list[Piece]) -> bool:
            self.spend(1)
            return chain == 'FORWARD' or any(
                led(caller, shared(packets, piece)) for caller in self.callers.get(chain, ())
                for step in self.steps[caller] if step.target == chain for piece in step.pieces) if packets else False
        return led(self.chains[line], self.rules[line].pieces)

    def arrives(self, chain: str, packets: list[Piece]) -> bool:
        """Whether packets that enter a chain arrive."""
        for step in self.steps[chain] if chain in self.leading else ():
            if not packets:
                break
            if step.rule.line == self.line:
                return True
            if step.action is Action.JUMP and any(self.arrives(step.target, shared(packets, piece))
                                                  for piece in step.pieces):
                return True
            packets = self.behind(step, packets, [])
        return False

    def behind(self, step: Step, packets: list[Piece], returned: list[Piece]) -> list[Piece]:
        """Returns the packets that come to the next step, and adds those that leave the chain by a return."""
        self.spend(len(step.pieces))
        for piece in step.pieces:
            inside = shared(packets, piece)
            if inside and step.action is Action.RETURN:
                returned += inside
            if inside and not piece.doubts:
                packets = self.past(step, piece, packets, inside)
        return packets

    def past(self, step: Step, piece: Piece, packets: list[Piece], inside: list[Piece]) -> list[Piece]:
        """Returns the packets that come to the next step, of which some surely match."""
        if step.action is Action.JUMP:
            return without(packets, piece) + self.through(step.target, inside)
        if not self.ends(step.rule.line):
            return packets
        self.taken[step.rule.line] = None
        return without(packets, piece)

    def through(self, chain: str, packets: list[Piece]) -> list[Piece]:
        """Returns the packets that a chain returns."""
        returned: list[Piece] = []
        for step in self.steps[chain]:
            if packets:
                packets = self.behind(step, packets, returned)
        return returned + packets


class Takers:
    """Finds for a dead rule the rules that take its packets."""

    def __init__(self, readings: list[Save]) -> None:
        self.ways = [Way(each) for each in readings]

    def of(self, line: int) -> list[int] | None:
        """Returns the lines of the rules that take the packets of the rule of a line.

        The list is empty if no rule leads packets there, and None if the rules are not known.
        """
        try:
            return self.taking(line)
        except TooMany:
            return None

    def taking(self, line: int) -> list[int] | None:
        if not any(way.is_led(line) for way in self.ways):
            return []
        alone = set.intersection(*(found for way in self.ways if (found := way.covering(line)) is not None))
        if alone:
            return [min(alone)]
        for way in self.ways:
            way.taken.clear()
        if self.arriving(line, lambda each: True):
            return None
        taken = list(dict.fromkeys(each for way in self.ways for each in way.taken))
        single = next((each for each in taken if not self.arriving(line, {each}.__contains__)), None)
        if single is not None:
            return [single]
        for each in taken[:] if len(taken) <= MOST_REDUCED else ():
            others = {other for other in taken if other != each}
            if not self.arriving(line, others.__contains__):
                taken.remove(each)
        return sorted(taken)

    def arriving(self, line: int, ends: Callable[[int], bool]) -> bool:
        return any(way.arriving(line, ends) for way in self.ways)
