"""Rules of a save as products of sets: the pieces of a rule, and what it does with a packet in one of them."""
from collections.abc import Iterable
from dataclasses import dataclass, field, replace
from enum import StrEnum

from .import_sets import ALL_ADDRESSES, ALL_PORTS, ALL_PROTOCOLS, Numbers, intersection, is_subset

NEW, ESTABLISHED = 'NEW', 'ESTABLISHED'
BOTH = frozenset((NEW, ESTABLISHED))
OTHERS = frozenset(('RELATED', 'INVALID', 'UNTRACKED'))  # the states of packets that the model leaves out


class Action(StrEnum):
    """What a rule does with a packet that matches. `UNKNOWN` is any verdict, or to continue."""
    ACCEPT = 'ACCEPT'
    DROP = 'DROP'
    RETURN = 'RETURN'
    JUMP = 'jump'
    GOTO = 'goto'
    CONTINUE = 'continue'
    UNKNOWN = 'unknown'


@dataclass(frozen=True)
class Piece:
    """A product of sets. A packet in it matches the rule: surely if there are no doubts, else perhaps."""
    sources: Numbers = ALL_ADDRESSES
    destinations: Numbers = ALL_ADDRESSES
    protocols: Numbers = ALL_PROTOCOLS
    source_ports: Numbers = ALL_PORTS
    destination_ports: Numbers = ALL_PORTS
    states: frozenset[str] = BOTH
    doubts: tuple[str, ...] = ()

    def covers(self, other: 'Piece') -> bool:
        """Whether every packet of the other piece is in this one."""
        return other.states <= self.states and all(is_subset(getattr(other, each), getattr(self, each))
                                                   for each in DIMENSIONS)


DIMENSIONS = ('sources', 'destinations', 'protocols', 'source_ports', 'destination_ports')


def restricted(pieces: Iterable[Piece], dimension: str, numbers: Numbers) -> list[Piece]:
    """Returns the parts of the pieces within the numbers of a dimension, without the empty ones."""
    parts = [replace(piece, **{dimension: intersection(getattr(piece, dimension), numbers)}) for piece in pieces]
    return [part for part in parts if getattr(part, dimension)]


def in_states(pieces: Iterable[Piece], states: frozenset[str]) -> list[Piece]:
    parts = [replace(piece, states=piece.states & states) for piece in pieces]
    return [part for part in parts if part.states]


def in_doubt(pieces: Iterable[Piece], reason: str) -> list[Piece]:
    return [replace(piece, doubts=(*piece.doubts, reason)) for piece in pieces]


@dataclass
class Rule:
    """A rule of the save. A packet in no piece does not match."""
    line: int
    text: str
    pieces: list[Piece] = field(default_factory=list)
    action: Action = Action.CONTINUE
    target: str = ''
    comment: str = ''
    never: str = ''  # why no new or established packet matches, if an option says so
    others: frozenset[str] = OTHERS  # the states that the model leaves out and of which packets may match
    is_partial: bool = False  # whether only some of the packets in these states match
    named: list[Numbers] = field(default_factory=list)  # the sets of addresses of its options, without interfaces

    def sure_pieces(self) -> list[Piece]:
        return [piece for piece in self.pieces if not piece.doubts]

    def doubts(self) -> list[str]:
        """Lists the reasons for doubt, each once. An unknown target is one."""
        target = [f'target {self.target}'] if self.action is Action.UNKNOWN else []
        return list(dict.fromkeys([*(doubt for piece in self.pieces for doubt in piece.doubts), *target]))
