"""Refusals by their parts, and the program that prints them."""
import re
from dataclasses import dataclass, field
from typing import Any

from .query import Programs, Question, Stopped, TimedOut, find_query

PLACE = r'document|host \d+|invariant \d+(?: assign \d+)?|flow \d+|template \d+'
DESCRIPTION = re.compile(rf'topos: description: (\d+) (\w+) at ({PLACE})(?: item (\d+))?(?:, other (\d+))?(?:: .*)?$')
LINE = re.compile(r'topos: (rules|events|edits): line (\d+): (\w+)$')
PLACES = ['document', 'host', 'invariant', 'flow', 'template']  # in the order in which they are told
Order = tuple[int, int, tuple[int, ...], int]  # of the refusals of a description: the program looks for them so


@dataclass(frozen=True)
class Refusal:
    """A refusal by its parts: of a description its number and place, of another text its line."""
    what: str
    name: str
    number: int = 0
    place: str = 'document'
    at: tuple[int, ...] = ()
    item: int = 0
    line: int = 0
    other: int = field(default=0, compare=False)


def refusals_in(text: str) -> list[Refusal]:
    """Returns the refusals among the lines of a text."""
    found: list[Refusal] = []
    for line in map(str.strip, text.splitlines()):
        told, of_line = DESCRIPTION.match(line), LINE.match(line)
        if told:
            place, *at = told[3].split()
            found.append(Refusal('description', told[2], int(told[1]), place, tuple(map(int, at[::2])),
                                 int(told[4] or 0), other=int(told[5] or 0)))
        elif of_line:
            found.append(Refusal(of_line[1], of_line[3], line=int(of_line[2])))
    return found


class Program:
    """The program, asked why it refuses a text."""

    def __init__(self, path: str) -> None:
        self.path = path

    def ask(self, words: list[str], *texts: bytes) -> Refusal | None:
        """Returns the refusal of these texts, whose paths follow the words, or None if they are accepted."""
        try:
            Question([self.path, *words], *texts).answer((0, 2, 5))
        except Stopped as stopped:
            found = refusals_in(str(stopped))
            if found:
                return found[0]
            raise
        return None

    def description(self, text: bytes) -> Refusal | None:
        return self.ask(['migrate', '/dev/stdin'], text)

    def passing(self, rules: bytes) -> dict[str, Any] | None:
        """Returns what rules let pass, and which are dead, or None if topos-query is missing or refuses them."""
        try:
            return Programs(self.path, find_query(self.path)).ask_flows(b'topos = 2\nhost = []\n', rules)
        except TimedOut:
            raise
        except Stopped:
            return None
