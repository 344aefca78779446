"""Names rules of a save for a reader: the file, the line and the text."""
from collections.abc import Iterable, Iterator
from dataclasses import dataclass

from .flows_answer import POLICY
from .query import plain

MOST_RULES = 4  # that are shown with their texts


@dataclass
class Rules:
    """The rules of a file: its name, that of the save that has their lines, and the text of each line."""
    name: str
    save: str
    texts: dict[int, str]

    def shown(self, line: int) -> str:
        text = self.texts.get(line)
        return plain(f'{self.save} line {line}' + (f': {text}' if text else ''))

    def heads(self, lines: Iterable[int]) -> list[str]:
        """Returns lines that name some rules, with the file and the texts."""
        numbers = sorted(each for each in lines if each != POLICY)
        found = [self.shown(each) for each in numbers[:MOST_RULES]]
        if len(numbers) > MOST_RULES:
            found.append(plain(f'{self.save} lines {" ".join(map(str, numbers[MOST_RULES:]))}'))
        return found + ([f'{self.save}: the policy of FORWARD'] if POLICY in lines else [])

    def dead(self, line: int, takers: list[int] | None) -> Iterator[str]:
        """Yields a dead rule, with the rules that take its packets, if they are known."""
        yield f'dead: {self.shown(line)}'
        for each in self.heads(takers or ()):
            yield f'  taken by {each}'
        if takers == []:
            yield '  no rule leads its packets to this chain'
