"""The place of a refusal in a copy of a description, and which parts of a table or an array are at fault.

A refusal tells its place. For a table or an array with something wrong in it, its parts are put into the copy one after
another, next to a sample that the program accepts: a part is at fault if the program refuses the copy with it.
"""
from functools import partial
from typing import Any

from .toml_places import Node, Scanner
from .where_copy import Change, Copy, document, made, text_of
from .where_refusals import PLACES, Order, Program, Refusal
from .where_samples import ADDRESS, NAME, SAMPLES, TABLES, values_of
from .where_toml import Edited

Step = tuple[str, Node, Node]


class Parts:
    """What is left of a table or an array without the parts at fault, and what a sample adds to it."""

    def __init__(self, kept: dict[str, Any]) -> None:
        self.kept, self.added = kept, dict[str, Any]()
        self.keys = dict[str, Node]()  # at fault
        self.items = list[tuple[str, Node]]()  # at fault, by the key of their array

    def whole(self, node: Node) -> dict[str, Any]:
        return joined(node, self.added, self.kept)


def joined(node: Node, sample: dict[str, Any], kept: dict[str, Any]) -> dict[str, Any]:
    """What is kept of a table, completed by a sample; for an array both are lists of elements at the key ''."""
    first = kept.get('', [])
    return sample | kept if node.kind == 'table' else {'': [*getattr(first, 'value', first), *sample.get('', [])]}


class Description:
    """A copy of a description, and what the program answers about it."""

    def __init__(self, program: Program, edited: Edited) -> None:
        scanner = Scanner(edited.text)
        self.program, self.edited, self.copy = program, edited, Copy(scanner.document())
        edited.statements = scanner.statements

    def ask(self) -> Refusal | None:
        return self.program.description(document(self.copy.root))

    # Places.

    def steps(self, refusal: Refusal) -> list[Step]:
        """The arrays that lead to the place of a refusal of the copy, each with a word for it and its element."""
        found: list[Step] = []
        for word, number in zip((refusal.place, 'assign'), refusal.at):
            rows = found[-1][2].need(word) if found else self.copy.root.need(word)
            found.append((word, rows, rows.items()[number - 1]))
        if refusal.item:
            node = found[-1][2]
            rows = node.get('at') or node.get('deny') or node
            found.append(('item', rows, rows.items()[refusal.item - 1]))
        return found

    def row_at(self, refusal: Refusal) -> Step:
        """The table or the array at the place of a refusal, without the item."""
        steps = [step for step in self.steps(refusal) if step[0] != 'item']
        return steps[-1] if steps else ('document', self.copy.root, self.copy.root)

    def other_at(self, refusal: Refusal) -> Node:
        return self.row_at(refusal)[1].items()[refusal.other - 1]

    def title(self, refusal: Refusal) -> str:
        """The refusal with the numbers of FILE in the place of those of the copy."""
        words = ' '.join(f'{word} {node.number}' for word, _, node in self.steps(refusal)) or 'document'
        other = f', other {self.other_at(refusal).number}' if refusal.other else ''
        return f'{refusal.number} {refusal.name} at {words}{other}'

    def order(self, refusal: Refusal) -> Order:
        """The place of a refusal of the copy among all, by the numbers of FILE."""
        steps = self.steps(refusal)
        numbers = tuple(node.number for word, _, node in steps if word != 'item')
        return refusal.number, PLACES.index(refusal.place), numbers, steps[-1][2].number if refusal.item else 0

    # The program's answers.

    def passes(self, before: Order, change: Change) -> bool:
        """Whether topos has nothing against a copy with this change up to the place of a refusal and there."""
        with self.copy.tried(change):
            now = self.ask()
            return now is None or self.order(now) > before

    def fill(self, node: Node, values: dict[str, Any]) -> None:
        """Gives a table these keys and values, or an array these elements."""
        if node.kind == 'table':
            self.copy.fill(node, values)
        else:
            self.copy.give(node, [made(item, node) for item in values['']])

    def fits(self, before: Order, node: Node, samples: list[dict[str, Any]], kept: dict[str, Any]) -> int | None:
        """Which of the samples completes what is kept of a table such that topos accepts it, if one does."""
        return next((place for place, sample in enumerate(samples)
                     if self.passes(before, partial(self.fill, node, joined(node, sample, kept)))), None)

    def parts(self, refusal: Refusal) -> Parts | None:
        """Which parts are at fault, or None if that cannot be told."""
        (kind, _, node), before = self.row_at(refusal), self.order(refusal)
        if node.kind != ('array' if kind == 'flow' else 'table'):
            return None
        members = {'': made(node.value, node)} if kind == 'flow' else node.value
        held = {'host': members['host']} if refusal.number == 18 else {}
        samples = self.samples(refusal, node)
        if kind != 'flow':
            samples = [sample for sample in samples if self.fits(before, node, [sample], held) is not None]
        parts, order = Parts(held), list(dict.fromkeys(key for sample in samples for key in sample))
        for key in sorted(members, key=lambda key: order.index(key) if key in order else len(order)):
            if key not in held:
                self.try_part(before, node, samples, parts, key, members[key])
        fitting = self.fits(before, node, [{}, *samples], parts.kept)
        parts.added = {} if not fitting else {key: value for key, value in samples[fitting - 1].items()
                                              if key not in parts.kept or not key}
        return parts if samples else None

    def samples(self, refusal: Refusal, node: Node) -> list[dict[str, Any]]:
        """Tables that may complete what is left of one, with new names and addresses."""
        kind = self.row_at(refusal)[0]
        tables = [dict(table) for table in TABLES[kind]]
        if kind == 'assign':
            tables += [{'kind': word} for word in self.own_kinds()]
            tables = tables if refusal.number == 18 else [{'host': NAME}]
        if kind == 'template':
            words = [text_of(node.get('default')),
                     *(text_of(item) for pair in node.rows('deny') for item in pair.items())]
            tables = [{**tables[0], 'kinds': list(dict.fromkeys(word for word in words if word))},
                      *({**tables[0], 'default': word, 'kinds': [word]}
                        for word in map(text_of, node.rows('kinds')[:3]) if word), *tables]
        return [{key: self.fresh(value) for key, value in table.items()} for table in tables]

    def try_part(self, before: Order, node: Node, samples: list[dict[str, Any]], parts: Parts, key: str,
                 value: Node) -> None:
        """Keeps the key and its value, or some of its elements, or neither."""
        fitting = self.fits(before, node, samples, parts.kept | {key: value})
        if fitting is not None:
            parts.kept[key] = value
            samples.insert(0, samples.pop(fitting))
            return
        kept: list[Node] = []
        bad: list[Node] = []
        for item in value.items():
            fitting = self.fits(before, node, samples, parts.kept | {key: kept + [item]})
            (bad if fitting is None else kept).append(item)
        if kept or value.items() and self.fits(before, node, samples, parts.kept | {key: []}) is not None:
            parts.kept[key] = kept
            parts.items += [(key, item) for item in bad]
        else:
            parts.keys[key] = value

    # Values for it.

    def own_kinds(self) -> list[str]:
        """Returns the kinds of templates in the file."""
        own = [text_of(item) for row in self.copy.rows('template') for item in row.rows('kinds')]
        return [word for word in dict.fromkeys(own) if word and word not in SAMPLES['kinds']]

    def values(self, key: str) -> list[Any]:
        found = values_of(key) + self.own_kinds() * (key in ('kind', 'default'))
        return [self.fresh(value) for place, value in enumerate(found) if value not in found[:place]]

    def fresh(self, value: Any) -> Any:
        """Returns the value with a new name or a new address where it has one."""
        return self.copy.new_name() if value == NAME else [self.copy.new_address()] if value == [ADDRESS] else value
