"""Changes to a copy of a description after which the program goes on, and what they touch.

A mend removes what is at fault, or replaces it by a new name or address that nothing else has. A refusal of the copy
is hidden if a mend may be its cause: it is about a part that a mend touched, or about names that a mend took away.
"""
from collections.abc import Sequence
from functools import partial

from .toml_places import Node
from .where_copy import Change, all_of, text_of
from .where_description import Explanation
from .where_parts import Description

NAMES, TEMPLATE, FITS = 16, 15, 18  # refusals that are about names of hosts and of templates
LOST = 4, 12, NAMES, TEMPLATE, FITS  # refusals that a statement may cause in which something was changed


class Mends:
    """The mends of a description, and what they touch."""

    def __init__(self, text: Description, is_changed: bool) -> None:
        self.copy = text.copy
        self.unsure = set(LOST if is_changed else ())  # refusals that a mend may have caused

    def hides(self, found: Explanation) -> bool:
        """Whether a mend may be the cause of a refusal."""
        nodes = found.nodes
        if found.number == FITS:
            nodes = [*nodes, self.copy.rows('invariant')[found.refusal.at[0] - 1].need('template')]
        touched = {id(node) for node, _ in self.copy.undo}
        return found.number in self.unsure or any(is_touched(node, touched) for node in nodes)

    def mend(self, found: Explanation) -> bool:
        """Whether a mend was found after which the program goes on."""
        names, templates = self.named('host'), self.named('template')
        change = next(filter(found.passes, self.changes(found)), None)
        if change is None:
            return False
        change()
        if found.number < NAMES and self.named('host') != names:
            self.unsure |= {NAMES, FITS}
        if found.number < 8 and self.named('template') != templates:
            self.unsure |= {TEMPLATE, FITS}
        return True

    def named(self, key: str) -> list[tuple[int, str]]:
        """The names in the rows of a key, with what tells whether one is from the file."""
        names = [row.get('name') for row in self.copy.rows(key)]
        return [(id(self.copy.root.get(key)), ''), *((id(name), text_of(name) or '') for name in names)]

    def changes(self, found: Explanation) -> Sequence[Change]:
        """The changes of which one lets the program go on: by default the row is left out."""
        copy, refusal, number = self.copy, found.refusal, found.number
        kind, rows, node = found.kind, found.rows, found.node
        holder, at = found.text.steps(refusal)[-1][1:] if refusal.item else \
            (node, node.get('host') or node.get('name') or node)
        name, remove = copy.new_name(), partial(copy.put, rows, node)
        if found.is_newer:
            return [partial(copy.set, copy.root, 'topos', 2)]
        if number < 6 and kind in ('document', 'host', 'invariant'):
            whole = dict(found.rest)
            if kind == 'host' and not {'at', 'rest'} & set(whole):
                whole['at'] = [copy.new_address()]
            return [partial(copy.fill, node, whole)] * found.has_parts + [remove] * (rows is not node)
        if number == 7:
            kept, until = (holder, refusal.item) if refusal.item else (rows, refusal.at[0])
            return [partial(copy.give, kept, kept.value[:until - 1])]
        if number in (12, 13):
            return [partial(copy.fill, node, {'name': node.need('name'), 'at': [copy.new_address()]})]
        put = partial(copy.replace, holder, at)
        new = partial(put, name) if kind == 'host' else partial(copy.declare, name)
        mends: dict[int, Change] = {
            6: partial(copy.set, node, 'topos', 2), 8: all_of(new, partial(copy.rename, at.value, name)),
            9: partial(put, name), 15: partial(copy.set, node, 'template', 'blp'),
            16: partial(copy.declare, at.value), 21: partial(copy.put, holder, at),
            **dict.fromkeys((10, 11, 14), partial(put, copy.new_address()))}
        if number in (23, 24):
            users = [row for row in copy.rows('invariant') if text_of(row.get('template')) == text_of(node.get('name'))]
            return [all_of(remove, *(partial(copy.put, copy.root.need('invariant'), row) for row in users))]
        return [mends.get(number, remove)]


def is_touched(node: Node, touched: set[int]) -> bool:
    """Whether the node or one in it was changed or made."""
    return id(node) in touched or node.origin == 'made' or any(is_touched(each, touched) for each in node.inner())
