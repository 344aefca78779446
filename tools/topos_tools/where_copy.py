"""A copy of a description, as a table that can be changed. Changes can be undone."""
import contextlib
from collections.abc import Callable, Iterator
from ipaddress import IPv4Address
from typing import Any

from .toml_places import Node, quoted

Change = Callable[[], object]
KINDS = {dict: 'table', list: 'array', bool: 'boolean', int: 'integer', str: 'text'}


def written(node: Node) -> str:
    """The value on one line, for a copy."""
    if node.kind == 'array':
        return f'[{", ".join(map(written, node.value))}]'
    if node.kind == 'table':
        return f'{{{", ".join(f"{quoted(key)} = {written(inner)}" for key, inner in node.value.items())}}}'
    if node.kind == 'text':
        return quoted(node.value)
    return str(node.value).lower() if node.kind == 'boolean' else str(node.value)


def document(root: Node) -> bytes:
    """The text of a copy: its keys, one in each line, without comments."""
    return ''.join(f'{quoted(key)} = {written(node)}\n' for key, node in root.value.items()).encode()


def made(value: Any, at: Node) -> Node:
    """A value for a copy, in the place of `at`. A node is left as it is."""
    if isinstance(value, Node):
        return value
    node = Node(KINDS[type(value)], value, at.start, at.end, 'made')
    if node.kind == 'table':
        node.value = {key: made(inner, at) for key, inner in value.items()}
    elif node.kind == 'array':
        node.value = [made(inner, at) for inner in value]
    for number, item in enumerate(node.items(), 1):
        item.number = item.number or number
    node.number = at.number
    return node


class Copy:
    """A copy of a description, by the table that it says."""

    def __init__(self, root: Node) -> None:
        self.root, self.fresh = root, 0
        self.undo: list[tuple[Node, Any]] = []

    @contextlib.contextmanager
    def tried(self, change: Change) -> Iterator[None]:
        before = len(self.undo)
        change()
        try:
            yield
        finally:
            while len(self.undo) > before:
                node, value = self.undo.pop()
                node.value = value

    def give(self, node: Node, value: Any) -> None:
        """Another value for a text, an array or a table: its elements or its members."""
        self.undo.append((node, node.value))
        node.value = value

    def fill(self, table: Node, values: dict[str, Any]) -> None:
        """These keys and values for a table, where known ones keep their places."""
        old = table.value if table.kind == 'table' else {}
        self.give(table, {key: made(value, old.get(key, table)) for key, value in values.items()})

    def set(self, table: Node, key: str, value: Any) -> None:
        self.fill(table, table.value | {key: value})

    def put(self, array: Node, item: Node, *values: Any) -> None:
        """Other values in the place of an item, or none."""
        place = next((each for each, other in enumerate(array.value) if other is item), len(array.value))
        self.give(array, array.value[:place] + [made(value, item) for value in values] + array.value[place + 1:])

    def replace(self, holder: Node, item: Node, *values: Any) -> None:
        """Other values in the place of an element of an array, or another one for a key of a table."""
        if holder.kind == 'array' and holder is not item:
            self.put(holder, item, *values)
        else:
            self.fill(holder, {key: values[0] if node is item else node for key, node in holder.value.items()})

    def move(self, key: str, table: Node, to: Node) -> None:
        """Moves a key from one table to another."""
        value = table.need(key)
        self.fill(table, {other: node for other, node in table.value.items() if other != key})
        self.set(to, key, value)

    # What it has.

    def rows(self, key: str) -> list[Node]:
        return self.root.rows(key)

    def names(self) -> list[str]:
        return [name for host in self.rows('host') if (name := text_of(host.get('name'))) is not None]

    def names_of_file(self) -> list[str]:
        """Returns the names of hosts without those that the copy has in addition."""
        nodes = [node for host in self.rows('host') if (node := host.get('name')) and node.origin != 'made']
        return [name for name in map(text_of, nodes) if name is not None]

    def mentions(self, name: str) -> list[Node]:
        """The places of the text in flows and in entries."""
        found = [item for flow in self.rows('flow') for item in flow.items()[:2]]
        found += [each for row in self.rows('invariant') for entry in row.rows('assign') for value in entry.inner()
                  for each in (value, *value.items())]
        return [node for node in found if text_of(node) == name]

    # New values for it.

    def new_name(self) -> str:
        self.fresh += 1
        return f'host-{self.fresh}' if f'host-{self.fresh}' not in self.names() else self.new_name()

    def new_address(self) -> str:
        self.fresh += 1
        return str(IPv4Address('255.0.0.0') + self.fresh)

    def declare(self, name: str) -> None:
        hosts = self.root.need('host')
        self.give(hosts, hosts.value + [made({'name': name, 'at': [self.new_address()]}, hosts)])

    def rename(self, name: str, other: str) -> None:
        for node in self.mentions(name):
            self.give(node, other)


def all_of(*changes: Change) -> Change:
    def change() -> None:
        for each in changes:
            each()
    return change


def text_of(node: Node | None) -> str | None:
    return node.value if node is not None and node.kind == 'text' else None
