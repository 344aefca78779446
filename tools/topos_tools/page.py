"""The text of a description with its places: lines of hosts, flows, invariants and entries, and the comments above.

`tomllib` stores no lines. `Document` reads the text with places, and the result is compared with the table of the same
description. If the two differ, the page has no places: no line is better than a wrong one.

A comment directly above an element that begins its line belongs to the element. A comment line `# topos: title ..`
gives the element a title, and lines `# topos: why ..` give it a reason.
"""
import bisect
import re
from dataclasses import dataclass, field
from typing import Any

from .query import plain
from .toml_places import BLANK, Fault, Node, Scanner

COMMENT = re.compile(r'#([^\n]*)')
NOTE = re.compile(r'topos: (title|why) (.*)')


@dataclass(frozen=True)
class Place:
    """The line of an element, counted from 1, and the contents of the comment above it."""
    line: int | None = None
    title: str = ''
    why: str = ''
    comment: str = ''


NOWHERE = Place()


class Document(Scanner):
    """The tree of a TOML text, and its comment lines."""

    def __init__(self, text: str) -> None:
        super().__init__(text)
        self.starts = [0] + [found.end() for found in re.finditer('\n', text)]
        self.comments: dict[int, str] = {}
        self.root = self.document()

    def take(self, pattern: re.Pattern[str]) -> str:
        start = self.at
        taken = super().take(pattern)
        for found in COMMENT.finditer(taken) if pattern is BLANK else []:
            if self.is_first(start + found.start()):
                self.comments[self.line(start + found.start())] = plain(found[1]).lstrip('#').strip()
        return taken

    def line(self, at: int) -> int:
        return bisect.bisect_right(self.starts, at)

    def is_first(self, at: int) -> bool:
        """Whether only blanks precede a position on its line."""
        return not self.text[self.starts[self.line(at) - 1]:at].strip(' \t\r')

    def place(self, node: Node) -> Place:
        """Returns the place of a node, with the comment that ends on the line above."""
        lines: list[str] = []
        own = above = self.line(node.start)
        while self.is_first(node.start) and above - 1 in self.comments:
            above -= 1
            lines.insert(0, self.comments[above])
        notes: dict[str, list[str]] = {'title': [], 'why': []}
        plain = []
        for line in lines:
            found = NOTE.fullmatch(line)
            if found:
                notes[found[1]].append(found[2].strip())
            else:
                plain.append(line)
        title, why = (' '.join(notes[key]) for key in ('title', 'why'))
        return Place(own, title, why, ' '.join(plain).strip())


@dataclass
class Page:
    """The places of a description. All are empty if `is_known` is false."""
    is_known: bool = False
    hosts: dict[str, Place] = field(default_factory=dict)
    flows: dict[tuple[str, str], Place] = field(default_factory=dict)
    invariants: list[Place] = field(default_factory=list)
    entries: list[dict[str, Place]] = field(default_factory=list)
    templates: dict[str, Place] = field(default_factory=dict)

    def host(self, name: str) -> Place:
        return self.hosts.get(name, NOWHERE)

    def flow(self, sender: str, receiver: str) -> Place:
        return self.flows.get((sender, receiver), NOWHERE)

    def invariant(self, number: int) -> Place:
        """Returns the place of an invariant, counted from 1."""
        return self.invariants[number - 1] if self.is_known else NOWHERE

    def entry(self, number: int, host: str) -> Place:
        return self.entries[number - 1].get(host, NOWHERE) if self.is_known else NOWHERE


def read_page(data: bytes, table: dict[str, Any]) -> Page:
    """Reads the places of a description, whose table is given."""
    try:
        document = Document(data.decode())
        return _places(document, table) if _shape(document.root.plain()) == _shape(table) else Page()
    except (Fault, ValueError, AttributeError, KeyError, IndexError, TypeError, RecursionError):
        return Page()


def _shape(table: dict[str, Any]) -> list[Any]:
    """Returns the names in a description, in its order."""
    invariants = table.get('invariant', [])
    return [[each['name'] for each in table['host']], [flow[:2] for flow in table.get('flow', [])],
            [each['template'] for each in invariants],
            [[entry['host'] for entry in each.get('assign', [])] for each in invariants]]


def _places(document: Document, table: dict[str, Any]) -> Page:
    """Returns the places of a document that has the elements of the table."""
    root, place, page = document.root, document.place, Page(is_known=True)
    page.hosts = {each['name']: place(node) for each, node in zip(table['host'], root.rows('host'))}
    page.flows = {(each[0], each[1]): place(node) for each, node in zip(table.get('flow', []), root.rows('flow'))}
    page.invariants = list(map(place, root.rows('invariant')))
    page.entries = [{entry.need('host').value: place(entry) for entry in each.rows('assign')}
                    for each in root.rows('invariant')]
    page.templates = {each.need('name').value: place(each) for each in root.rows('template')}
    return page
