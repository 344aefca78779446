"""A TOML text with the places of its keys and values: TOML 1.1, the language that `topos` reads."""
import json
import re
import tomllib
from collections.abc import Iterator
from typing import Any

DEEPEST = 80  # nested brackets
LISTS = ('host', 'invariant', 'template', 'assign')
Part = tuple[str, int, int]  # of a dotted key, and its place
Span = tuple[int, int]  # a place: its start and its end


class Fault(Exception):
    """The place at which a text stops being TOML."""

    def __init__(self, at: int, sentence: str, end: int | None = None, first: Span | None = None,
                 twice: str = '') -> None:
        super().__init__(sentence)
        self.twice = twice  # a key that is defined already
        self.at, self.sentence, self.end, self.first = at, sentence, end or at + 1, first
        self.statement = 0  # that has the fault
        self.open: list[int] = []  # the places of the open brackets


class Node:
    """A value and its place. What is made for a copy has the place of what it replaces."""

    def __init__(self, kind: str, value: Any, start: int, end: int, origin: str = '') -> None:
        self.kind, self.value, self.start, self.end = kind, value, start, end
        self.origin = origin        # of a table: what made it; of an array `headers` if these made it
        self.key_at = start, end    # the place of its key
        self.number = 0             # among the elements of its array, from 1

    def get(self, key: str) -> 'Node | None':
        """Returns the value of a key, or None if this is no table or lacks the key."""
        node: Node | None = self.value.get(key) if self.kind == 'table' else None
        return node

    def need(self, key: str) -> 'Node':
        """Returns the value of a key that the table has."""
        node: Node = self.value[key]
        return node

    def items(self) -> 'list[Node]':
        """Returns the elements of an array, and none of another value."""
        found: list[Node] = self.value if self.kind == 'array' else []
        return found

    def rows(self, key: str) -> 'list[Node]':
        """Returns the elements of the array that a key has, and none if it has no array."""
        node = self.get(key)
        return node.items() if node else []

    def inner(self) -> 'list[Node]':
        """Returns the elements of an array or the values of a table."""
        return list(self.value.values()) if self.kind == 'table' else self.items()

    def plain(self) -> Any:
        """Returns the value as Python has it, but a date or a number with a fraction as its text."""
        if self.kind == 'table':
            return {key: inner.plain() for key, inner in self.value.items()}
        return [item.plain() for item in self.value] if self.kind == 'array' else self.value


BLANK = re.compile(r'(?:[ \t]|\r?\n|#[^\x00-\x08\x0a-\x1f\x7f]*)*')
SPACE = re.compile(r'[ \t]*')
OPENING = re.compile(r'\[{0,2}')
BARE = re.compile(r'[A-Za-z0-9_-]+')
WORD = re.compile(r'[A-Za-z0-9_+.:-]*(?: [0-9][A-Za-z0-9_+.:-]*)?')
HEX = '[0-9A-Fa-f]'
UNIT = f'(?![Dd][89A-Fa-f]){HEX}{{4}}'
ESCAPES = dict(zip('befnrt"\\', '\b\x1b\f\n\r\t"\\'))
ESCAPE = re.compile(rf'\\(?:[befnrt"\\]|x{HEX}{{2}}|u{UNIT}|U(?:0000{UNIT}|000[1-9A-Fa-f]{HEX}{{4}}|0010{HEX}{{4}})|'
                    r'[ \t]*\r?\n(?:[ \t]|\r?\n)*)')
PLAIN = r'[^\x00-\x08\x0a-\x1f\x7f'
STRINGS = {  # an opening quote, or three of them, the text, and the quotes behind it
    ('"', 1): re.compile(rf'"((?:{PLAIN}"\\]|(?!\\[ \t]*\r?\n){ESCAPE.pattern})*)("*)'),
    ("'", 1): re.compile(rf"'({PLAIN}']*)('*)"),
    ('"', 3): re.compile(rf'"""(?:\r?\n)?((?:{PLAIN}"\\]|\r?\n|"{{1,2}}(?!")|{ESCAPE.pattern})*)("*)'),
    ("'", 3): re.compile(rf"'''(?:\r?\n)?((?:{PLAIN}']|\r?\n|'{{1,2}}(?!'))*)('*)")}


def unescaped(found: re.Match[str]) -> str:
    """The character of an escape, or nothing for the end of a line."""
    sign = found[0][1]
    return chr(int(found[0][2:], 16)) if sign in 'xuU' else ESCAPES.get(sign, '')


class Scanner:
    """Reads a text from the front, and knows which brackets are open."""

    def __init__(self, text: str) -> None:
        self.text, self.at = text, 0
        self.brackets: list[int] = []
        self.statements: list[int] = []  # where they begin

    def peek(self) -> str:
        return self.text[self.at:self.at + 1]

    def take(self, pattern: re.Pattern[str]) -> str:
        """Takes the text that a pattern matches here, which may be empty."""
        found = pattern.match(self.text, self.at)
        taken = found[0] if found else ''
        self.at += len(taken)
        return taken

    def document(self) -> Node:
        root = section = Node('table', {}, 0, 0)
        if self.peek() == '\ufeff':
            self.at = 1
        while True:
            self.take(BLANK)
            if self.at == len(self.text):
                return root
            start, self.brackets = self.at, []
            self.statements.append(start)
            try:
                section = self.statement(root, section)
            except Fault as fault:
                fault.statement, fault.open = start, list(self.brackets)
                raise

    def statement(self, root: Node, section: Node) -> Node:
        """Takes a header or a key with its value, and returns the table to which the next keys belong."""
        start, brackets = self.at, len(self.take(OPENING))
        if brackets:
            key = self.header(brackets)
            node = Node('table', {}, start, self.at, 'header')
            section = define(root, key, node, 'tables' if brackets == 2 else 'table')
        else:
            define(section, *self.pair())
        self.take(SPACE)
        if self.peek() not in ('', '#', '\n', '\r'):
            raise Fault(self.at, 'The line ends before this text: a line break, a comma, a bracket or a quote is '
                                 'missing here, or the text is too much.')
        return section

    def header(self, brackets: int) -> list[Part]:
        """Takes the key of a header after its opening brackets, and as many closing ones."""
        self.take(SPACE)
        key = self.key()
        for _ in range(brackets):
            if self.peek() != ']':
                raise Fault(self.at, f'The header is not closed: {"]" * brackets} ends it.')
            self.at += 1
        return key

    def key(self) -> list[Part]:
        """The parts of a dotted key, each with its place."""
        parts: list[Part] = []
        while len(parts) < DEEPEST:
            start = self.at
            part = self.quoted(False) if self.peek() in ('"', "'") else self.take(BARE)
            if self.at == start:
                raise Fault(start, 'A key is missing here: letters, digits, - and _, or a text in quotes.')
            parts.append((part, start, self.at))
            self.take(SPACE)
            if self.peek() != '.':
                return parts
            self.at += 1
            self.take(SPACE)
        raise Fault(self.at, f'A key has at most {DEEPEST} parts.')

    def pair(self) -> tuple[list[Part], Node]:
        key = self.key()
        last, start, end = key[-1]
        if self.peek() not in ('', *'=\r\n,]}#') and self.at == end:
            raise Fault(self.at, 'A key has letters A to Z, a to z, digits, - and _ only: write any other in quotes.')
        if self.peek() != '=':
            raise Fault(self.at, f'After the key {last} comes =.', first=(start, end))
        self.at += 1
        self.take(SPACE)
        return key, self.value()

    def value(self) -> Node:
        start, char = self.at, self.peek()
        if char in ('[', '{') and len(self.brackets) == DEEPEST:
            raise Fault(start, f'Brackets are nested more than {DEEPEST} deep.')
        if char == '[':
            node = Node('array', [], start, start)
            for number, _ in enumerate(self.elements(']', 'array'), 1):
                node.value.append(self.value())
                node.value[-1].number = number
        elif char == '{':
            node = Node('table', {}, start, start, 'inline')
            for _ in self.elements('}', 'table'):
                define(node, *self.pair())
        elif char in ('"', "'"):
            node = Node('text', self.quoted(True), start, start)
        else:
            node = Node(*self.unquoted(), start, start)
        node.end, node.key_at = self.at, (start, self.at)
        return node

    def elements(self, closing: str, kind: str) -> Iterator[None]:
        """Takes brackets, and what parts the elements between them, each of which the caller takes."""
        self.brackets.append(self.at)
        self.at += 1
        self.take(BLANK)
        while self.peek() != closing:
            yield
            end = self.at
            self.take(BLANK)
            if self.peek() == ',':
                self.at += 1
                self.take(BLANK)
            elif self.peek() != closing:
                raise Fault(self.at if self.peek() else end, f'The {kind} that begins in line {{}} is not closed, or a '
                            'comma is missing here.', first=(self.brackets[-1], self.brackets[-1] + 1))
        self.at += 1
        self.brackets.pop()

    def quoted(self, may_be_long: bool) -> str:
        """Takes a text between quotes, or three of them."""
        quote, opened = self.peek(), self.at
        wanted = 3 if may_be_long and self.text.startswith(quote * 3, opened) else 1
        found = STRINGS[quote, wanted].match(self.text, opened)
        assert found
        value, behind = found.groups()
        self.at = found.end(1)
        char = self.peek()
        if len(behind) > 5 and wanted == 3:
            raise Fault(self.at, 'There are too many quotes here.')
        if len(behind) >= wanted:
            more = behind[3:] if wanted == 3 else ''
            self.at += wanted + len(more)
            return (ESCAPE.sub(unescaped, value) if quote == '"' else value) + more
        if char == '\\':
            raise Fault(self.at, 'After a \\ this is no character: write \\\\ for a \\, or the text between \' and '
                        '\'.', end=self.at + 2)
        if char and char not in '\r\n':
            raise Fault(self.at, f'A text may not have the character U+{ord(char):04X}.')
        raise Fault(opened, f'The text that begins here is not closed with {quote * wanted}.', end=self.at)

    def unquoted(self) -> tuple[str, Any]:
        start, word = self.at, self.take(WORD)
        if not word:
            raise Fault(start, 'A value is missing here.' if self.peek() in ('', '\r', '\n', ',', ']', '}', '#')
                        else alien(self.peek()) or 'No value begins like this.')
        kind, value = scalar(word)
        if not kind:
            raise Fault(start, value, end=self.at)
        return kind, value


def scalar(word: str) -> tuple[str, Any]:
    """The kind and the value of a word, or no kind and what is wrong with it."""
    full = re.sub(r'(?<![:\d+-])(\d\d:\d\d)(?![:\d])', r'\1:00', word.replace(':60', ':59'))  # of TOML 1.0
    try:
        value = tomllib.loads(f'value = {full}')['value']
    except ValueError:
        value = None
    if isinstance(value, bool):
        return 'boolean', value
    if isinstance(value, int):
        return ('integer', value) if -2 ** 63 <= value < 2 ** 63 else ('', f'{word} needs more than 64 bits.')
    if isinstance(value, float) and abs(value) == float('inf') and 'inf' not in word:
        return '', f'{word} is too great.'
    if value is not None:
        return 'float' if isinstance(value, float) else 'datetime', word
    if word.lower() in ('true', 'false'):
        return '', f'Write {word.lower()} in small letters.'
    if re.fullmatch(r'[+-]?0[0-9_]+', word):
        return '', f'{word}: a number has no leading zeros.'
    return '', f'{word} is no value: write a text in quotes.'


def define(table: Node, key: list[Part], node: Node, what: str = 'value') -> Node:
    """Defines a key, which may have dots, in a table: by a `value`, or by a header of a `table` or of one of `tables`.

    Returns the node that the key then has; of tables, the last one."""
    for part in key[:-1]:
        table = on_way(table, part, what != 'value')
    last, start, end = key[-1]
    node.key_at = start, end
    old = table.get(last)
    if old is None and what == 'tables':
        old = table.value[last] = Node('array', [], start, end, 'headers')
    if old is None:
        table.value[last] = node
    elif what == 'tables' and old.origin == 'headers':
        old.value.append(node)
        node.number = len(old.value)
    elif what == 'table' and old.origin == 'implicit':
        old.origin, old.start, old.end = 'header', node.start, node.end
        return old
    else:
        raise Fault(start, defined_twice(last, old, what), end, old.key_at, twice=last)
    return node


def on_way(table: Node, part: Part, is_header: bool) -> Node:
    """Returns the table at a part of a key that is not the last one, and makes it if it is missing."""
    name, start, end = part
    if name not in table.value:
        table.value[name] = Node('table', {}, start, end, 'implicit')
    inner = table.need(name)
    if is_header and inner.origin == 'headers':
        return inner.items()[-1]
    if inner.kind != 'table' or inner.origin == 'inline' or inner.origin == 'header' and not is_header:
        said = 'is no table that goes on here: it has a value already' if is_header else 'is defined already'
        raise Fault(start, f'`{name}` {said}, in line {{}}.', end, inner.key_at, twice=name)
    if not is_header:
        inner.origin = 'dotted'
    return inner


def defined_twice(key: str, old: Node, what: str) -> str:
    if key not in LISTS or what == 'value':
        return f'The key `{key}` is defined twice, first in line {{}}.'
    if what == 'tables' and old.kind == 'array':
        return f'`{key} = [..]` is in line {{}}, and [[{key}]] is here: use one of the two.'
    return f'`{key}` is in line {{}} already: each one begins with [[{key}]].'


CURLED = '\u2018\u2019\u201a\u201b\u201c\u201d\u201e\u201f\u00ab\u00bb'
BLANKS = '\u00a0\u2007\u202f\u2009\u3000'


def alien(char: str) -> str:
    """What is said of a quote or a space of a word processor."""
    if char and char in CURLED:
        return f'This {char} (U+{ord(char):04X}) is no quote of TOML: write texts between " and ".'
    return f'This is no space of TOML (U+{ord(char):04X}): write a plain one.' if char and char in BLANKS else ''


def quoted(text: str) -> str:
    """A text as TOML writes it in quotes."""
    return json.dumps(text, ensure_ascii=False).replace('\x7f', '\\u007F')
