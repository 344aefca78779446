"""What is told of a refusal of a description, with advice that the program bears out on a copy."""
from collections.abc import Iterable, Iterator
from functools import partial
from ipaddress import IPv4Network
from typing import Any

from .toml_places import Node, quoted, scalar
from .where_advice import Accepts, Advice, advice, explained, first_where, near
from .where_copy import Change, all_of, made, text_of, written
from .where_page import Finding, Mark, Page
from .where_parts import Description, Parts
from .where_refusals import Refusal
from .where_samples import GENERAL, NAME, PATHS, ROWS, TABLES, TEMPLATES, TOLD, A, known_keys, values_of

PARTS = (3, 4, 5, 18, 22, 23)  # refusals of a table or an array that do not tell the part
MOST = 1 << 20  # of numbers, where the greatest is looked for
TYPES: dict[type[Any], str] = {bool: 'true or false, without quotes', int: 'a number, without quotes',
                               str: 'a text in quotes', list: 'an array'}
VALUES = {8: advice('names'), 10: advice('addresses'), 21: advice('services'), 18: advice('case', 'names'),
          23: advice('names')}


def is_free(key: str) -> bool:
    """Whether a key may have any name, unlike one of some words."""
    return NAME in values_of(key) or key == 'template'


def advised(text: str, rows: Iterable[Advice], accepts: Accepts, before: str = '') -> str:
    """The first advice on a text that the program bears out, with what to write, or nothing."""
    said, put = explained(text, rows, accepts) or ('', '')
    return said + f' Write {before}{quoted(put)}.' * bool(put)


class Explanation(Finding):
    """What is wrong at the place of a refusal: the nodes or keys that are marked, with words on them, and sentences."""

    def __init__(self, text: Description, refusal: Refusal, page: Page | None = None) -> None:
        super().__init__(text.title(refusal), [], [])
        self.text, self.copy, self.page, self.refusal, self.number = text, text.copy, page, refusal, refusal.number
        (self.kind, self.rows, self.node), self.before = text.row_at(refusal), text.order(refusal)
        self.nodes: list[Node] = []  # of the copy that it is about
        found = text.parts(refusal) if self.number in PARTS else None
        self.has_parts, self.parts = found is not None, found or Parts({})
        self.rest = self.parts.whole(self.node)
        root = self.copy.root
        self.is_newer = self.number in (3, 5) and root.get('topos') is not None and 'topos' not in self.parts.keys and \
            self.passes(partial(self.copy.set, root, 'topos', 2))
        self.tell()

    def tell(self) -> None:
        if self.has_parts:
            self.tell_parts()
        elif self.number in PARTS:
            self.tell_type()
        else:
            self.tell_place()
        if self.is_newer:
            self.sentences = ['topos reads this only in version 2: write topos = 2.']
            self.add(self.copy.root.need('topos'))
        if not self.marks and (self.node is not self.copy.root or self.number == 4):
            self.add(self.node)
        if self.number == 18:
            row, host = self.copy.rows('invariant')[self.refusal.at[0] - 1], self.node.need('host').value
            where, first = f'invariant {row.number}, {row.need("template").value}', self.sentences[0]
            self.sentences[0] = f'The entry of {quoted(host)} in {where}: {first[0].lower()}{first[1:]}'

    def add(self, node: Node, note: str = '', is_key: bool = False) -> None:
        self.nodes.append(node)
        self.marks.append(Mark(*(node.key_at if is_key else (node.start, node.end)), note))

    def say(self, sentence: str) -> None:
        if sentence not in self.sentences:
            self.sentences.append(sentence)

    def passes(self, change: Change) -> bool:
        """Whether topos has nothing against a copy with this change up to the place of the refusal and there."""
        return self.text.passes(self.before, change)

    def fits(self, values: dict[str, Any]) -> bool:
        """Whether topos accepts the table with these values, without its parts at fault."""
        return self.passes(partial(self.copy.fill, self.node, self.rest | values))

    # Parts of a table or an array.

    def tell_parts(self) -> None:
        """Tells which keys and elements are at fault, or missing."""
        parts = self.parts
        for key, value in parts.keys.items():
            is_value, said = self.said_key(key, value)
            self.add(value, is_key=not is_value)
            self.say(said)
        for key, item in parts.items:
            self.add(item)
            if key:
                self.say(self.said_item(key, item))
        if self.number in (4, 18) and not self.marks:
            for key, value in parts.added.items():
                self.say(f'The key `{key}` is missing: topos accepts {key} = {written(made(value, self.node))}.')
        if self.kind == 'flow':
            count = len(self.node.items()) - 2
            self.sentences = [ROWS['flow'] if self.number == 5 else GENERAL[22].replace('{}', str(count), 1).replace(
                '{}', str(count - len(parts.items)))]
        self.sentences = self.sentences or [GENERAL[self.number]]
        self.marks.sort(key=lambda one: one.start)
        for other in [each for key, value in parts.keys.items() for each in self.twins(key, value.value)]:
            self.add(other)

    def tell_type(self) -> None:
        """Tells that a value has another type than a table or an array."""
        is_read = any(self.passes(partial(self.copy.put, self.rows, self.node, sample.get('', sample)))
                      for sample in self.text.samples(self.refusal, self.node))
        self.add(self.node)
        self.say(ROWS[self.kind] if is_read else GENERAL[self.number])

    def said_key(self, key: str, value: Node) -> tuple[bool, str]:
        """Whether the value is at fault and not the key, and a sentence."""
        values = self.text.values(key)
        values[:0] = [self.rest[key]] if key in self.parts.added and self.rest[key] not in values else []
        good = [each for each in values if self.fits({key: each})]
        if not good:
            return False, self.said_unknown(key, value)
        said, words = f'`{key}` is {self.said_type(good, key, value)}.', [] if is_free(key) else good
        for put in self.offers(value, [each for each in words if isinstance(each, str)]):
            if self.fits({key: put}):
                shown = '[{ .. }]' if isinstance(put, list) and value.kind == 'table' else written(made(put, value))
                name = f'invariant.{key}' if self.kind == 'invariant' else key
                return True, said + (f' Write [[{name}]] in place of [{name}].' if value.origin == 'header' else
                                     f' Write {key} = {shown}.')
        why = self.said_text(key, value.value) if value.kind == 'text' and is_free(key) else ''
        return True, why or said

    def said_text(self, key: str, text: str) -> str:
        """Why a text does not fit a key, or nothing."""
        if self.kind == 'template' and text in TEMPLATES:
            return f'{quoted(text)} is a template of topos.'
        if self.twins(key, text):
            return 'Two templates have this name.'
        rows = advice('paths') if key == 'path' else VALUES.get(self.number, [])
        return advised(text, rows, lambda put: self.fits({key: put}), f'{key} = ')

    def twins(self, key: str, name: str) -> list[Node]:
        """The names of other templates that are the same."""
        rows = self.copy.rows('template') if self.number == 23 and key == 'name' else []
        return [row.need('name') for row in rows if row is not self.node and text_of(row.get('name')) == name]

    def said_unknown(self, key: str, value: Node) -> str:
        """A sentence on a key that topos does not read."""
        parts, root, rows = self.parts, self.copy.root, self.copy.rows('invariant')
        words = [quoted(each) for each in self.text.values('kind')
                 if 'kind' in parts.kept and self.fits({'kind': each, key: value})]
        if words:
            return f'`{key}` is only for an entry of kind {" or ".join(words)}.'
        known = [*parts.kept, *parts.added, *(each for each in known_keys() if each not in self.rest and
                                              any(self.fits({each: one}) for one in self.text.values(each)))]
        typed: Any = max(self.number, 5), *self.before[1:]  # so that the type of the value counts too
        is_read = partial(self.text.passes, typed)
        said = f'`{key}` is no key of {A[self.kind]}: topos reads {", ".join(known)}.'
        words = [each for each in known if each not in self.node.value and
                 is_read(partial(self.copy.fill, self.node, self.rest | {each: value}))]
        word = words[0] if len(words) == 1 and words[0][0] == key[:1] else near(key, words)
        if word:
            return f'{said} Is `{word}` meant?'
        move = partial(self.copy.move, key, self.node)
        if self.number == 3 and self.kind != 'document' and not root.get(key) and is_read(partial(move, root)):
            return f'{said} After a header, a key belongs to its table: put `{key}` of the file above the first [[..]].'
        if self.number == 3 and self.kind == 'document' and rows and not rows[-1].get(key) and \
                is_read(partial(move, rows[-1])):
            return f'{said} An entry of an invariant begins with [[invariant.{key}]].'
        return said

    def said_type(self, good: list[Any], key: str, value: Node) -> str:
        """What the values have in common that topos accepts for a key."""
        words = [quoted(each) for each in good if isinstance(each, str)]
        if len(words) == len(good) and not is_free(key) and (len(words) > 1 or value.kind == 'text'):
            few = words if len(words) < 13 else [*words[:2], '..', words[-1]]
            return ' or '.join([', '.join(few[:-1])] * (len(few) > 1) + few[-1:])
        if isinstance(good[0], int) and not isinstance(good[0], bool) and not self.fits({key: MOST}):
            most = first_where(lambda each: not self.fits({key: each}), 0, MOST) - 1
            return f'a number from 0 to {most}, without quotes'
        if isinstance(good[0], list) and (good[0] or key not in TABLES and self.fits({key: [value]})):
            is_empty = value.kind == 'array' and not value.value
            return 'an array of texts, as in ["..", ".."]' + ', and not empty' * is_empty
        return TYPES[type(good[0])] if len(words) != len(good) or value.kind != 'text' else 'a text of another form'

    def offers(self, value: Node, words: Iterable[str]) -> Iterator[Any]:
        """What may be meant by a value."""
        if value.kind == 'text':
            bare = scalar(value.value)
            yield from [bare[1]] * (bare[0] in ('integer', 'boolean'))
            yield from [word for word in [near(value.value, words)] if word]
        yield from [[value]] * (value.kind == 'table' or value.kind == 'text' and self.kind != 'document')

    def said_item(self, key: str, item: Node) -> str:
        """Why an element of an array is at fault."""
        copy, kept = self.copy, self.parts.kept[key]

        def fits(put: str) -> bool:
            return self.fits({key: kept + [put]})
        if item.kind == 'array' and self.number == 23:
            return f'A pair in `{key}` is of two of the kinds.'
        if item.kind != 'text' or self.number == 5:
            pairs = 'are pairs of texts in quotes' if not fits(copy.new_name()) else 'are texts in quotes'
            return f'The elements of `{key}` {pairs}.'
        if item.value in map(text_of, kept):
            return f'{quoted(item.value)} is in `{key}` twice.'
        texts = (text_of(each) or '' for other in self.node.inner() for each in other.items())
        likely = near(item.value, [*copy.names_of_file(), *texts])
        meant = f' Is {quoted(likely)} meant?' if likely and fits(likely) else ''
        with copy.tried(partial(copy.declare, item.value)):
            if item.value not in copy.names()[:-1] and fits(item.value):
                return f'No host has the name {quoted(item.value)}.{meant}'
        if item.value == text_of(self.node.get('host')):
            return f'{quoted(item.value)} itself is not in its own `{key}`.'
        why = '' if meant else advised(item.value, VALUES.get(self.number, []), fits)
        if why:
            return why
        others = (text_of(each) or '' for entry in self.rows.items() for each in entry.rows(key))
        known = next((each for each in others if each and fits(each)), '')
        if known and not meant:
            return f'There are too many different texts in `{key}`: topos reads those above, such as {quoted(known)}.'
        if self.number == 23 and kept and not fits(copy.new_name()):
            return f'`{key}` has {len(self.node.need(key).items())} elements, and topos reads {len(kept)}.'
        return f'{quoted(item.value)} does not fit `{key}` here.{meant}'

    # Places that the refusal tells.

    def tell_place(self) -> None:
        refusal, number, node = self.refusal, self.number, self.node
        holder, at = self.text.steps(refusal)[-1][1:] if refusal.item else (node, node)
        keys = ['host'] if self.kind == 'assign' and number < 17 else PATHS.get(number, [])
        named = [] if refusal.item else [node.need(key) for key in keys if node.get(key)]
        if number == 19:
            named = node.items()[:2]
        elif number == 12 and 'at' not in node.value:
            named = [node]
        for each in named or [at] * (at is not self.copy.root):
            self.add(each)
        at = named[0] if named and number != 19 else at
        if refusal.other and number != 14:
            other = self.text.other_at(refusal)
            self.add(other.get((PATHS.get(number) or [''])[0]) or other, f'{self.kind} {other.number}')
        if number == 14:
            self.tell_overlap(holder, at)
        elif number in VALUES and at.kind == 'text':
            self.tell_value(holder, at)
        else:
            self.tell_row(holder, at)

    def tell_value(self, holder: Node, at: Node) -> None:
        """Tells why a name, an address or a service is none."""
        def accepts(put: str) -> bool:
            return self.passes(partial(self.copy.replace, holder, at, *(put.split() or [''])))
        said, put = explained(at.value, VALUES[self.number], accepts) or (GENERAL[self.number], '')
        texts = ', '.join(map(quoted, put.split()))
        self.say(said + f' Write {texts}.' * bool(put) + (self.also(at) if self.number == 8 else ''))

    def tell_row(self, holder: Node, at: Node) -> None:
        """Tells what is wrong, with the first proposal that the program bears out."""
        number, node, said = self.number, self.node, GENERAL[self.number]
        sizes = [len(row.items()) for row in (node, self.text.other_at(self.refusal))] if number == 20 else []
        if number == 7:
            said = self.too_many()
        elif number == 12 and len(self.nodes) == 2 and node.need('at').items():
            said = 'The rest host owns what nobody else owns, and has no `at`: leave out one of the two.'
        elif number == 15:
            said = said.replace('{}', quoted(at.value), 1).replace('{}', ', '.join(TEMPLATES))
        elif number == 16:
            said = said.replace('{}', quoted(at.value)) + self.also(at)
        elif number == 20 and 2 in sizes:
            said = 'The pair is listed twice: leave one out.' + \
                ' A flow without services lets every packet pass.' * (sizes[0] != sizes[1])
        elif number == 24:
            said = said.replace('{}', node.need('default').value)
            self.add(node.need('default'), 'default')
        proposed = next((f' {advised}' for change, advised in self.proposals(holder, at) if self.passes(change)), '')
        self.say(said + proposed)

    def too_many(self) -> str:
        kind, number = self.refusal.place, self.refusal.at[0]
        rows = self.copy.rows(kind)
        if not self.refusal.item:
            more = f' {TOLD["hosts"]}' * (kind == 'host')
            return f'The file has {len(rows)} {kind}s, and topos reads {number - 1}.{more}'
        sizes = [len(row.rows('at')) for row in rows]
        most = sum(sizes[:number - 1]) + self.refusal.item - 1
        return f'The file has {sum(sizes):,} addresses, and topos reads {most:,}: join neighbouring prefixes, or ' \
            f'write fewer hosts. {TOLD["hosts"]}'

    def also(self, at: Node) -> str:
        page, original = self.page, self.text.edited.original
        lines = sorted({page.line_of(original(node.start)) for node in self.copy.mentions(at.value)
                        if node is not at}) if page else []
        shown = ', '.join(str(line) for line in lines[:12]) + (' ..' if len(lines) > 12 else '')
        return f' The name is also in line{"s" if len(lines) > 1 else ""} {shown}.' if lines else ''

    def proposals(self, holder: Node, at: Node) -> Iterator[tuple[Change, str]]:
        """Changes to try, each with the sentence that advises it."""
        number, node, copy, take = self.number, self.node, self.copy, partial(self.copy.replace, holder, at)
        if number == 6:
            yield partial(take, 2), 'Write topos = 2.'
        if number == 11:
            net, (address, _, length) = str(IPv4Network(at.value, strict=False)), at.value.partition('/')
            said = f'The network of {length} bits is {quoted(net)}, the one address {quoted(address)}.'
            yield partial(take, net), said
        if number in (15, 16):
            own = [text_of(row.get('name')) or '' for row in copy.rows('template')]
            likely = near(at.value, copy.names_of_file() if number == 16 else TEMPLATES + own)
            if likely:
                yield partial(take, likely), f'Is {quoted(likely)} meant?'
        if number == 20:
            flows, other = copy.root.need('flow'), self.text.other_at(self.refusal)
            texts = list(dict.fromkeys(text_of(item) for item in other.items() + node.items()[2:]))
            if 2 not in (len(node.items()), len(other.items())):
                yield all_of(partial(copy.put, flows, other, texts), partial(copy.put, flows, node)), \
                    f'Write {written(made(texts, at))} once.'
        if number == 24:
            default, (sender, receiver) = text_of(node.get('default')), (text_of(item) for item in at.items())
            for pair in [default, receiver], [sender, default]:
                yield partial(take, at, pair), f'With {written(made(pair, at))} topos accepts this pair.'

    def tell_overlap(self, holder: Node, at: Node) -> None:
        """Tells the first prefix without which topos does not refuse this one, and the wide one without the narrow."""
        copy, other, sentence = self.copy, self.text.other_at(self.refusal), GENERAL[14]
        name = '' if other is self.node else text_of(other.get('name')) or ''
        rows, spare = other.need('at'), made(copy.new_address(), at)
        earlier = [item for item in rows.items() if item is not at]

        def meets(count: int) -> bool:
            kept = [spare, *(item for item in rows.value if item is at or item in earlier[:count])]
            return not self.passes(partial(copy.give, rows, kept))
        count = first_where(meets, 0, len(earlier))
        for item in earlier[count - 1:count] if count else []:
            self.add(item, name)
            mine, theirs = IPv4Network(at.value), IPv4Network(item.value)
            if mine != theirs and name:
                wide, small, array, gone = (mine, theirs, holder, at) if mine.supernet_of(theirs) else \
                    (theirs, mine, rows, item)
                left = [str(net) for net in sorted(wide.address_exclude(small))]
                sentence = f'{small} is within {wide}, and an address belongs to one host.'
                if self.passes(partial(copy.put, array, gone, *left)):
                    sentence += f' {wide} without {small} is {", ".join(map(quoted, left))}.'
        self.say(sentence)
