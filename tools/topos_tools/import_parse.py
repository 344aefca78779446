"""Splits the words of a rule into its matches and its target, by the table of import_table.py."""
from dataclasses import dataclass, field
from typing import NamedTuple

from .import_pieces import Action
from .import_table import BY_NAME, MATCHES, SPELLINGS, TARGET_OF
from .import_words import Refused, Word

NOT = Word('!', False)
IMPLICIT = ('tcp', 'udp', 'icmp')  # matches that -p may name without -m
ONCE = ('-s', '-d', '-p', '-i', '-o')


class Given(NamedTuple):
    """An option as it is given."""
    name: str
    values: tuple[str, ...]
    is_negated: bool


@dataclass
class Match:
    """A match of a rule with its options. The name is `''` for the options of iptables itself."""
    name: str
    options: list[Given] = field(default_factory=list)
    unknown: list[str] = field(default_factory=list)  # the words of options that the table lacks

    def text(self) -> str:
        """Returns the match with all its options."""
        given = [word for each in self.options for word in (*('!',) * each.is_negated, each.name, *each.values)]
        return ' '.join([self.name, *given, *self.unknown]).strip()

    def is_read(self) -> bool:
        """Whether the table has the match with all its options, each once."""
        names = [each.name for each in self.options]
        return self.name in MATCHES and not self.unknown and len(names) == len(set(names))


class Parser:
    """Reads the words of a rule after its chain, from left to right."""

    def __init__(self, chains: set[str], line: int, text: str, words: list[Word]) -> None:
        self.chains, self.line, self.shown, self.words, self.place = chains, line, text, words, 0
        self.own = Match('')
        self.matches = [self.own]
        self.doubtful: list[str] = []  # options of iptables that may be values of an option that is not known
        self.target, self.action = '', Action.CONTINUE
        while self.place < len(self.words) and self.read_option():
            pass

    def refused(self, cause: str) -> Refused:
        return Refused(f'line {self.line}: {cause}: {self.shown[:100]!r}')

    def read_option(self) -> bool:
        """Reads an option with its values. Returns whether more options of the rule may follow."""
        word, is_negated = self.next_word(), False
        if word == NOT:
            word, is_negated = self.next_word(), True
        name = SPELLINGS.get(word.text, word.text)
        if name in ('-j', '-g'):
            return self.read_target(name, is_negated)
        if name == '-m':
            self.read_match(is_negated)
        elif ('', name) in BY_NAME:
            self.read_own(name, is_negated)
        elif self.is_of_target(name):
            self.values(dict(TARGET_OF[self.target].options)[name])
        else:
            self.read_other(name, word.text, is_negated)
        return True

    def next_word(self) -> Word:
        if self.place == len(self.words):
            raise self.refused('a value is missing')
        self.place += 1
        return self.words[self.place - 1]

    def values(self, count: int) -> tuple[str, ...]:
        return tuple(self.next_word().text for _ in range(count))

    def given(self, name: str, count: int, is_negated: bool) -> Given:
        """Reads the values of an option. In old spellings `!` is before the first one."""
        if count and self.place < len(self.words) and self.words[self.place] == NOT and name != '--comment':
            self.place += 1
            is_negated = not is_negated
        return Given(name, self.values(count), is_negated)

    def read_match(self, is_negated: bool) -> None:
        self.matches.append(Match(self.next_word().text))
        if is_negated or not self.matches[-1].name:
            raise self.refused('! before -m, or no match behind it')

    def read_own(self, name: str, is_negated: bool) -> None:
        """Reads an option of iptables, which may be the value of an option that is not known before it."""
        given = self.given(name, BY_NAME['', name].words, is_negated)
        if name in ONCE and any(name == each.name for each in self.own.options):
            raise self.refused(f'a second {name}')
        if any(match.unknown for match in self.matches):
            self.doubtful.append(' '.join(['!'] * given.is_negated + [name, *given.values]))
        else:
            self.add(self.own, given)

    def add(self, match: Match, given: Given) -> None:
        if given.is_negated and not BY_NAME[match.name, given.name].may_negate:
            match.unknown += ['!', given.name, *given.values]
        else:
            match.options.append(given)

    def is_of_target(self, name: str) -> bool:
        return self.target in TARGET_OF and name in dict(TARGET_OF[self.target].options)

    def read_other(self, name: str, spelling: str, is_negated: bool) -> None:
        """Reads an option of a match. One that the table lacks has the words up to the next option."""
        match = self.owner(name)
        if match:
            self.add(match, self.given(name, BY_NAME[match.name, name].words, is_negated))
            return
        if len(spelling) < 2 or spelling[0] != '-' or (spelling[1] != '-' and len(spelling) > 2) or '=' in spelling:
            raise self.refused(f'no option {spelling[:50]!r}')
        if any(each.startswith(spelling) for each in ('--jump', '--goto')):
            raise self.refused(f'a short spelling {spelling}')
        words = ['!', spelling] if is_negated else [spelling]
        while self.place < len(self.words) and not is_option(self.words[self.place]):
            words.append(self.next_word().text)
        self.matches[-1].unknown += words

    def owner(self, name: str) -> Match | None:
        """Returns the match that has an option: the last one, else one above it, else the one that -p names."""
        if self.matches[-1].name not in MATCHES:  # it may have an option of this name
            return None
        for match in reversed(self.matches):
            if (match.name, name) in BY_NAME:
                return match
        protocol = next((each.values[0].lower() for each in self.own.options
                         if each.name == '-p' and not each.is_negated), '')
        if protocol not in IMPLICIT or (protocol, name) not in BY_NAME:
            return None
        implicit = Match(protocol)
        self.matches.insert(1, implicit)
        return implicit

    def read_target(self, name: str, is_negated: bool) -> bool:
        """Reads a target. The options of a target that is no verdict end the rule."""
        if self.target or is_negated:
            raise self.refused('a second target')
        self.target = self.next_word().text
        if self.target in self.chains:
            self.action = Action.JUMP if name == '-j' else Action.GOTO
        elif name == '-g' or self.target in ('INPUT', 'FORWARD', 'OUTPUT'):
            raise self.refused(f'no user chain {self.target[:50]!r}')
        else:
            self.action = TARGET_OF[self.target].action if self.target in TARGET_OF else Action.UNKNOWN
        if self.action is not Action.CONTINUE and self.action is not Action.UNKNOWN:
            return True
        if any(is_target(word) for word in self.words[self.place:]):  # the first may be the value of an option
            self.action = Action.UNKNOWN
        return False


def is_option(word: Word) -> bool:
    """Whether a word after an unknown option is the next option, or `!` before it."""
    return not word.is_quoted and (word.text == '!' or (word.text.startswith('-') and len(word.text) > 1))


def is_target(word: Word) -> bool:
    return not word.is_quoted and SPELLINGS.get(word.text, word.text) in ('-j', '-g')
