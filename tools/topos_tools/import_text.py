"""Writes rules that `topos` reads: a rule of products becomes lines with single prefixes and ranges."""
import functools
import itertools
import math
import re
from collections.abc import Iterable
from dataclasses import dataclass, field
from typing import NamedTuple

from .import_pieces import BOTH, NEW, Piece, Rule
from .import_save import BUILT_IN
from .import_sets import (ALL_ADDRESSES, ALL_PORTS, ALL_PROTOCOLS, MOST_ADDRESS, MOST_PORT, MOST_PROTOCOL, Numbers,
                          complement, prefix_text, prefixes)
from .import_words import Refused

MOST_CHAINS, MOST_RULES = 4096, 1_000_000  # that `topos` reads
NAMES = {1: 'icmp', 6: 'tcp', 17: 'udp'}
TARGETS = {*BUILT_IN, 'ACCEPT', 'DROP', 'REJECT', 'RETURN', 'LOG', 'QUEUE'}
CHAIN_NAME = re.compile(r'[!-~]{1,50}')
LONGEST_COMMENT = 200
SAVED_LINES = 4  # a helper chain has to save more lines than this
ANY = ('',)


class Line(NamedTuple):
    """A line of the text, and the line of the save from which it comes."""
    condition: str
    target: str
    comment: str
    source: int


class Factor(NamedTuple):
    """A factor of a product: one of the choices has to hold, and none of the exceptions."""
    choices: tuple[str, ...] = ANY
    exceptions: tuple[str, ...] = ()
    shared: str = ''  # a condition that is a part of all choices

    def common(self) -> str:
        """Returns a condition that every packet of the factor meets."""
        return self.choices[0] if len(self.choices) == 1 else self.shared

    def has_choices(self) -> bool:
        return len(self.choices) > 1


@functools.cache
def address_factor(addresses: Numbers, flag: str, may_except: bool) -> Factor:
    """Returns the shorter of the list of the prefixes and the list of those outside."""
    if addresses == ALL_ADDRESSES:
        return Factor()
    inside, outside = ([f'{flag} {prefix_text(*each)}' for each in prefixes(numbers)]
                       for numbers in (addresses, complement(addresses, MOST_ADDRESS)))
    if len(inside) > 1 and len(outside) == 1:
        return Factor((f'! {outside[0]}',))
    if len(inside) <= len(outside) or not may_except:
        return Factor(tuple(inside))
    return Factor(exceptions=tuple(outside))


def traffic_factor(piece: Piece) -> Factor:
    """Returns the conditions on protocol and ports."""
    name, heads = '', []
    outside = complement(piece.protocols, MOST_PROTOCOL)
    if len(outside) == 1 and outside[0][0] == outside[0][1]:
        heads = [f'! -p {NAMES.get(outside[0][0], outside[0][0])}']
    elif piece.protocols != ALL_PROTOCOLS:
        numbers = [number for low, high in piece.protocols for number in range(low, high + 1)]
        name = str(NAMES.get(numbers[0], numbers[0]))
        heads = [f'-p {NAMES.get(number, number)}' for number in numbers]
    ports = [' '.join(filter(None, both)) for both in itertools.product(
        port_choices(piece.source_ports, '--sport'), port_choices(piece.destination_ports, '--dport'))]
    choices = tuple(f'{head} -m {name} {each}' if each else head for head in heads or ANY for each in ports)
    return Factor(choices, shared=heads[0] if len(heads) == 1 else '')


def port_choices(ports: Numbers, flag: str) -> list[str]:
    if ports == ALL_PORTS:
        return ['']
    outside = complement(ports, MOST_PORT)
    if len(ports) > 1 and len(outside) == 1:
        return [f'! {flag} {outside[0][0]}:{outside[0][1]}']
    return [f'{flag} {low}' if low == high else f'{flag} {low}:{high}' for low, high in ports]


def state_condition(states: frozenset[str]) -> str:
    return '' if states == BOTH else '-m conntrack --ctstate ' + ('NEW' if NEW in states else 'ESTABLISHED')


@dataclass
class Text:
    """A text of rules that is written chain by chain. The chains have the order in which they are added."""
    policy: str
    chains: dict[str, list[Line]] = field(default_factory=dict)
    count: int = 0

    def add_chain(self, wanted: str) -> str:
        """Adds a chain, and returns its name: the wanted one, or one with a number behind it."""
        is_name = CHAIN_NAME.fullmatch(wanted) and wanted[0] not in '-!' and wanted not in TARGETS
        base = wanted if is_name or wanted == 'FORWARD' else 'chain'
        name = next(each for each in itertools.chain([base], (f'{base}.{number}' for number in itertools.count(2)))
                    if each not in self.chains)
        if len(self.chains) + len(BUILT_IN) > MOST_CHAINS:
            raise Refused(f'more than {MOST_CHAINS} chains would be written')
        self.chains[name] = []
        return name

    def add_line(self, chain: str, conditions: Iterable[str], target: str, rule: Rule, doubts: tuple[str, ...]) -> None:
        self.count += 1
        if self.count > MOST_RULES:
            raise Refused(f'line {rule.line}: more than {MOST_RULES} rules would be written')
        comment = 'in doubt: ' + ', '.join(doubts) if doubts else ''
        told = '; '.join(filter(None, (comment, rule.comment)))
        self.chains[chain].append(Line(' '.join(filter(None, conditions)), target,
                                       f'line {rule.line}' + (f': {told}' if told else ''), rule.line))

    def add_piece(self, chain: str, piece: Piece, target: str, rule: Rule) -> None:
        """Adds lines that send exactly the packets of the piece to the target."""
        may_nest = target != 'RETURN'  # a helper chain would return to this chain alone
        factors = [address_factor(piece.sources, '-s', may_nest),
                   address_factor(piece.destinations, '-d', may_nest), traffic_factor(piece)]
        state = state_condition(piece.states)
        while may_nest and is_nested(factors):
            chain, factors = self.nest(chain, factors, state, rule)
            state = ''
        for conditions in itertools.product(*(factor.choices for factor in factors)):
            self.add_line(chain, (*conditions, state), target, rule, piece.doubts)

    def nest(self, chain: str, factors: list[Factor], state: str, rule: Rule) -> tuple[str, list[Factor]]:
        """Adds a helper chain for the first factor that needs it. Returns the chain, and the factors that are left."""
        helper = self.add_chain(f'l{rule.line}.{len(self.chains)}')
        chosen = next((place for place, factor in enumerate(factors) if factor.exceptions), None)
        if chosen is None:
            chosen = next(place for place, factor in enumerate(factors) if factor.has_choices())
        common = [factor.common() for factor in factors]
        for choice in factors[chosen].choices:
            self.add_line(chain, (*common[:chosen], choice, *common[chosen + 1:], state), helper, rule, ())
        for exception in factors[chosen].exceptions:
            self.add_line(helper, (exception,), 'RETURN', rule, ())
        return helper, [factor._replace(choices=factor.choices if factor.has_choices() and place != chosen else ANY,
                                        exceptions=() if place == chosen else factor.exceptions)
                        for place, factor in enumerate(factors)]

    def written(self, head: list[str]) -> str:
        lines = [f'# {each}' for each in head]
        lines += ['*filter', ':INPUT ACCEPT [0:0]', f':FORWARD {self.policy} [0:0]', ':OUTPUT ACCEPT [0:0]']
        lines += [f':{chain} - [0:0]' for chain in self.chains if chain != 'FORWARD']
        for chain, rules in self.chains.items():
            for each in rules:
                comment = f'-m comment --comment "{escaped(each.comment)}"'
                lines.append(' '.join(filter(None, (f'-A {chain}', each.condition, comment, f'-j {each.target}'))))
        return '\n'.join([*lines, 'COMMIT', ''])


def is_nested(factors: list[Factor]) -> bool:
    """Whether helper chains are needed for exceptions, or make a product shorter."""
    sizes = [len(factor.choices) for factor in factors if factor.has_choices()]
    return (any(factor.exceptions for factor in factors)
            or len(sizes) > 1 and math.prod(sizes) > sum(sizes) + SAVED_LINES)


def escaped(comment: str) -> str:
    visible = re.sub('[^ -~]', '?', comment)[:LONGEST_COMMENT]
    return visible.replace('\\', '\\\\').replace('"', '\\"')
