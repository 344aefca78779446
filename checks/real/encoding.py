"""Encodes a description and an iptables rule set for an SMT solver with bit vectors (SMT-LIB 2).

The question is whether a packet p shows a difference: by itself, after the packet that it answers, or after itself and
its answer. If none does, no list of packets does; this is proved for audits, and assumed here. The permitted and the
stateful flows are read from the output of `topos policy`.
"""
import ipaddress
import re
import tomllib
from collections.abc import Iterator
from ipaddress import IPv4Network
from typing import Any

from packets import NUMBERS
from services import spelled

PACKET = '(source (_ BitVec 32)) (target (_ BitVec 32)) (kind (_ BitVec 8)) (sport (_ BitVec 16)) (dport (_ BitVec 16))'
FIELDS, SWAPPED = 'source target kind sport dport', 'target source kind dport sport'
RETURNED, ACCEPTED, DROPPED = '#b00', '#b01', '#b10'
OUTCOMES = {'ACCEPT': ACCEPTED, 'DROP': DROPPED, 'REJECT': DROPPED, 'RETURN': RETURNED}
OPTIONS = {'-s': ('source', 32), '-d': ('target', 32), '-p': ('kind', 8), '--sport': ('sport', 16),
           '--dport': ('dport', 16)}


def number(value: int, bits: int) -> str:
    return f'(_ bv{value} {bits})'


def between(field: str, low: int, high: int, bits: int) -> str:
    if low == high:
        return f'(= {field} {number(low, bits)})'
    parts = [f'(bvuge {field} {number(low, bits)})'] * (low > 0)
    parts += [f'(bvule {field} {number(high, bits)})'] * (high < 2 ** bits - 1)
    return joined('and', parts)


def joined(word: str, parts: list[str]) -> str:
    if not parts:
        return 'true' if word == 'and' else 'false'
    return parts[0] if len(parts) == 1 else f'({word} {" ".join(parts)})'


def covered(field: str, prefix: IPv4Network) -> str:
    return between(field, int(prefix[0]), int(prefix[-1]), 32)


class Rules:
    """The chains of a rule set, each a function from a packet and whether it is established to an outcome."""

    def __init__(self, text: str) -> None:
        self.policy: dict[str, str] = {}
        self.chains: dict[str, list[list[str]]] = {}
        for line in text.splitlines():
            if line.startswith(':'):
                name, policy = line[1:].split()[:2]
                self.policy[name], self.chains[name] = policy, []
            elif line.startswith('-A'):
                _, chain, *words = line.split()
                self.chains[chain].append(words)

    def functions(self) -> list[str]:
        written: list[str] = []
        self.write('FORWARD', written)
        end = '' if self.policy['FORWARD'] == 'DROP' else f' (= (FORWARD {FIELDS} est) {RETURNED})'
        return [*written, f'(define-fun passes ({PACKET} (est Bool)) Bool '
                          f'(or (= (FORWARD {FIELDS} est) {ACCEPTED}){end}))']

    def write(self, chain: str, written: list[str]) -> None:
        """Lists each chain after the chains that it jumps to."""
        body = RETURNED
        for words in reversed(self.chains[chain]):
            *_, option, target = words
            if option != '-j':
                raise ValueError(f'no target: {words}')
            met = joined('and', list(self.parts(words[:-2])))
            if target in OUTCOMES:
                body = f'(ite {met} {OUTCOMES[target]} {body})'
                continue
            if not any(each.startswith(f'(define-fun {target} ') for each in written):
                self.write(target, written)
            jump = f'({target} {FIELDS} est)'
            body = f'(ite (and {met} (not (= {jump} {RETURNED}))) {jump} {body})'
        written.append(f'(define-fun {chain} ({PACKET} (est Bool)) (_ BitVec 2) {body})')

    @staticmethod
    def parts(words: list[str]) -> Iterator[str]:
        negated, rest = False, iter(words)
        for word in rest:
            if word == '!':
                negated = True
                continue
            value = next(rest)
            if word != '-m':
                part = Rules.part(word, value)
                yield f'(not {part})' if negated else part
                negated = False

    @staticmethod
    def part(option: str, value: str) -> str:
        if option == '--ctstate':
            states = value.split(',')
            return joined('or', ['est'] * ('ESTABLISHED' in states) + ['(not est)'] * ('NEW' in states))
        field, bits = OPTIONS[option]
        if bits == 32:
            return covered(field, ipaddress.IPv4Network(value, strict=False))
        if bits == 8:
            return f'(= {field} {number(NUMBERS.get(value) or int(value), bits)})'
        low, _, high = value.partition(':')
        return between(field, int(low), int(high or low), bits)


class Policy:
    """The output of `topos policy` for a description, as functions of a packet."""

    def __init__(self, description: str, policy: str) -> None:
        table = tomllib.loads(description)
        self.at = {host['name']: [ipaddress.IPv4Network(text) for text in host.get('at', [])] for host in table['host']}
        self.services = {tuple(flow[:2]): flow[2:] for flow in table.get('flow', [])}
        allowed = re.findall(r'^(\S+) -> (\S+) allowed( with answers)?$', policy, re.MULTILINE)
        self.permitted = [(one, other) for one, other, _ in allowed]
        self.stateful = [(one, other) for one, other, answers in allowed if answers]

    def functions(self) -> list[str]:
        return [f'(define-fun permitted ({PACKET}) Bool {self.some(self.permitted)})',
                f'(define-fun stateful ({PACKET}) Bool {self.some(self.stateful)})']

    def some(self, flows: list[tuple[str, str]]) -> str:
        """The packet belongs to one of these flows, grouped by sender."""
        parts = []
        for one in self.at:
            receivers = [self.received(one, other) for sender, other in flows if sender == one]
            if receivers:
                parts.append(f'(and {self.owned("source", one)} {joined("or", receivers)})')
        return joined('or', parts)

    def owned(self, field: str, host: str) -> str:
        if self.at[host]:
            return joined('or', [covered(field, prefix) for prefix in self.at[host]])
        return f'(not {joined("or", [covered(field, prefix) for at in self.at.values() for prefix in at])})'

    def pair(self, one: str | None, other: str | None) -> str:
        """The packet is from one owner to another. None owns the addresses of no host."""
        return f'(and {self.owner("source", one)} {self.owner("target", other)})'

    def owner(self, field: str, host: str | None) -> str:
        if host is not None:
            return self.owned(field, host)
        return f'(not {joined("or", [self.owned(field, each) for each in self.at])})'

    def received(self, one: str, other: str) -> str:
        services = [self.served(*spelled(text)) for text in self.services.get((one, other), [])]
        return joined('and', [self.owned('target', other)] + [joined('or', services)] * bool(services))

    @staticmethod
    def served(name: str, low: int, high: int) -> str:
        return joined('and', [f'(= kind {number(NUMBERS[name], 8)})', between('dport', low, high, 16)])


def differences() -> dict[str, tuple[str, str]]:
    """Returns for each kind of list whether the rules forward its last packet, and what the policy expects."""
    alone, answers = f'(passes {FIELDS} false)', f'(passes {SWAPPED} false)'
    expected = f'(or (permitted {FIELDS}) (stateful {SWAPPED}))'
    return {'new': (alone, f'(permitted {FIELDS})'),
            'answer': (f'(passes {FIELDS} {answers})', expected),
            'later': (f'(passes {FIELDS} (or {alone} {answers}))', expected)}


def of(policy: Policy, rules: str, asserted: str) -> str:
    constants = [f'(declare-const {field} (_ BitVec {bits}))' for field, bits in OPTIONS.values()]
    functions = [*policy.functions(), *Rules(rules).functions()]
    return '\n'.join([*functions, *constants, f'(assert {asserted})', '(check-sat)', ''])


def question(description: str, policy: str, rules: str) -> str:
    """Satisfiable if and only if the rules and the policy differ."""
    return of(Policy(description, policy), rules,
              joined('or', [f'(distinct {passes} {expected})' for passes, expected in differences().values()]))


def question_of_pairs(description: str, policy: str, rules: str, listed: list[list[Any]]) -> str:
    """Satisfiable if and only if a packet differs in a kind of list and a direction that are not listed for its owners.
    `listed` has the owners of source and destination, the kind, and whether the rules forward or drop."""
    expecting, parts = Policy(description, policy), []
    for kind, (passes, expected) in differences().items():
        for direction, differs in (('forward', f'(and {passes} (not {expected}))'),
                                   ('drop', f'(and (not {passes}) {expected})')):
            pairs = [expecting.pair(one, other) for one, other, *case in listed if case == [kind, direction]]
            parts.append(joined('and', [differs, *[f'(not {pair})' for pair in pairs]]))
    return of(expecting, rules, joined('or', parts))
