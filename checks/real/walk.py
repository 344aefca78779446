"""The verdict of a rule set of iptables-save on a packet: an independent interpreter, by iptables(8)."""
import ipaddress
from typing import TypeAlias

from packets import NUMBERS, Event

Packet: TypeAlias = dict[str, int]  # a number for each of FIELDS
RuleAt: TypeAlias = tuple[str, int]  # the chain and the number of a rule

FIELDS = ('source', 'destination', 'protocol', 'sport', 'dport')
ENDS = {'ACCEPT': True, 'DROP': False, 'REJECT': False}


def packet_of(event: Event) -> Packet:
    """Returns the fields of a packet as numbers."""
    ends = int(ipaddress.IPv4Address(event.source)), int(ipaddress.IPv4Address(event.destination))
    return dict(zip(FIELDS, (*ends, event.protocol, *event.ports)))


class Rule:
    """The parts of a line `-A CHAIN ..`: a field with a range and whether it is negated, states, and a target."""

    def __init__(self, words: list[str]) -> None:
        self.parts: list[tuple[str, int, int, bool]] = []
        self.states: list[tuple[set[str], bool]] = []
        self.target, negated, rest = '', False, iter(words)
        for word in rest:
            if word == '!':
                negated = True
                continue
            value = next(rest)
            if word == '-j':
                self.target = value
            elif word == '--ctstate':
                self.states.append((set(value.split(',')), negated))
            elif word not in ('-m', '--reject-with'):
                self.parts.append((*self.part(word, value), negated))
            negated = False

    @staticmethod
    def part(option: str, value: str) -> tuple[str, int, int]:
        if option in ('-s', '-d'):
            network = ipaddress.IPv4Network(value, strict=False)
            return {'-s': 'source', '-d': 'destination'}[option], int(network[0]), int(network[-1])
        if option == '-p':
            number = NUMBERS.get(value) or int(value)
            return 'protocol', number, number
        low, _, high = value.partition(':')
        return {'--sport': 'sport', '--dport': 'dport'}[option], int(low), int(high or low)

    def matches(self, packet: Packet, state: str) -> bool:
        return all((low <= packet[field] <= high) != negated for field, low, high, negated in self.parts) and all(
            (state in states) != negated for states, negated in self.states)


class Chains:
    """The chains of a rule set, with rules numbered as in `iptables -L --line-numbers`."""

    def __init__(self, text: str) -> None:
        self.policy: dict[str, str] = {}
        self.rules: dict[str, list[Rule]] = {}
        for line in text.splitlines():
            if line.startswith(':'):
                name, policy = line[1:].split()[:2]
                self.policy[name], self.rules[name] = policy, []
            elif line.startswith('-A'):
                _, chain, *words = line.split()
                self.rules[chain].append(Rule(words))

    def walk(self, chain: str, packet: Packet, state: str, met: set[RuleAt]) -> tuple[bool, RuleAt | None] | None:
        """Returns the verdict and the rule that decides; None if the chain returns. Adds matching rules to `met`."""
        for number, rule in enumerate(self.rules[chain], start=1):
            if not rule.matches(packet, state):
                continue
            met.add((chain, number))
            if rule.target in ENDS:
                return ENDS[rule.target], (chain, number)
            if rule.target == 'RETURN':
                return None
            if rule.target in self.rules:
                ended = self.walk(rule.target, packet, state, met)
                if ended is not None:
                    return ended
        return None

    def decide(self, packet: Packet, state: str, met: set[RuleAt]) -> tuple[bool, RuleAt | None]:
        """Whether a forwarded packet passes, and the rule that decides; None for the policy of FORWARD."""
        return self.walk('FORWARD', packet, state, met) or (self.policy['FORWARD'] == 'ACCEPT', None)

    def named_protocols(self) -> set[int]:
        return {low for rules in self.rules.values() for rule in rules for field, low, _, _ in rule.parts
                if field == 'protocol'}

    def cuts(self, *fields: str) -> set[int]:
        """Returns the first number of each range, and the first one after it."""
        return {end for rules in self.rules.values() for rule in rules for field, low, high, _ in rule.parts
                if field in fields for end in (low, high + 1)}
