"""Reads a rule as pieces, by the table of import_table.py. What is not certain to match or not to match is in doubt."""
from collections.abc import Callable
from dataclasses import dataclass, field

from .import_ipset import ADDRESS, MOST_PIECES, NETWORK, Product, Set, services_of, united
from .import_parse import IMPLICIT, Given, Match, Parser
from .import_pieces import BOTH, ESTABLISHED, NEW, OTHERS, Piece, Rule, in_doubt, in_states, restricted
from .import_sets import (ALL_ADDRESSES, MOST_ADDRESS, MOST_PORT, MOST_PROTOCOL, Numbers, complement, difference,
                          single)
from .import_table import BY_NAME
from .import_tables import Behind, Interfaces
from .import_types import addresses_of_types
from .import_words import PROTOCOLS, Refused, Word, address_range, addresses, decimal, ports, protocol

TRACKED_STATES = BOTH | OTHERS
WRITTEN_STATES = {'SNAT', 'DNAT'}
ICMP_TYPES = {
    'echo-reply': 0, 'pong': 0, 'destination-unreachable': 3, 'source-quench': 4, 'redirect': 5, 'echo-request': 8,
    'ping': 8, 'router-advertisement': 9, 'router-solicitation': 10, 'time-exceeded': 11, 'ttl-exceeded': 11,
    'parameter-problem': 12, 'timestamp-request': 13, 'timestamp-reply': 14, 'address-mask-request': 17,
    'address-mask-reply': 18, 'network-unreachable': 3, 'host-unreachable': 3, 'protocol-unreachable': 3,
    'port-unreachable': 3, 'fragmentation-needed': 3, 'source-route-failed': 3, 'network-unknown': 3,
    'host-unknown': 3, 'network-prohibited': 3, 'host-prohibited': 3, 'communication-prohibited': 3,
    'ttl-zero-during-transit': 11, 'ttl-zero-during-reassembly': 11}
ICMP_QUERIES, ICMP_REPLIES = {8, 13, 15, 17}, {0, 14, 16, 18}
DECIDED_FLAGS = {'FIN', 'SYN', 'RST', 'ACK'}
ALL_FLAGS = DECIDED_FLAGS | {'PSH', 'URG'}
ENDS = {'src': 'sources', 'dst': 'destinations'}
PORTS_OF = {'sources': 'source_ports', 'destinations': 'destination_ports'}


@dataclass
class Context:
    """What a rule is read with, beside its words."""
    chains: set[str]
    interfaces: Interfaces | None = None
    sets: dict[str, Set] = field(default_factory=dict)
    receivers: Numbers = ALL_ADDRESSES  # that the table nat may write
    is_untracked: bool = False  # whether the save exempts packets from connection tracking
    is_syn_first: bool = False  # whether a new TCP packet has SYN alone of FIN, SYN, RST and ACK


class RuleReader:
    """Reads the words of a rule after its chain."""

    def __init__(self, context: Context, line: int, text: str, words: list[Word]) -> None:
        self.context = context
        self.parsed = Parser(context.chains, line, text, words)
        self.rule = Rule(line, text, action=self.parsed.action, target=self.parsed.target)
        self.pieces = [Piece()]
        self.is_negated = False

    def read(self) -> Rule:
        try:
            for match in self.parsed.matches:
                self.read_match(match)
        except (ValueError, OSError):
            raise self.refused('a wrong value') from None
        for words in self.parsed.doubtful:
            self.pieces = in_doubt(self.pieces, f'{words} behind an option that is not known')
        self.rule.pieces = self.pieces
        return self.rule

    def refused(self, cause: str) -> Refused:
        return self.parsed.refused(cause)

    def read_match(self, match: Match) -> None:
        """Restricts the pieces by a match. One with an option that the table lacks is in doubt as a whole."""
        if not match.is_read():
            self.is_negated = False
            self.doubt(match.text())
            return
        if match.name in IMPLICIT:
            self.pieces = restricted(self.pieces, 'protocols', single(PROTOCOLS[match.name]))
        for given in match.options:
            self.is_negated = given.is_negated
            reader = BY_NAME[match.name, given.name].reader
            if reader:
                READERS[reader](self, given)
            else:
                self.doubt(' '.join([match.name, given.name, *given.values]).strip())

    def doubt(self, reason: str) -> None:
        self.pieces = in_doubt(self.pieces, ('! ' if self.is_negated else '') + reason)

    def restrict(self, dimension: str, numbers: Numbers, greatest: int) -> None:
        given = complement(numbers, greatest) if self.is_negated else numbers
        self.pieces = restricted(self.pieces, dimension, given)

    def restrict_addresses(self, dimension: str, numbers: Numbers) -> None:
        self.rule.named.append(numbers)
        self.restrict(dimension, numbers, MOST_ADDRESS)

    # The readers of the options.

    def read_addresses(self, dimension: str, given: Given) -> None:
        word = given.values[0]
        found = addresses(word)
        if found is None:
            self.doubt(f'mask {word}')
        elif self.is_negated and ',' in word:
            raise self.refused('! before a list')
        else:
            self.restrict_addresses(dimension, found)

    def read_protocol(self, given: Given) -> None:
        number = protocol(given.values[0])
        if number is not None:
            self.restrict('protocols', single(number), MOST_PROTOCOL)
        elif self.is_negated:
            raise self.refused('! before all protocols')

    def read_interface(self, dimension: str, given: Given) -> None:
        name, table = given.values[0], self.context.interfaces
        behind = (table.senders(name) if dimension == 'sources' else table.receivers(name)) if table else None
        if name == '+':
            behind = Behind(ALL_ADDRESSES, ALL_ADDRESSES)
        if behind is None:
            self.doubt(f'interface {name}')
            return
        surely, perhaps = behind.surely, behind.perhaps
        if self.is_negated:
            surely, perhaps = complement(perhaps, MOST_ADDRESS), complement(surely, MOST_ADDRESS)
        before = self.pieces
        self.pieces = restricted(before, dimension, difference(perhaps, surely))
        self.doubt(f'{"senders behind" if dimension == "sources" else "routes to"} {name}')
        self.pieces = restricted(before, dimension, surely) + self.pieces

    def read_range(self, dimension: str, given: Given) -> None:
        self.restrict_addresses(dimension, address_range(given.values[0]))

    def read_ports(self, dimension: str, given: Given) -> None:
        found = self.ports(given)
        if found is not None:
            self.restrict(dimension, found, MOST_PORT)

    def ports(self, given: Given) -> Numbers | None:
        """Reads ports of the one protocol of the rule. With other protocols than TCP and UDP they are in doubt."""
        names = {single(PROTOCOLS[name]): name for name in ('tcp', 'udp')}
        protocols = {piece.protocols for piece in self.pieces}
        if len(protocols) == 1 and protocols <= set(names):
            return ports(given.values[0], names[protocols.pop()])
        self.doubt(f'{given.name} {given.values[0]}')
        return None

    def read_both_ports(self, given: Given) -> None:
        found = self.ports(given)
        if found is None:
            return
        numbers = complement(found, MOST_PORT) if self.is_negated else found
        with_source = restricted(self.pieces, 'source_ports', numbers)
        of_destination = restricted(with_source if self.is_negated else self.pieces, 'destination_ports', numbers)
        self.pieces = of_destination if self.is_negated else with_source + of_destination

    def read_set(self, given: Given) -> None:
        name, words = given.values[0], given.values[1].split(',')
        found = self.context.sets.get(name)
        directions = [ENDS[word] for word in words if word in ENDS]
        is_read = found is not None and not found.cause and len(words) == len(directions) == len(found.dimensions())
        products = found.products(self.is_negated) if found and is_read else []
        reason = f'set {" ".join(given.values)}'
        if found is None or not is_read or len(products) * len(self.pieces) > MOST_PIECES:
            self.doubt(reason)
            return
        for place, kind in enumerate(found.dimensions()):
            if kind in (ADDRESS, NETWORK):
                self.rule.named.append(united((entry for entry, _ in found.entries), place))
        reason = ('! ' if self.is_negated else '') + reason
        parts = [part for product in products
                 for part in self.within(product, found.dimensions(), directions, reason)]
        self.pieces = parts if len(parts) <= MOST_PIECES else in_doubt(self.pieces, reason)

    def within(self, product: Product, dimensions: tuple[str, ...], directions: list[str], reason: str) -> list[Piece]:
        """Returns the parts of the pieces in a product of a set."""
        parts = self.pieces
        for numbers, kind, direction in zip(product, dimensions, directions):
            if kind in (ADDRESS, NETWORK):
                parts = restricted(parts, direction, numbers)
                continue
            before, parts = parts, []
            for protocols, allowed, is_sure in services_of(numbers):
                found = restricted(restricted(before, 'protocols', protocols), PORTS_OF[direction], allowed)
                if not all(is_written(part.protocols) for part in found):
                    found, is_sure = before, False
                parts += found if is_sure else in_doubt(found, reason)
        return parts

    def read_states(self, given: Given) -> None:
        """In the model a packet is new or established: other states never match."""
        word = given.values[0]
        names = set(word.upper().split(','))
        if not names <= TRACKED_STATES | WRITTEN_STATES:
            raise ValueError(word)
        if names & WRITTEN_STATES:
            self.rule.is_partial = True
        else:
            self.rule.others &= OTHERS - names if self.is_negated else names
        matching = frozenset(BOTH & names)
        unsure = frozenset(BOTH - names if names & WRITTEN_STATES else ())
        if self.context.is_untracked and not names >= TRACKED_STATES:
            matching, unsure = frozenset(), BOTH
        if self.is_negated:
            matching = BOTH - matching - unsure
        before = self.pieces
        is_written = not (self.is_negated or self.context.is_untracked or 'SNAT' in names)
        self.split_states(matching, unsure, f'state {word}', self.context.receivers if is_written else ALL_ADDRESSES)
        if before and not self.pieces:
            self.rule.never = f'state {word}: no new or established packet'

    def split_states(self, matching: frozenset[str], unsure: frozenset[str], reason: str,
                     receivers: Numbers = ALL_ADDRESSES) -> None:
        """Keeps the packets in some states, and those in others in doubt, of connections to the receivers."""
        before = self.pieces
        self.pieces = restricted(in_states(before, unsure), 'destinations', receivers)
        if receivers != ALL_ADDRESSES:
            self.pieces += restricted(in_states(before, unsure & {ESTABLISHED}), 'sources', receivers)
        self.doubt(reason)
        self.pieces = in_states(before, matching) + self.pieces

    def read_icmp_type(self, given: Given) -> None:
        """A tracked ICMP packet is a query, new or established, or the reply to one, established."""
        word = given.values[0]
        name = word.split('/')[0]
        if name in ('any', '255'):
            self.pieces = [] if self.is_negated else self.pieces
            return
        self.rule.is_partial = True
        number = decimal(name, 255) if name[:1].isdigit() else ICMP_TYPES.get(name)
        if number is None:
            self.doubt(f'icmp-type {word}')
            return
        before = self.pieces
        unsure = BOTH if number in ICMP_QUERIES else frozenset({ESTABLISHED} if number in ICMP_REPLIES else ())
        self.split_states(BOTH - unsure if self.is_negated else frozenset(), unsure, f'icmp-type {word}')
        if before and not self.pieces:
            self.rule.never = f'icmp-type {word}: related or invalid, no new or established packet'

    def read_address_type(self, dimension: str, given: Given) -> None:
        word, before = given.values[0], self.pieces
        self.restrict(dimension, addresses_of_types(word), MOST_ADDRESS)
        if before and not self.pieces:
            self.rule.never = f'type {word}: no forwarded packet has such an address'

    def read_flags(self, mask: str, flags: str) -> None:
        masked, wanted = (ALL_FLAGS if word == 'ALL' else set(word.split(',')) - {'NONE'} for word in (mask, flags))
        self.rule.is_partial = True
        reason = f'tcp-flags {mask} {flags}'
        may_match = wanted <= masked and masked & {'SYN'} == wanted & DECIDED_FLAGS
        is_known = self.context.is_syn_first and masked | wanted <= ALL_FLAGS
        if not is_known or may_match and masked - DECIDED_FLAGS:
            self.doubt(reason)
            return
        is_matched = may_match is not self.is_negated
        self.split_states(frozenset({NEW} if is_matched else ()), frozenset({ESTABLISHED}), reason)

    def read_comment(self, given: Given) -> None:
        self.rule.comment = given.values[0]


def is_written(protocols: Numbers) -> bool:
    """Whether `topos` reads rules for the protocols: it has no `-p 0`."""
    outside = complement(protocols, MOST_PROTOCOL)
    return protocols[0][0] != 0 or not outside or len(outside) == 1 and outside[0][0] == outside[0][1]


READERS: dict[str, Callable[[RuleReader, Given], None]] = {
    'sources': lambda reader, given: reader.read_addresses('sources', given),
    'destinations': lambda reader, given: reader.read_addresses('destinations', given),
    'protocol': RuleReader.read_protocol,
    'input': lambda reader, given: reader.read_interface('sources', given),
    'output': lambda reader, given: reader.read_interface('destinations', given),
    'nothing': lambda reader, given: None,
    'comment': RuleReader.read_comment,
    'source ports': lambda reader, given: reader.read_ports('source_ports', given),
    'destination ports': lambda reader, given: reader.read_ports('destination_ports', given),
    'both ports': RuleReader.read_both_ports,
    'states': RuleReader.read_states,
    'icmp type': RuleReader.read_icmp_type,
    'source range': lambda reader, given: reader.read_range('sources', given),
    'destination range': lambda reader, given: reader.read_range('destinations', given),
    'set': RuleReader.read_set,
    'source type': lambda reader, given: reader.read_address_type('sources', given),
    'destination type': lambda reader, given: reader.read_address_type('destinations', given),
    'flags': lambda reader, given: reader.read_flags(*given.values),
    'syn': lambda reader, given: reader.read_flags('FIN,SYN,RST,ACK', 'SYN')}
