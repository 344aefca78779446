"""Two readings of a rules text: what topos reads, by docs/TEXTS.md, and whether iptables-restore reads the same."""
from __future__ import annotations

import ipaddress
from collections.abc import Iterator
from dataclasses import dataclass, field

LINE_LIMIT = 10239  # bytes of a line, without its end
ALL_PORTS = (0, 65535)
PROTOCOLS = {b'icmp': 1, b'tcp': 6, b'udp': 17, b'esp': 50, b'ah': 51, b'sctp': 132}
STATES = {b'NEW', b'ESTABLISHED', b'RELATED', b'INVALID', b'UNTRACKED', b'SNAT', b'DNAT'}
TARGETS = {b'ACCEPT', b'DROP', b'REJECT', b'RETURN', b'LOG'}
BUILT_IN = {b'INPUT', b'FORWARD', b'OUTPUT'}
MATCHES = {b'-s', b'-d', b'-p', b'--sport', b'--dport', b'--ctstate', b'--state'}
MODULE_OF = {b'--sport': b'ports', b'--dport': b'ports', b'--ctstate': b'conntrack', b'--state': b'state',
             b'--comment': b'comment'}
TARGET_OF = {b'--reject-with': b'REJECT', b'--log-prefix': b'LOG', b'--log-level': b'LOG'}


class Refused(Exception):
    """A text that topos refuses."""


def require(condition: bool, reason: str) -> None:
    if not condition:
        raise Refused(reason)


# What topos reads.

def lines_of(text: bytes) -> list[bytes]:
    lines = text.split(b'\n')
    return lines if lines[-1] else lines[:-1]


def tokens_of(line: bytes) -> list[bytes]:
    return [token for token in line.replace(b'\t', b' ').split(b' ') if token]


def is_comment(line: bytes) -> bool:
    tokens = tokens_of(line)
    return not tokens or tokens[0].startswith(b'#')


def is_count(token: bytes) -> bool:
    parts = token[1:-1].split(b':')
    return (token[:1] + token[-1:] == b'[]' and len(parts) == 2
            and all(part.isdigit() and len(part) <= 20 for part in parts))


def number_of(token: bytes, most: int) -> int:
    require(token.isdigit() and (token == b'0' or token[:1] != b'0'), 'BadValue')
    require(int(token) <= most, 'BadValue')
    return int(token)


def prefix_of(token: bytes) -> bytes:
    address, slash, length = token.partition(b'/')
    parts = [number_of(part, 255) for part in address.split(b'.')]
    require(len(parts) == 4, 'BadValue')
    bits = number_of(length, 32) if slash else 32
    network = ipaddress.ip_network((bytes(parts), bits), strict=False)
    return str(network).encode()


def ports_of(token: bytes) -> tuple[int, int]:
    low, colon, high = token.partition(b':')
    require(token != b':', 'BadValue')
    if not colon:
        return number_of(low, 65535), number_of(low, 65535)
    first, last = number_of(low, 65535) if low else 0, number_of(high, 65535) if high else 65535
    require(first <= last, 'BadValue')
    return first, last


def protocol_of(token: bytes) -> int:
    number = PROTOCOLS.get(token) or number_of(token, 255)
    require(number > 0, 'BadValue')
    return number


def text_of(rest: bytes) -> tuple[bytes, bytes]:
    """Returns the text that a `"` before these bytes opens, and the bytes after its end."""
    text, place = b'', 0
    while place < len(rest) and rest[place:place + 1] != b'"':
        place += rest[place:place + 1] == b'\\'
        text += rest[place:place + 1]
        place += 1
    require(place < len(rest), 'BadValue')
    behind = rest[place + 1:]
    require(behind[:1] in (b'', b' ', b'\t'), 'BadValue')
    return text, behind


def printed(text: bytes) -> bytes:
    return b'"' + text.replace(b'\\', b'\\\\').replace(b'"', b'\\"') + b'"'


class Cursor:
    """The tokens of a line that are left, as bytes, since a quoted text may have blanks."""

    def __init__(self, line: bytes) -> None:
        self.rest = line

    def token(self) -> bytes:
        """Returns the next token, or nothing at the end of the line."""
        begun = self.rest.lstrip(b' \t')
        end = min((place for place in (begun.find(b' '), begun.find(b'\t')) if place >= 0), default=len(begun))
        self.rest = begun[end:]
        return begun[:end]

    def text(self) -> bytes:
        """Returns the next token, or the quoted text that begins there."""
        begun = self.rest.lstrip(b' \t')
        if not begun.startswith(b'"'):
            return self.token()
        text, self.rest = text_of(begun[1:])
        return text


@dataclass
class RuleReader:
    """The options of a rule line so far, and the words of the rule in one notation."""

    chains: set[bytes]
    seen: set[bytes] = field(default_factory=set)
    modules: set[bytes] = field(default_factory=set)
    protocol: int = 0  # 0: none, or a negated one
    target: bytes = b''
    never: bool = False  # matches no packet
    words: list[bytes] = field(default_factory=list)

    def read(self, cursor: Cursor) -> None:
        while name := cursor.token():
            negated = name == b'!' and not self.target
            if negated:
                name = cursor.token()
                require(bool(name), 'BadLine')
            self.option(name, negated, cursor)

    def option(self, name: bytes, negated: bool, cursor: Cursor) -> None:
        if name in TARGET_OF:
            require(self.target == TARGET_OF[name], 'UnknownOption')
        else:
            require(name in MATCHES | {b'-m', b'-j', b'--comment'} and not self.target, 'UnknownOption')
        require(MODULE_OF.get(name) in self.modules | {None}, 'UnknownOption')
        require(name in MATCHES or not negated, 'BadLine')
        kind = b'--ctstate' if name == b'--state' else name
        require(kind not in self.seen, 'BadLine')
        self.seen |= {kind} & MATCHES
        if name in (b'--comment', b'--log-prefix'):
            require(bool(cursor.rest.strip(b' \t')), 'BadValue')
            self.words += [name, printed(cursor.text())]
        else:
            self.value(name, negated, cursor.token())

    def value(self, name: bytes, negated: bool, token: bytes) -> None:
        require(bool(token), 'BadValue')
        if name in (b'-s', b'-d'):
            token = prefix_of(token)
        elif name == b'-p':
            number = protocol_of(token)
            self.protocol = 0 if negated else number
            token = str(number).encode()
        elif name == b'-m':
            self.module(token)
        elif name == b'-j':
            require(token in TARGETS | self.chains - BUILT_IN, 'UnknownTarget')
            self.target = token
        elif name in (b'--ctstate', b'--state'):
            require(set(token.split(b',')) <= STATES, 'BadValue')
        elif name in (b'--sport', b'--dport'):
            ports = ports_of(token)
            self.never |= ports == ALL_PORTS and negated
            if ports == ALL_PORTS:
                return
            token = b'%d:%d' % ports
        self.words += [*[b'!'] * negated, name, token]

    def module(self, token: bytes) -> None:
        if {b'tcp': 6, b'udp': 17}.get(token, -1) == self.protocol:
            token = b'ports'
        require(token in (b'ports', b'conntrack', b'state', b'comment'), 'UnknownOption')
        self.modules.add(token)


@dataclass
class Reading:
    """What topos reads: the user chains, and the rules that match some packet, in order, each in one notation."""

    chains: list[bytes] = field(default_factory=list)
    rules: list[bytes] = field(default_factory=list)
    declared: set[bytes] = field(default_factory=set)


def read_chain(line: bytes, reading: Reading) -> None:
    name, policy, *counts = tokens_of(line) + [b''] * (2 - len(tokens_of(line)))
    name = name[1:]
    require(len(counts) <= 1 and all(map(is_count, counts)) and name not in reading.declared, 'BadChain')
    if name in BUILT_IN:
        require(policy in (b'ACCEPT', b'DROP'), 'BadChain')
    else:
        visible = 1 <= len(name) <= 64 and all(33 <= byte <= 126 for byte in name)
        require(policy == b'-' and visible and name[:1] not in (b'-', b'!'), 'BadChain')
        require(name not in TARGETS | {b'QUEUE'}, 'BadChain')
        reading.chains.append(name)
    reading.declared.add(name)


def read_rule(line: bytes, reading: Reading) -> None:
    cursor = Cursor(line)
    token = cursor.token()
    if is_count(token):
        token = cursor.token()
    chain = cursor.token()
    require(token == b'-A' and bool(chain), 'BadLine')
    chains = BUILT_IN | set(reading.chains)
    require(chain in chains, 'UnknownChain')
    rule = RuleReader(chains)
    rule.read(cursor)
    if not rule.never:
        reading.rules.append(b' '.join([b'-A', chain, *rule.words]))


def read(text: bytes) -> Reading:
    """Returns what topos reads, or raises Refused."""
    reading, stage = Reading(), 0
    for line in lines_of(text):
        tokens = tokens_of(line)
        if is_comment(line):
            continue
        if stage == 1 and tokens[0].startswith(b':'):
            read_chain(line, reading)
        elif stage == 1 and (tokens[0] == b'-A' or tokens[0].startswith(b'[')):
            read_rule(line, reading)
        else:
            require(stage < 2 and tokens == [(b'*filter', b'COMMIT')[stage]], 'BadLine')
            stage += 1
    require(stage == 2, 'NoCommit')
    return reading


# Whether iptables-restore reads the same: crates/ipt_plain/specs.

def has_arguments(line: bytes) -> bool:
    """Whether a line consists of arguments: tokens without a `"`, and quoted texts, before a blank or the end."""
    rest = line.lstrip(b' \t')
    while rest:
        if rest.startswith(b'"'):
            try:
                _, rest = text_of(rest[1:])
            except Refused:
                return False
        else:
            cursor = Cursor(rest)
            if b'"' in cursor.token():
                return False
            rest = cursor.rest
        rest = rest.lstrip(b' \t')
    return True


def negates_all_ports(tokens: list[bytes]) -> bool:
    return any(bang == b'!' and option in (b'--sport', b'--dport') and ports in (b'0:65535', b'0:', b':65535')
               for bang, option, ports in zip(tokens, tokens[1:], tokens[2:]))


def line_fault(line: bytes) -> str:
    """Returns the reason why iptables-restore may read the line otherwise, or nothing."""
    if len(line) > LINE_LIMIT:
        return 'LongLine'
    if b'\0' in line:
        return 'ZeroByte'
    if is_comment(line):
        return ''
    if not has_arguments(line):
        return 'InnerQuote'
    return 'AllPorts' if negates_all_ports(tokens_of(line)) else ''


def faults(lines: list[bytes]) -> Iterator[str]:
    yield from filter(None, map(line_fault, lines))
    if not any(tokens_of(line)[:1] == [b':FORWARD'] for line in lines):
        yield 'NoForward'


def plain_fault(text: bytes) -> str:
    """Returns the first reason why iptables-restore may read the text otherwise, or nothing."""
    return next(faults(lines_of(text)), '')
