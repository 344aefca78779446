"""Reads saved connections: what `conntrack` prints, or five fields on each line of a log.

A line of `conntrack` has the two tuples of a connection. Its first packet is evaluated as FORWARD receives it: with the
sender before SNAT and the receiver after DNAT. Five fields are the source, the destination, the protocol, the source
port and the destination port, between blanks or commas. A line that answers an earlier one belongs to its connection.
"""
import ipaddress
import re
from collections.abc import Iterable
from dataclasses import dataclass, field
from typing import NamedTuple

from .import_words import PROTOCOLS, decimal

PAIRS = re.compile(r'\b([a-z]+)=(\S+)')
BRACKETS = re.compile(r'^(?:\s*\[[^\]]*\])*\s*')  # of the events of `conntrack -E`: a time, and a kind
WITH_PORTS = (6, 17)
FIELDS = 5
IGNORED = ('#', 'conntrack v')  # comments, and the count that `conntrack` prints


class Connection(NamedTuple):
    """The first packet of a connection."""
    sender: int
    receiver: int
    protocol: int
    sport: int
    dport: int

    def back(self) -> 'Connection':
        return Connection(self.receiver, self.sender, self.protocol, self.dport, self.sport)

    def words(self) -> str:
        ends = (str(ipaddress.IPv4Address(each)) for each in (self.sender, self.receiver))
        return f'{" ".join(ends)} {self.protocol} {self.sport} {self.dport}'


class OtherFamily(Exception):
    """A connection over IPv6."""


@dataclass
class Saved:
    """The connections of a file, and what of it is none."""
    connections: list[Connection] = field(default_factory=list)
    unread: list[int] = field(default_factory=list)  # lines
    answers: int = 0
    other_family: int = 0


def read_connections(lines: Iterable[str]) -> Saved:
    """Reads the lines of a file. Repeated lines are one connection."""
    saved, seen, asked = Saved(), set[tuple[object, ...]](), set[Connection]()
    for number, line in enumerate(lines, 1):
        if not line.strip() or line.lstrip().startswith(IGNORED):
            continue
        try:
            is_tracked = 'src=' in line
            connection, identity = _tracked(line) if is_tracked else _logged(line)
        except OtherFamily:
            saved.other_family += 1
            continue
        except (ValueError, IndexError, KeyError):
            if not (number == 1 and _is_heading(line)):
                saved.unread.append(number)
            continue
        if identity in seen:
            continue
        if not is_tracked and connection.back() in asked:
            saved.answers += 1
            continue
        seen.add(identity)
        asked.add(connection)
        saved.connections.append(connection)
    return saved


def _is_heading(line: str) -> bool:
    return not any(letter.isdigit() for letter in re.split(r'[,\s]+', line.strip())[0])


def _address(word: str) -> int:
    if ':' in word:
        ipaddress.IPv6Address(word)
        raise OtherFamily
    return int(ipaddress.IPv4Address(word))


def _protocol(word: str) -> int:
    return PROTOCOLS[word.lower()] if word.lower() in PROTOCOLS else decimal(word, 255)


def _tracked(line: str) -> tuple[Connection, tuple[object, ...]]:
    """Reads a line of `conntrack`. Fails with ValueError, IndexError or KeyError."""
    words = BRACKETS.sub('', line).split()
    if words[0] in ('ipv4', 'ipv6'):
        words = words[2:]
    found: dict[str, list[str]] = {}
    for key, value in PAIRS.findall(line):
        found.setdefault(key, []).append(value)
    protocol = decimal(words[1], 255)
    sender, receiver = _address(found['src'][0]), _address(found['src'][1])
    sports = found.get('sport', ['0', '0'])
    connection = Connection(sender, receiver, protocol, decimal(sports[0], 65535), decimal(sports[1], 65535))
    return connection, (connection, *(tuple(found.get(key, ())) for key in ('dst', 'dport', 'id', 'zone')))


def _logged(line: str) -> tuple[Connection, tuple[object, ...]]:
    """Reads five fields. Fails with ValueError, IndexError or KeyError."""
    fields = [each.strip() for each in line.split(',')] if ',' in line else line.split()
    sender, receiver = _address(fields[0]), _address(fields[1])
    protocol = _protocol(fields[2])
    ports = [decimal(each, 65535) for each in fields[3:FIELDS]] if protocol in WITH_PORTS else [0, 0]
    connection = Connection(sender, receiver, protocol, ports[0], ports[1])
    return connection, (connection,)
