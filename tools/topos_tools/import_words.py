"""Reads the words of a save: quotes, addresses, ports and protocols, in old and new spellings."""
import ipaddress
import re
import socket
from typing import NamedTuple

from .import_sets import BITS, MOST_ADDRESS, MOST_PORT, MOST_PROTOCOL, Numbers, joined, prefix
from .query import Stopped

REFUSED = 4  # the status of `topos` for a text of rules that it refuses
WORD = re.compile(r'([^ \t"]*)"((?:\\.|[^"\\])*)"|[^ \t"]+|"', re.DOTALL)  # its second quote ends a word
ESCAPED = re.compile(r'\\(.)', re.DOTALL)
PROTOCOLS = {
    'icmp': 1, 'igmp': 2, 'ipencap': 4, 'tcp': 6, 'egp': 8, 'udp': 17, 'dccp': 33, 'ipv6': 41, 'rsvp': 46,
    'gre': 47, 'esp': 50, 'ipv6-crypt': 50, 'ah': 51, 'ipv6-auth': 51, 'icmpv6': 58, 'ipv6-icmp': 58, 'eigrp': 88,
    'ospf': 89, 'ipip': 94, 'pim': 103, 'vrrp': 112, 'l2tp': 115, 'sctp': 132, 'mh': 135, 'ipv6-mh': 135,
    'udplite': 136}


class Refused(Stopped):
    """A text that is not translated. The line names the cause."""

    def __init__(self, line: str) -> None:
        super().__init__(line, REFUSED)


class Word(NamedTuple):
    text: str
    is_quoted: bool


def words_of(line: str) -> list[Word]:
    """Splits a line as `iptables-restore` does: a quoted part may have blanks, and a backslash escapes in it."""
    found = []
    for each in WORD.finditer(line):
        if each[0] == '"':
            raise Refused('a quote that does not end')
        is_quoted = each[2] is not None
        found.append(Word(each[1] + ESCAPED.sub(r'\1', each[2]) if is_quoted else each[0], is_quoted))
    return found


def address(word: str) -> Numbers | None:
    """Reads an address with a length or a mask. Returns None for a mask with holes, fails with ValueError."""
    base, _, mask = word.partition('/')
    number = int(ipaddress.IPv4Address(base))
    if not mask:
        return prefix(number, BITS)
    if '.' in mask:
        bits = int(ipaddress.IPv4Address(mask))
        length = bits.bit_count()
        return prefix(number, length) if bits == (MOST_ADDRESS << (BITS - length)) & MOST_ADDRESS else None
    length = decimal(mask, BITS)
    return prefix(number, length)


def decimal(word: str, greatest: int) -> int:
    """Reads a number in ASCII digits, at most the greatest. Fails with ValueError."""
    if not (word.isascii() and word.isdigit() and len(word) <= 10 and int(word) <= greatest):
        raise ValueError(word)
    return int(word)


def addresses(word: str) -> Numbers | None:
    """Reads a list of addresses with commas between them."""
    found = [address(part) for part in word.split(',')]
    known = [part for part in found if part is not None]
    return joined(interval for part in known for interval in part) if len(known) == len(found) else None


def address_range(word: str) -> Numbers:
    low, _, high = word.partition('-')
    bounds = int(ipaddress.IPv4Address(low)), int(ipaddress.IPv4Address(high or low))
    if bounds[0] > bounds[1]:
        raise ValueError(word)
    return (bounds,)


def ports(word: str, protocol: str) -> Numbers:
    """Reads ports and ranges with commas between them."""
    found = []
    for part in word.split(','):
        low, colon, high = part.partition(':')
        first = port(low, protocol) if low or not colon else 0
        last = port(high, protocol) if high else MOST_PORT if colon else first
        if first > last:
            raise ValueError(word)
        found.append((first, last))
    return joined(found)


def port(word: str, protocol: str) -> int:
    if word[:1].isdigit():
        return decimal(word, MOST_PORT)
    return socket.getservbyname(word, protocol)


def protocol(word: str) -> int | None:
    """Reads a protocol by its name or number. Returns None for all protocols."""
    name = word.lower()
    if name in PROTOCOLS:
        return PROTOCOLS[name]
    if name == 'all':
        return None
    number = decimal(word, MOST_PROTOCOL) if word[:1].isdigit() else socket.getprotobyname(word)
    return number or None
