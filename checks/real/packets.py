"""IPv4 packets as real machines send them, for the events of a trace.

An event has addresses, a protocol and ports. The rest of the packet depends on the state of its connection: TCP opens
with SYN and the answer is SYN and ACK, ICMP opens with an echo request and the answer is an echo reply. `Conversations`
tracks this state by the packets that arrived.
"""
from __future__ import annotations

import ipaddress
import struct
import zlib
from dataclasses import dataclass
from typing import TypeAlias

End: TypeAlias = tuple[str, int]  # an address and a port
Connection: TypeAlias = tuple[int, End, End]

NUMBERS = {'icmp': 1, 'tcp': 6, 'udp': 17}
ICMP, TCP, UDP = 1, 6, 17
BARE = (50, 89, 253)  # protocols without ports, which the kernel distinguishes only by addresses
SYN, ACK = 0x02, 0x10
REPLY, REQUEST = 0, 8


@dataclass(frozen=True)
class Event:
    """A packet that is sent, or a connection that is removed."""
    forgets: bool
    source: str
    destination: str
    protocol: int
    ports: tuple[int, int]

    @staticmethod
    def read(line: str) -> Event:
        what, source, destination, protocol, *ports = line.split()
        number = NUMBERS.get(protocol) or int(protocol)
        return Event(what == 'forget', source, destination, number, (int(ports[0]), int(ports[1])))

    def text(self) -> str:
        what = 'forget' if self.forgets else 'packet'
        return f'{what} {self.source} {self.destination} {self.protocol} {self.ports[0]} {self.ports[1]}'

    def answer(self) -> Event:
        return Event(False, self.destination, self.source, self.protocol, self.ports[::-1])

    def forgotten(self) -> Event:
        return Event(True, self.source, self.destination, self.protocol, self.ports)

    def opener(self) -> End:
        return self.source, self.ports[0]

    def connection(self) -> Connection:
        first, second = sorted([(self.source, self.ports[0]), (self.destination, self.ports[1])])
        return self.protocol, first, second

    def why_not_sent(self) -> str | None:
        """Returns why the packet cannot be sent here; None if it can."""
        if not all(is_routed(address) for address in (self.source, self.destination)):
            return 'a kernel forwards no packets from or to such an address'
        if self.protocol == ICMP and self.ports[0] != self.ports[1]:
            return 'an ICMP query has one number, so both ports have to be this number'
        if self.protocol in BARE and self.ports != (0, 0):
            return 'a protocol without ports with ports'
        if self.protocol not in (ICMP, TCP, UDP) + BARE:
            return f'protocol {self.protocol}'
        return None


def is_routed(address: str) -> bool:
    first = int(address.split('.')[0])
    return 1 <= first <= 223 and first != 127


def bytes_of(address: str) -> bytes:
    return ipaddress.IPv4Address(address).packed


def checksum(content: bytes) -> int:
    total: int = sum(struct.unpack(f'!{(len(content) + 1) // 2}H', content + b'\0' * (len(content) % 2)))
    while total > 0xffff:
        total = (total & 0xffff) + (total >> 16)
    return total ^ 0xffff


def header(event: Event, length: int, number: int, hops: int = 64) -> bytes:
    """Returns the IPv4 header; `number` identifies the packet within a run."""
    parts = [0x45, 0, 20 + length, number, 0x4000, hops, event.protocol]
    ends = bytes_of(event.source) + bytes_of(event.destination)
    sum_ = checksum(struct.pack('!BBHHHBBH', *parts, 0) + ends)
    return struct.pack('!BBHHHBBH', *parts, sum_) + ends


def with_sum(event: Event, head: bytes, place: int, rest: bytes) -> bytes:
    """Returns the content of TCP or UDP with its checksum, which covers the addresses."""
    content = head + rest
    pseudo = bytes_of(event.source) + bytes_of(event.destination) + struct.pack('!BBH', 0, event.protocol, len(content))
    return content[:place] + struct.pack('!H', checksum(pseudo + content) or 0xffff) + content[place + 2:]


class Conversations:
    """The opener of each connection, and whether it was answered."""

    def __init__(self) -> None:
        self.opened: dict[Connection, tuple[End, bool]] = {}

    def packet(self, event: Event, number: int) -> bytes:
        content = self.content(event)
        return header(event, len(content), number) + content

    def content(self, event: Event) -> bytes:
        opener, answered = self.opened.get(event.connection(), (event.opener(), False))
        opens = opener == event.opener()
        if event.protocol == TCP:
            return segment(event, opens, answered)
        if event.protocol == UDP:
            return with_sum(event, struct.pack('!HHHH', *event.ports, 8 + 4, 0), 6, b'text')
        if event.protocol == ICMP:
            parts = REQUEST if opens else REPLY, 0
            sum_ = checksum(struct.pack('!BBHHH', *parts, 0, event.ports[0], 1))
            return struct.pack('!BBHHH', *parts, sum_, event.ports[0], 1)
        return b'text'

    def saw(self, event: Event, forwarded: bool) -> None:
        """Updates the state of the connection after a packet that was forwarded or dropped."""
        opener, _ = self.opened.get(event.connection(), (None, False))
        if opener is None and forwarded:
            self.opened[event.connection()] = event.opener(), False
        elif opener is not None and opener != event.opener():
            self.opened[event.connection()] = opener, True

    def forget(self, event: Event) -> None:
        self.opened.pop(event.connection(), None)


def segment(event: Event, opens: bool, answered: bool) -> bytes:
    """Returns a TCP segment. Half of the connections start with SYN, half in their middle."""
    whole = zlib.crc32(repr(event.connection()).encode()) % 2
    if not whole or answered:
        flags = ACK
    elif opens:
        flags = SYN
    else:
        flags = SYN | ACK
    first, second = (1000, 5000) if opens else (5000, 1000)
    sent = first + (0 if flags & SYN else 1)
    got = second + 1 if flags & ACK else 0
    return with_sum(event, struct.pack('!HHIIBBHHH', *event.ports, sent, got, 0x50, flags, 8192, 0, 0), 16, b'')


def is_same(sent: bytes, arrived: bytes) -> bool:
    """Whether it is the same packet, possibly one hop later."""
    rest = [packet[:8] + packet[9:10] + packet[12:] for packet in (sent, arrived)]
    return rest[0] == rest[1] and arrived[8] in (sent[8], sent[8] - 1)  # a switch is no hop
