"""The packets of an audit report, as packets that can be sent through a kernel.

An audit reports the smallest packet of an equivalence class. If a kernel forwards no packets from or to its address, or
no machine sends its protocol, another packet of the class is sent.
"""
import ipaddress
import re
from collections.abc import Iterable
from ipaddress import IPv4Network

from packets import BARE, NUMBERS, Event, is_routed

ADDRESS = re.compile(r'\d+\.\d+\.\d+\.\d+(?:/\d+)?')
FIRST_ROUTED = [int(ipaddress.IPv4Address(address)) for address in ('1.0.0.0', '128.0.0.0')]


class Replay:
    """Selects packets by the prefixes of a description and by a rule set."""

    def __init__(self, prefixes: Iterable[IPv4Network], text: str) -> None:
        named = [ipaddress.IPv4Network(found, strict=False) for found in ADDRESS.findall(text)]
        self.cuts = {number for prefix in [*prefixes, *named] for number in (int(prefix[0]), int(prefix[-1]) + 1)}
        self.protocols = {NUMBERS.get(name) or int(name) for name in re.findall(r' (?:-p|l4proto) (\S+)', text)}

    def events(self, report: str) -> tuple[list[Event], bool]:
        """Returns the packets of the report, and whether the rules forward the last one."""
        _, *packets, end = report.splitlines()
        return [self.sent(Event.read(line)) for line in packets], end == 'text forwards'

    def sent(self, event: Event) -> Event:
        ends = self.routed(event.source), self.routed(event.destination)
        bare = event.protocol == 0 and not self.protocols & set(BARE)
        return Event(False, *ends, BARE[-1] if bare else event.protocol, event.ports)

    def routed(self, address: str) -> str:
        """Returns the smallest routed address of the class of this one, or itself if there is none."""
        number = int(ipaddress.IPv4Address(address))
        behind = [first for first in FIRST_ROUTED if first > number]
        if is_routed(address) or not behind or any(number < cut <= behind[0] for cut in self.cuts):
            return address
        return str(ipaddress.IPv4Address(behind[0]))
