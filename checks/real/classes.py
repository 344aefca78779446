"""Equivalence classes of packets: no prefix, port range or protocol distinguishes two packets of a class."""
import itertools
from collections.abc import Iterable, Iterator
from typing import TypeAlias

from packets import NUMBERS
from policy import Policy
from services import spelled
from walk import FIELDS, Chains, Packet

Service: TypeAlias = tuple[int, int]  # a protocol and a port


def packet_of(numbers: Iterable[int]) -> Packet:
    return dict(zip(FIELDS, numbers))


class Classes:
    """The smallest packet of each equivalence class, in the order of packets."""

    def __init__(self, policies: Iterable[Policy], chains: Iterable[Chains]) -> None:
        addresses, ports, named = {0}, {0}, set()
        for policy in policies:
            for prefix in itertools.chain(*policy.at):
                addresses |= {int(prefix[0]), int(prefix[-1]) + 1}
            for text in set(itertools.chain(*policy.services.values())):
                name, low, high = spelled(text)
                named.add(NUMBERS[name])
                ports |= {low, high + 1}
        for each in chains:
            addresses |= each.cuts('source', 'destination')
            ports |= each.cuts('sport', 'dport')
            named |= each.named_protocols()
        self.addresses = sorted(address for address in addresses if address < 2 ** 32)
        self.ports = sorted(port for port in ports if port < 2 ** 16)
        self.other = next(number for number in range(256) if number not in named)
        self.protocols = sorted(named | {self.other})

    def count(self) -> int:
        return len(self.addresses) ** 2 * len(self.protocols) * len(self.ports) ** 2

    def packets(self) -> Iterator[Packet]:
        fields = self.addresses, self.addresses, self.protocols, self.ports, self.ports
        return map(packet_of, itertools.product(*fields))

    def services(self) -> Iterator[tuple[Service, Service, Service]]:
        """The ranges of services in order, each with the protocol and the port that it is tried with."""
        ends = [*self.ports[1:], 2 ** 16]
        for number in range(256):
            protocol = number if number in self.protocols else self.other
            for low, end in zip(self.ports, ends):
                yield (number, low), (number, end - 1), (protocol, low)
