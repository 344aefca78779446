"""The verdicts that a policy expects, by the output of `topos policy` and the services of a network."""
import ipaddress
import tomllib
from typing import TypeAlias

from packets import NUMBERS, Event
from services import spelled

Owners: TypeAlias = tuple[int | None, int | None]  # the hosts that have the addresses of a packet, by their numbers


class Policy:
    """The packets of a list of events that are expected to pass, defined without rules and connections."""

    def __init__(self, description: str, printed: str) -> None:
        table = tomllib.loads(description)
        self.names: list[str] = [host['name'] for host in table['host']]
        self.at = [[ipaddress.IPv4Network(text) for text in host.get('at', [])] for host in table['host']]
        self.rest = next((place for place, host in enumerate(table['host']) if host.get('rest')), None)
        self.services = {(flow[0], flow[1]): flow[2:] for flow in table.get('flow', [])}
        self.permitted: set[tuple[str, str]] = set()
        self.answered: set[tuple[str, str]] = set()
        for line in printed.splitlines():
            source, _, destination, what = line.split(' ', 3)
            if what.startswith('allowed'):
                self.permitted.add((source, destination))
            if what == 'allowed with answers':
                self.answered.add((source, destination))
        self.seen: set[str] = set()

    def owner(self, address: str | int) -> int | None:
        """Returns the number of the host that has an address, or None."""
        number = ipaddress.IPv4Address(address)
        for place, prefixes in enumerate(self.at):
            if any(number in prefix for prefix in prefixes):
                return place
        return self.rest

    def ends(self, event: Event) -> Owners:
        return self.owner(event.source), self.owner(event.destination)

    def is_of(self, event: Event, flows: set[tuple[str, str]]) -> bool:
        sender, receiver = self.ends(event)
        if sender is None or receiver is None or sender == receiver:
            return False
        flow = self.names[sender], self.names[receiver]
        services = self.services.get(flow)
        return flow in flows and (not services or any(serves(service, event) for service in services))

    def expects(self, event: Event) -> bool:
        """Whether the packet of the next event is expected to pass."""
        answer = event.answer()
        passes = self.is_of(event, self.permitted) or (
            self.is_of(answer, self.answered) and answer.text() in self.seen)
        self.seen.add(event.text())
        return passes

    def forget(self, event: Event) -> None:
        packet = event.answer().answer()
        self.seen -= {packet.text(), packet.answer().text()}


def serves(service: str, event: Event) -> bool:
    protocol, low, high = spelled(service)
    return event.protocol == NUMBERS[protocol] and low <= event.ports[1] <= high
