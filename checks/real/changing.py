"""Changes between two descriptions by an exhaustive search: packets, what became weaker, and new gaps."""
import collections
import itertools
import re
from collections.abc import Callable, Iterator
from random import Random
from typing import Any, TypeAlias

from classes import Classes, Service
from descriptions import Network
from packets import Event
from policy import Policy
from walk import Packet

Name: TypeAlias = str | dict[str, str] | None  # a host of the new network, or one of the old network only
Flow: TypeAlias = tuple[str, str]
Place: TypeAlias = tuple[int, int]
Facts: TypeAlias = dict[Flow, dict[str, Any]]  # of each flow
Tried: TypeAlias = tuple[list[Packet], list[Packet]]  # the packets of a service that change, and the others
Range: TypeAlias = tuple[Service, Service, bool, list[Packet]]  # first, last, whether all change, and these packets
RangesOf: TypeAlias = Callable[[Classes, Callable[[Service], Tried]], list[Range]]

KINDS = ('flow comes', 'flow goes', 'answers come', 'answers go')


def variant(chance: Random, network: Network, flows: str) -> str:
    """Returns a changed description: other flows, and moved, removed or renamed hosts and invariants."""
    hosts, invariants, head = list(network.hosts), list(network.invariants), list(network.head)
    if chance.random() < 0.7:
        head = [line for line in head if not line.startswith('flow')] + [f'flow = [{flows}]']
    if chance.random() < 0.5:
        chance.shuffle(hosts)
    if invariants and chance.random() < 0.5:
        invariants.pop(chance.randrange(len(invariants)))
    text = '\n\n'.join(['\n'.join(head), *(f'[[host]]\n{host}' for host in hosts),
                        *(template.text() for template in network.templates), *invariants]) + '\n'
    if chance.random() < 0.4:
        text = re.sub(r'"host-1"', '"other"', text)
    return moved(chance, text) if chance.random() < 0.4 else text


def moved(chance: Random, text: str) -> str:
    """Returns the description with the prefixes of two hosts exchanged."""
    lists = re.findall(r'^at = .*$', text, re.MULTILINE)
    if len(lists) < 2:
        return text
    one, other = chance.sample(lists, 2)
    return text.replace(one, 'AT').replace(other, one).replace('AT', other)


class Changes:
    """All classes of packets under an old and a new policy."""

    def __init__(self, old: Policy, new: Policy, classes: Classes, event_of: Callable[[Packet], Event]) -> None:
        self.old, self.new, self.classes, self.event_of = old, new, classes, event_of

    def name(self, address: int) -> Name:
        """Returns the host of the new description, else that of the old one, else None."""
        if (owner := self.new.owner(address)) is not None:
            return self.new.names[owner]
        owner = self.old.owner(address)
        return None if owner is None else {'old': self.old.names[owner]}

    def pair(self, packet: Packet) -> tuple[Name, Name]:
        return self.name(packet['source']), self.name(packet['destination'])

    def changes(self, packet: Packet) -> Iterator[str]:
        """Yields the kinds of changes of the packet."""
        event = self.event_of(packet)
        for kinds, flows in ((KINDS[:2], 'permitted'), (KINDS[2:], 'answered')):
            before, after = (policy.is_of(event, getattr(policy, flows)) for policy in (self.old, self.new))
            if before != after:
                yield kinds[before]

    def order(self, name: Name) -> int:
        if name is None:
            return len(self.new.names) + len(self.old.names)
        if isinstance(name, dict):
            return len(self.new.names) + self.old.names.index(name['old'])
        return self.new.names.index(name)

    def found(self, ranges_of: RangesOf) -> list[tuple[Name, Name, str, list[tuple[Service, Service, bool]]]]:
        """Returns for each kind and pair, in order, the maximal ranges of services of which packets change."""
        packets: dict[tuple[int, Place, Service], list[Packet]] = collections.defaultdict(list)
        services: dict[tuple[Place, Service], list[Packet]] = collections.defaultdict(list)
        names: dict[Place, tuple[Name, Name]] = {}
        for packet in self.classes.packets():
            pair = self.pair(packet)
            key = self.order(pair[0]), self.order(pair[1])
            service = packet['protocol'], packet['dport']
            names[key] = pair
            services[key, service].append(packet)
            for change in self.changes(packet):
                packets[KINDS.index(change), key, service].append(packet)
        listed = []
        for kind, key in sorted({(kind, key) for kind, key, _ in packets}):
            def tried(service: Service, kind: int = kind, key: Place = key) -> Tried:
                passing = packets[kind, key, service]
                return passing, services[key, service][len(passing):]
            ranges = [(low, high, whole) for low, high, whole, _ in ranges_of(self.classes, tried)]
            listed.append((*names[key], KINDS[kind], ranges))
        return listed

    def pairs(self) -> Iterator[tuple[Flow | None, Flow | None]]:
        """Returns the pairs of hosts of packets in the new and in the old network."""
        addresses = self.classes.addresses
        for source, destination in itertools.product(addresses, addresses):
            yield self.flow(self.new, source, destination), self.flow(self.old, source, destination)

    @staticmethod
    def flow(policy: Policy, source: int, destination: int) -> Flow | None:
        sender, receiver = policy.owner(source), policy.owner(destination)
        if sender is None or receiver is None or sender == receiver:
            return None
        return policy.names[sender], policy.names[receiver]

    def weaker(self, before: Facts, after: Facts) -> list[tuple[tuple[Place, Place], tuple[Flow, Flow, list[int]]]]:
        """Lists the flows that no invariant of the new network denies, each with flows that the old network denied."""
        return sorted({(self.place(self.new, new), self.place(self.old, old)): (new, old, before[old]['denied_by'])
                       for new, old in self.pairs()
                       if new and old and before[old]['denied_by'] and not after[new]['denied_by']
                       and share(after[new]['services'], before[old]['services'])}.items())

    def gaps(self, before: Facts, after: Facts) -> list[tuple[Place, Flow]]:
        """Lists the gaps of the new network of which some packet was in no gap of the old one."""
        return sorted({(self.place(self.new, new), new) for new, old in self.pairs()
                       if new and after[new]['gap'] and not (old and before[old]['gap'])})

    @staticmethod
    def place(policy: Policy, flow: Flow) -> Place:
        return policy.names.index(flow[0]), policy.names.index(flow[1])


def share(left: list[str], right: list[str]) -> bool:
    """Whether some packet matches both lists of services. An empty list matches every packet."""
    return not left or not right or any(meet(numbers(one), numbers(other)) for one in left for other in right)


def numbers(service: str) -> tuple[str, int, int]:
    """Returns the protocol, the first and the last port of a service."""
    protocol, _, ports = service.partition('/')
    first, _, last = ports.partition('-')
    return (protocol, int(first), int(last or first)) if ports else (protocol, 0, 65535)


def meet(one: tuple[str, int, int], other: tuple[str, int, int]) -> bool:
    return one[0] == other[0] and max(one[1], other[1]) <= min(one[2], other[2])


def facts(answer: dict[str, Any]) -> Facts:
    """Returns the facts of each flow in an answer of `topos-query network`."""
    return {(each['flow'][0], each['flow'][1]): each for each in answer['flows']}
