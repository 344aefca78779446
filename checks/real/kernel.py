"""Compares answers of topos-query on rules with what a kernel does with packets: those shown and random ones."""
import collections
import ipaddress
import itertools
from collections.abc import Iterator
from random import Random
from typing import Any, TypeAlias

from box import Box, Failed, empty_connections
from classes import Classes
from descriptions import Traffic
from packets import BARE, ICMP, TCP, UDP, Connection, Conversations, Event, is_same
from policy import Policy
from replay import Replay
from walk import Chains

Answer: TypeAlias = dict[str, Any]  # a part of an answer of topos-query
Pair: TypeAlias = tuple[str | None, str | None]  # the owners of two addresses

DRAWN = 3  # packets of each range of services
PACKETS = 80  # random ones that open a connection
CORNERS = 80  # at the boundaries of prefixes and ranges of ports
EVENTS = 100  # of a random list
COUNTED = ('flows', 'flows with dead rules', 'packets', 'listed differences', 'differences')


class Kernel:
    """A box with rules, and the conversations since its connection table was emptied."""

    def __init__(self, box: Box) -> None:
        self.box, self.sent = box, 0
        self.conversations = Conversations()
        self.used: set[Connection] = set()

    def load(self, text: str) -> None:
        self.box.load(text)  # empties the table too
        self.conversations, self.used = Conversations(), set()

    def restart(self) -> None:
        empty_connections()
        self.conversations, self.used = Conversations(), set()

    def forwards(self, event: Event) -> bool:
        """Whether the packet is forwarded, once and unchanged."""
        self.sent += 1
        self.used.add(event.connection())
        packet = self.conversations.packet(event, self.sent % 2 ** 16)
        arrived = self.box.send(packet)
        if len(arrived) > 1 or not all(is_same(packet, came) for came in arrived):
            raise Failed(f'instead of {packet.hex()} arrives {[came.hex() for came in arrived]}')
        self.conversations.saw(event, bool(arrived))
        return bool(arrived)

    def replay(self, events: list[Event]) -> list[bool]:
        """Returns for each packet of a list of new connections whether it is forwarded."""
        if any(event.connection() in self.used for event in events):
            self.restart()
        return [self.forwards(event) for event in events]

    def opens(self, event: Event) -> bool:
        """Whether the packet is forwarded as the first of a connection."""
        return self.replay([event])[0]


class Case:
    """A network with rules, the answers of topos-query on both, and random events."""

    def __init__(self, name: str, chance: Random, description: str, printed: str, rules: str,
                 answers: tuple[Answer, list[Answer]]) -> None:
        self.name, self.chance, self.rules = name, chance, rules
        self.description, self.printed = description, printed
        self.flows, self.differences = answers
        self.traffic = Traffic(chance, description)
        self.replay = Replay(self.traffic.prefixes, rules)
        self.events = self.random_events(EVENTS)
        self.openers = list({event.connection(): event for event in self.random_events(4 * PACKETS)}.values())[:PACKETS]
        self.corners = self.random_corners()
        self.drawn = list(itertools.chain.from_iterable(map(self.draw, self.ranges())))
        self.wrong: list[str] = []
        self.counts: collections.Counter[str] = collections.Counter()

    def random_events(self, count: int) -> list[Event]:
        return [event for event in self.traffic.events(count) if not event.forgets and not event.why_not_sent()]

    def random_corners(self) -> list[Event]:
        """Packets whose addresses and ports are the first of their intervals."""
        classes, choice = Classes([self.policy()], [Chains(self.rules)]), self.chance.choice
        packets = []
        for _ in range(CORNERS):
            source, destination = (str(ipaddress.IPv4Address(choice(classes.addresses))) for _ in range(2))
            packets.append(Event(False, source, destination, choice(classes.protocols),
                                 (choice(classes.ports), choice(classes.ports))))
        return list(filter(None, map(self.sendable, packets)))

    def policy(self) -> Policy:
        return Policy(self.description, self.printed)

    def pair(self, policy: Policy, event: Event) -> Pair:
        sender, receiver = (None if owner is None else policy.names[owner] for owner in policy.ends(event))
        return sender, receiver

    def ranges(self) -> list[tuple[Pair, Answer]]:
        """The ranges of services, each with its pair."""
        return [((pair['from'], pair['to']), each) for pair in self.flows['pairs'] for each in pair['services']]

    def sendable(self, event: Event) -> Event | None:
        """A packet of the same class that can be sent here, or None."""
        protocol, ports = event.protocol, event.ports
        if protocol not in (ICMP, TCP, UDP) and not self.replay.protocols & {protocol, *BARE}:
            protocol = BARE[-1]  # as any protocol that no rule names
        if protocol not in (TCP, UDP):
            ports = (0, 0)  # which no rule matches
        sent = self.replay.sent(Event(False, event.source, event.destination, protocol, ports))
        return None if sent.why_not_sent() else sent

    def draw(self, found: tuple[Pair, Answer]) -> Iterator[Event]:
        """Random packets of a range of services between two hosts with prefixes."""
        pair, each = found
        ends = [self.traffic.at.get(name or '', []) for name in pair]
        protocols = [number for number in (ICMP, TCP, UDP, *BARE) if each['low'][0] <= number <= each['high'][0]]
        if not all(ends) or not protocols:
            return
        for _ in range(DRAWN):
            protocol = self.chance.choice(protocols)
            low = each['low'][1] if protocol == each['low'][0] else 0
            high = each['high'][1] if protocol == each['high'][0] else 2 ** 16 - 1
            source, destination = (str(ipaddress.IPv4Address(self.chance.randint(int(prefix[0]), int(prefix[-1]))))
                                   for prefix in (self.chance.choice(prefixes) for prefixes in ends))
            sent = self.sendable(Event(False, source, destination, protocol,
                                       (self.chance.randrange(2 ** 16), self.chance.randint(low, high))))
            if sent:
                yield sent

    def expect(self, what: str, theirs: bool, ours: bool) -> None:
        self.counts['packets'] += 1
        if ours != theirs:
            self.wrong.append(f'{self.name}: {what}: the kernel {"forwards" if ours else "drops"} it')

    def run(self, kernel: Kernel) -> None:
        """Compares all answers with a kernel."""
        kernel.load(self.rules)
        self.compare_shown(kernel)
        self.compare_drawn(kernel)
        self.compare_differences(kernel)
        self.compare_other_pairs(kernel)
        self.compare_without_dead(kernel)

    def compare_shown(self, kernel: Kernel) -> None:
        """A packet that a range shows passes, or does not."""
        for pair, each in self.ranges():
            for key, passes in (('passes', True), ('drops', False)):
                sent = self.sendable(event_of(each[key])) if each[key] else None
                if sent:
                    self.expect(f'flows: {pair}, {key}, {sent.text()}', passes, kernel.opens(sent))
        self.counts['flows'] += 1

    def compare_drawn(self, kernel: Kernel) -> None:
        """A random packet passes if its service is listed as whole, and not if its service is not listed."""
        policy = self.policy()
        for event in [*self.openers, *self.corners, *self.drawn]:
            pair, service = self.pair(policy, event), [event.protocol, event.ports[1]]
            listed = [each for other, each in self.ranges() if other == pair and each['low'] <= service <= each['high']]
            if not listed or listed[0]['whole']:
                self.expect(f'flows: {pair}, {event.text()}', bool(listed), kernel.opens(event))

    def compare_differences(self, kernel: Kernel) -> None:
        """The last packet of a listed difference has the verdict that is listed, and the policy expects the other."""
        for each in self.differences:
            found = [self.sendable(Event.read(line)) for line in each['events']]
            events = [event for event in found if event]
            if len(events) < len(found):
                continue
            forwarded, policy = kernel.replay(events), self.policy()
            expected = [policy.expects(event) for event in events]
            self.expect(f'compare: {each}', each['rules'] == 'forward', forwarded[-1])
            self.expect(f'compare: {each}, as the policy expects', not expected[-1], forwarded[-1])
            self.counts['listed differences'] += 1

    def compare_other_pairs(self, kernel: Kernel) -> None:
        """A packet of a pair without listed differences has the verdict that the policy expects."""
        listed = {(each['from'], each['to']) for each in self.differences}
        for events in self.lists():
            policy = self.policy()
            for event, forwarded in zip(events, kernel.replay(events)):
                expected = policy.expects(event)
                if self.pair(policy, event) not in listed:
                    self.expect(f'compare: {event.text()} of {[each.text() for each in events]}', expected, forwarded)

    def lists(self) -> Iterator[list[Event]]:
        """A random list, and short ones: a packet after its answer, and after itself and its answer."""
        yield self.events
        for event in self.corners:
            yield [event.answer(), event]
            yield [event, event.answer(), event]

    def compare_without_dead(self, kernel: Kernel) -> None:
        """Without the dead rules all packets have the same verdicts."""
        if not self.flows['dead']:
            return
        before = list(map(kernel.replay, self.lists()))
        kernel.load(without(self.rules, self.flows['dead']))
        for events, forwarded in zip(self.lists(), before):
            for event, first, again in zip(events, forwarded, kernel.replay(events)):
                self.expect(f'flows: without the dead rules, {event.text()}', first, again)
        self.counts['flows with dead rules'] += 1


def event_of(shown: Answer) -> Event:
    return Event(False, shown['src'], shown['dst'], shown['proto'], (shown['sport'], shown['dport']))


def without(text: str, dead: list[Answer]) -> str:
    """Returns the rule set without some rules."""
    gone, lines = {(rule['chain'], rule['rule']) for rule in dead}, []
    numbers: collections.Counter[str] = collections.Counter()
    for line in text.splitlines(True):
        if line.startswith('-A '):
            chain = line.split()[1]
            numbers[chain] += 1
            if (chain, numbers[chain]) in gone:
                continue
        lines.append(line)
    return ''.join(lines)
