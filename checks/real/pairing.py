"""Compares the hosts' own firewalls, on the machines of a description, with the trace of a gateway."""
import random
from collections import Counter
from collections.abc import Iterator

from machines import Machines
from packets import Conversations, Event
from policy import Policy
from trial import Case, Tally, Topos, arrival

# For the control: every rule of both hosts decides one of these packets.
PAIR = """topos = 2
flow = [["a", "b", "tcp/80"], ["b", "a", "udp/53"]]
host = [{ name = "a", at = ["10.0.0.1"] }, { name = "b", at = ["10.0.0.2"] }]
"""
PAIR_EVENTS = """packet 10.0.0.2 10.0.0.1 tcp 80 40000
packet 10.0.0.1 10.0.0.2 udp 53 50000
packet 10.0.0.1 10.0.0.2 tcp 40000 80
packet 10.0.0.2 10.0.0.1 tcp 80 40000
packet 10.0.0.2 10.0.0.1 udp 50000 53
packet 10.0.0.1 10.0.0.2 udp 53 50000
packet 10.0.0.1 10.0.0.2 tcp 40000 81
packet 10.0.0.2 10.0.0.1 udp 50000 54
"""


CHANGES = (('-j DROP', '-j ACCEPT'), ('-j ACCEPT', '-j DROP'), (' -m conntrack --ctstate ESTABLISHED', ''),
           (' accept\n', ' drop\n'), ('ct state established ', ''), ('port 80', 'port 81'), ('port 53', 'port 54'),
           ('10.0.0.', '10.0.1.'))
LOOPBACK = '127.0.0.0/8'
WORDS = {'iptables': ['local'], 'nft': ['local', 'nft']}


class Pairing:
    """A case for the machines of its hosts."""

    def __init__(self, topos: Topos, case: Case) -> None:
        self.case = case
        topos.write('iptables', case)
        with open(case.description, encoding='utf-8') as file:
            self.description = file.read()
        self.printed = topos.answer('policy', case.description)
        policy = self.policy()
        case.keep([event for event in case.events if self.is_sent(event, policy)])
        self.traced = topos.trace('iptables', case)
        self.texts = {dialect: [None if place == policy.rest else topos.answer(*words, case.description, name)
                                for place, name in enumerate(policy.names)] for dialect, words in WORDS.items()}

    def policy(self) -> Policy:
        return Policy(self.description, self.printed)

    def is_sent(self, event: Event, policy: Policy) -> bool:
        sender, receiver = policy.ends(event)
        reason = None
        if sender is None:
            reason = 'no host has the address of the sender'
        elif sender == receiver == policy.rest:
            reason = 'from the rest host to itself'
        if reason and not event.forgets:
            self.case.skipped[f'events, {reason}'] += 1
        return event.forgets or not reason


def try_machines(machines: Machines, pairing: Pairing, tally: Tally, texts: list[str | None] | None = None) -> None:
    case, policy, conversations = pairing.case, pairing.policy(), Conversations()
    whole = pairing.texts[machines.dialect]
    machines.load(texts or whole)
    if not texts and not machines.are_listed(whole):
        tally.differ(case, 'nft lists another text')
    for number, event in enumerate(case.events):
        if event.forgets:
            machines.forget(event)
            policy.forget(event)
            conversations.forget(event)
            tally.counts['forget events'] += 1
            continue
        packet, ends = conversations.packet(event, number + 1), policy.ends(event)
        expected = policy.expects(event)
        arrived = arrival(case, tally, packet, machines.pass_on(packet, event, *ends))
        conversations.saw(event, arrived)
        if machines.enforce(ends):
            tally.compare(case, event, number, pairing.traced[number], arrived)
            if expected != arrived:
                tally.differ(case, f'event {number + 1}: {event.text()}: the policy expects {expected}')
    tally.tried(case)


def try_some_machines(machines: Machines, pairing: Pairing, tally: Tally) -> None:
    """Some hosts have no rules; the packets between them are not compared."""
    chance = random.Random(pairing.case.name)
    whole = pairing.texts[machines.dialect]
    try_machines(machines, pairing, tally, [text if chance.random() < 0.5 else None for text in whole])


def deciding(lines: list[str]) -> Iterator[int]:
    """Yields the places of the rules that decide packets between two hosts: those of IN or OUT, or of a table."""
    chain = ''
    for place, line in enumerate(lines):
        if line.startswith('\tchain '):
            chain = line.split()[1]
        if line.startswith(('-A IN ', '-A OUT ', '\t\t')) and LOOPBACK not in line and not chain.endswith('_loopback'):
            yield place


def changed(text: str) -> Iterator[str]:
    """Yields the text with one rule changed, in each way that has an effect."""
    lines = text.splitlines(True)
    for place in deciding(lines):
        for old, new in CHANGES:
            other = lines[place].replace(old, new)
            if other != lines[place]:
                yield ''.join([*lines[:place], other, *lines[place + 1:]])


def try_changed(topos: Topos, machines: Machines, folder: str) -> int:
    """Changes each rule of one of two hosts in turn, prints a line, and returns how many changes were not found.

    The other host has no machine, since it would drop packets that this one accepts.
    """
    case = Case(folder, f'control-{machines.back_end}', PAIR, [Event.read(line) for line in PAIR_EVENTS.splitlines()],
                Counter())
    pairing, found, missed = Pairing(topos, case), 0, 0
    for host, text in enumerate(pairing.texts[machines.dialect]):
        for other in changed(text or ''):
            tally = Tally('control')
            try_machines(machines, pairing, tally, [other if place == host else None for place in range(2)])
            found, missed = found + bool(tally.differences), missed + (not tally.differences)
    print(f'{machines.version()}: {found} of {found + missed} changed rules make a difference', flush=True)
    return missed
