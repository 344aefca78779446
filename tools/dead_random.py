"""Dead rules of cases, and of random saves, judged by random runs of the rules."""
import random
from collections.abc import Callable

from dead_cases import CASES
from import_random import INTERFACES, Chance, Packet
from topos_tools.flows_dead import dead_rules
from topos_tools.flows_states import readings
from topos_tools.import_pieces import ESTABLISHED, NEW, Action, Rule
from topos_tools.import_save import Save
from topos_tools.import_tables import Interfaces
from topos_tools.query import Programs

DOUBTS = (
    '-m limit --limit 1/hour --limit-burst 2', '-m mark --mark 0x1', '-m mark ! --mark 0x1',
    '-m statistic --mode random --probability 0.5', '-m length --length 0:30', '-m ttl --ttl-gt 60',
    '-m hashlimit --hashlimit-above 1/hour --hashlimit-burst 2 --hashlimit-mode srcip --hashlimit-name a',
    '-m hashlimit --hashlimit-upto 1/hour --hashlimit-burst 2 --hashlimit-mode dstip --hashlimit-name b',
    '-m recent --set --name c --rsource', '-m recent --rcheck --name c --rsource',
    '-m recent ! --rcheck --name c --rsource', '-m connlimit --connlimit-above 1 --connlimit-mask 0 --connlimit-saddr',
    '-m dscp --dscp 0x00', '-m tos --tos 0x00', '-m conntrack --ctorigsrc 10.1.0.0/16', '-m u32 --u32 "6&0xFF=6"',
    '-m connbytes --connbytes 2 --connbytes-dir both --connbytes-mode packets', '-m pkttype --pkt-type unicast',
    '-m length ! --length 0:30')
STATES = ('NEW', 'ESTABLISHED', 'RELATED,ESTABLISHED', 'INVALID', 'RELATED', 'NEW,INVALID', 'UNTRACKED')
ENDS = (('-s 10.1.0.0/16', '-s 10.1.4.0/24', '! -s 10.1.0.0/16'), ('-d 10.2.0.0/16', '-d 10.2.128.0/17'),
        ('-i t1', '! -i t1', '-i t2'), ('-o t2', '! -o t2', '-o t+'))
PACKETS, RUNS = 60, 8  # of a save


class DeadChance(Chance):
    """Draws saves in which rules take all packets of others, surely and in doubt."""
    known: tuple[str, ...] = DOUBTS

    def doubt(self, protocol: str) -> str:
        return super().doubt(protocol) if self.random() < 0.2 else self.choice(self.known)

    def nested_save(self) -> str:
        """Returns a save with wide rules before narrow ones."""
        names = ['FORWARD', *(f'c{number}' for number in range(self.randint(0, 3)))]
        rules = [self.nested_rule(name, names[place + 1:]) for place, name in enumerate(names)
                 for _ in range(self.randint(3, 8))]
        return self.text(names, rules)

    def nested_rule(self, chain: str, later: list[str]) -> str:
        words = [f'-A {chain}', *(self.choice(each) for each in self.sample(ENDS, self.choice((0, 1, 1, 2))))]
        if self.random() < 0.4:
            words.append(self.choice(('-p tcp -m tcp --dport 22', '-p tcp', '-p udp', '-p tcp -m tcp --dport 22:80')))
        if self.random() < 0.25:
            words.append(f'-m conntrack {self.sign()}--ctstate {self.choice(STATES)}')
        if self.random() < 0.35:
            words.append(self.choice(self.known))
        return ' '.join([*words, self.target(later)]).strip()


def judge_cases(judge: Callable[[str, bool], None], programs: Programs) -> None:
    """Compares dead rules with those of cases, under an assumption on TCP that must not matter, and without it."""
    for name, rules, wanted in CASES:
        text = f'*filter\n:FORWARD DROP [0:0]{rules}\nCOMMIT\n'
        for is_syn_first in (False, True):
            save = Save(text, Interfaces(INTERFACES), None, is_syn_first)
            found = {each.rule.line: each.takers for each in dead_rules(programs, text, save)}
            judge(f'dead rules, {name}: {found}\nwanted: {wanted}', found == wanted)


# Runs of the rules.

def matching(rule: Rule, packet: Packet, state: str) -> bool | None:
    """Returns whether a packet matches, or None in doubt."""
    found: bool | None = False
    for piece in rule.pieces:
        factors = (piece.sources, piece.destinations, piece.protocols, piece.source_ports, piece.destination_ports)
        if state in piece.states and all(any(low <= number <= high for low, high in factor)
                                         for number, factor in zip(packet, factors)):
            if not piece.doubts:
                return True
            found = None
    return found


class Run:
    """A run of a save on a packet, in which each doubt falls one way or the other."""

    def __init__(self, save: Save, chance: random.Random, packet: Packet, state: str) -> None:
        self.save, self.chance, self.packet, self.state = save, chance, packet, state
        self.met: set[int] = set()
        self.enter('FORWARD')

    def enter(self, chain: str) -> bool:
        """Returns whether the packet comes back from a chain."""
        for rule in self.save.rules[chain]:
            match = matching(rule, self.packet, self.state)
            if self.chance.random() < 0.5 if match is None else match:
                self.met.add(rule.line)
                if rule.action in (Action.JUMP, Action.GOTO) and not self.enter(rule.target):
                    return False
                if rule.action in (Action.RETURN, Action.GOTO):
                    return True
                if rule.action in (Action.ACCEPT, Action.DROP):
                    return False
                if rule.action is Action.UNKNOWN and self.chance.random() < 0.5:
                    return False
        return True


def met_by_runs(text: str, save: Save, chance: DeadChance) -> set[int]:
    """Returns the lines that packets in all states meet in random runs."""
    met = set[int]()
    for read in readings(text, save):
        for packet in chance.packets(PACKETS):
            for state in (NEW, ESTABLISHED):
                for _ in range(RUNS if any(rule.doubts() for rule in read.all_rules()) else 1):
                    met |= Run(read, chance, packet, state).met
    return met


def judge_runs(judge: Callable[[str, bool], None], programs: Programs, count: int, seed: int) -> None:
    dead = rules = 0
    for number in range(count):
        chance = DeadChance(f'dead {seed} {number}')
        text = chance.nested_save() if number % 2 else chance.save()
        save = Save(text, Interfaces(INTERFACES), None, bool(number % 3))
        found = {each.rule.line: each.takers for each in dead_rules(programs, text, save)}
        met = met_by_runs(text, save, chance) & set(found)
        judge(f'dead {seed} {number}: packets meet lines {met}:\n{text}', not met)
        judge(f'dead {seed} {number}: takers: {found}\n{text}', None not in found.values())
        dead, rules = dead + len(found), rules + len(save.all_rules())
    print(f'dead rules by runs: {count} sets, {dead} of {rules} rules')
