"""Random saves and packets for import-test."""
import random
from collections.abc import Sequence

from topos_tools.import_sets import address_text
from topos_tools.import_words import address

INTERFACES = 't0 rest\nt1 10.1.0.0/16\nt2 10.2.0.0/16\nt3 10.3.0.0/24 10.3.1.0/24\n'
DEVICES = ('t0', 't1', 't2', 't3', 't+')
NETWORKS = (
    '10.1.0.0/16', '10.1.4.0/24', '10.1.4.8/30', '10.2.0.0/16', '10.2.128.0/17', '10.2.7.7/32', '10.3.0.0/24',
    '10.3.0.0/23', '10.0.0.0/8', '198.51.100.0/24', '198.51.100.64/26', '172.20.0.0/16',
    '10.3.1.9/32', '10.1.0.0/28')
PORTS = (22, 53, 80, 443, 1024, 5000, 8080, 65535)
STATES = ('NEW', 'ESTABLISHED', 'RELATED,ESTABLISHED', 'NEW,ESTABLISHED', 'INVALID', 'NEW,RELATED')
DOUBTS = (
    '-m limit --limit 1/hour --limit-burst 3', '-m statistic --mode random --probability 0.5',
    '-m length --length 0:30', '-m ttl --ttl-gt 60', '-m mark --mark 0x1', '-m mark ! --mark 0x1',
    '-m statistic --mode nth --every 2 --packet 0')
TYPES = ('--src-type BROADCAST', '! --src-type BROADCAST', '--src-type UNICAST,LOCAL', '--dst-type MULTICAST',
         '! --dst-type UNICAST', '--src-type UNICAST --dst-type UNICAST')
FLAGS = ('-m tcp --tcp-flags FIN,SYN,RST,ACK SYN', '-m tcp ! --tcp-flags FIN,SYN,RST,ACK SYN')
ICMP = ('8', '! 8', '3', '13', '0', '! 3', '! 0')
TARGETS = ('ACCEPT',) * 3 + ('DROP', 'DROP', 'REJECT', 'RETURN', 'RETURN', 'LOG', '') + ('chain',) * 4
FIRST = '-A FORWARD -m conntrack --ctstate RELATED,ESTABLISHED -j ACCEPT'
Packet = tuple[int, int, int, int, int]  # sender, receiver, protocol and ports


def event(packet: Packet) -> str:
    sender, receiver, *numbers = packet
    return f'packet {address_text(sender)} {address_text(receiver)} ' + ' '.join(map(str, numbers)) + '\n'


def answer(packet: Packet) -> Packet:
    return packet[1], packet[0], packet[2], packet[4], packet[3]


def is_routed(address: int) -> bool:
    """Whether a kernel forwards packets of the address, which is none of a broadcast."""
    return 1 <= address >> 24 <= 223 and address >> 24 != 127 and address & 255 not in (0, 255)


class Chance(random.Random):
    """Draws rules, and packets of networks and ports."""
    networks: Sequence[str] = NETWORKS
    ports: Sequence[int] = PORTS

    def save(self) -> str:
        """Returns a save of 5 to 30 rules, of which up to half have a match in doubt."""
        doubts, names = self.choice((0, 0.2, 0.5)), ['FORWARD', *(f'c{number}' for number in range(self.randint(0, 4)))]
        each = self.randint(5, 30) // len(names)
        rules = [self.rule(name, names[place + 1:], doubts) for place, name in enumerate(names)
                 for _ in range(max(1, each + self.randint(-1, 1)))]
        if self.random() < 0.3:
            rules.insert(0, FIRST)
        return self.text(names, rules)

    def text(self, names: list[str], rules: list[str]) -> str:
        policy = self.choice(('ACCEPT', 'DROP'))
        chains = [f':{name} - [0:0]' for name in names[1:]]
        return '\n'.join(['*filter', f':FORWARD {policy} [0:0]', *chains, *rules, 'COMMIT', ''])

    def rule(self, chain: str, later: list[str], doubts: float) -> str:
        protocol = self.choice(('tcp', 'udp', 'tcp', 'udp', 'icmp', '', '', '', '! tcp', 'esp'))
        words = [f'-A {chain}', *self.ends()]
        if protocol:
            words.append(f'! -p {protocol[2:]}' if protocol[0] == '!' else f'-p {protocol}')
        if protocol in ('tcp', 'udp') and self.random() < 0.8:
            words.append(self.port_match(protocol))
        if self.random() < 0.12:
            words.append(f'-m iprange {self.sign()}--{self.choice(("src", "dst"))}-range {self.range()}')
        if self.random() < 0.1:
            words.append(f'-m addrtype {self.choice(TYPES)}')
        if self.random() < 0.2:
            words.append(f'-m conntrack {self.sign()}--ctstate {self.choice(STATES)}')
        if self.random() < doubts:
            words.append(self.doubt(protocol))
        return ' '.join([*words, self.target(later)]).strip()

    def sign(self, share: float = 0.2) -> str:
        return '! ' if self.random() < share else ''

    def ends(self) -> list[str]:
        """Returns conditions on the networks and the interfaces at both ends."""
        drawn = [(0.35, f'{self.sign()}-s {self.choice(NETWORKS)}'), (0.35, f'{self.sign()}-d {self.choice(NETWORKS)}'),
                 (0.25, f'{self.sign(0.3)}-i {self.choice(DEVICES)}'),
                 (0.25, f'{self.sign(0.3)}-o {self.choice(DEVICES)}')]
        found = [word for share, word in drawn if self.random() < share]
        return found if found or self.random() < 0.3 else [drawn[self.randrange(4)][1]]

    def port_match(self, protocol: str) -> str:
        kind, one, other = self.random(), self.port_range(), self.port_range()
        if kind < 0.3:
            return f'-m {protocol} {self.sign()}--dport {one}'
        if kind < 0.4:
            return f'-m {protocol} {self.sign()}--sport {one} {self.sign()}--dport {other}'
        listed = ','.join(self.port_range() for _ in range(self.randint(1, 4)))
        option = self.choice(('dports', 'sports', 'dports')) if kind < 0.8 else 'ports'
        return f'-m multiport {self.sign()}--{option} {listed}'

    def port_range(self) -> str:
        low, high = sorted(self.choices(PORTS, k=2))
        return f'{low}' if self.random() < 0.5 or low == high else f'{low}:{high}'

    def range(self) -> str:
        low, high = self.network()
        return '-'.join(map(address_text, sorted((self.randint(low, high), self.randint(low, high)))))

    def network(self) -> tuple[int, int]:
        found = address(self.choice(self.networks))
        assert found
        return found[0]

    def doubt(self, protocol: str) -> str:
        if protocol == 'icmp':
            kind = self.choice(ICMP)
            return f'-m icmp ! --icmp-type {kind[2:]}' if kind[0] == '!' else f'-m icmp --icmp-type {kind}'
        return self.choice(DOUBTS + FLAGS * 3 if protocol == 'tcp' else DOUBTS)

    def target(self, later: list[str]) -> str:
        target = self.choice(TARGETS)
        if target == 'chain':
            target = self.choice(later) if later else 'ACCEPT'
        flag = '-g' if target in later and self.random() < 0.25 else '-j'
        return f'{flag} {target}' if target else ''

    def doubtful_save(self) -> str:
        """Returns a save with chains in which half of the rules are in doubt."""
        names = ['FORWARD', *(f'c{number}' for number in range(self.randint(1, 5)))]
        rules = []
        for place, name in enumerate(names):
            later = names[place + 1:]
            for _ in range(self.randint(2, 6)):
                head = self.choice(('', '-s 10.1.0.0/16 ', '! -s 10.1.0.0/16 ', '-d 10.2.0.0/16 ', '-p tcp ',
                                    '-p udp -m udp --dport 53 ', '-p tcp -m multiport --ports 22,80 '))
                doubt = '-m limit --limit 1/hour ' if self.random() < 0.45 else ''
                target = self.choice(('ACCEPT', 'DROP', 'DROP', 'RETURN', 'RETURN', 'LOG', *(later * 4)[:4]))
                if self.random() < 0.05:
                    target = 'NFQUEUE'
                flag = '-g' if target in later and self.random() < 0.3 else '-j'
                rules.append(f'-A {name} {head}{doubt}{flag} {target}')
        return self.text(names, rules)

    def packets(self, count: int) -> list[Packet]:
        """Returns packets of different connections."""
        found: list[Packet] = []
        seen: set[Packet] = set()
        while len(found) < count:
            packet = self.packet()
            if packet[0] != packet[1] and packet not in seen and all(map(is_routed, packet[:2])):
                found.append(packet)
                seen |= {packet, answer(packet)}
        return found

    def packet(self) -> Packet:
        protocol = self.choice((6, 6, 17, 17, 1, 50))
        ports = [0, 0] if protocol in (1, 50) else [self.near_port(), self.near_port()]
        return self.address(), self.address(), protocol, ports[0], ports[1]

    def near_port(self) -> int:
        return min(65535, max(1, self.choice(self.ports) + self.randint(-1, 1)))

    def address(self) -> int:
        low, high = self.network()
        return self.choice((low, high, self.randint(low, high), high + 1, low - 1))
