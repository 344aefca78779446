"""Random saves, sets, routes and rules of nft for import-kernel-test: of all matches that IMPORT names."""
from collections.abc import Iterable

from import_random import DEVICES, NETWORKS, PORTS, STATES, Chance

MATCHES = (  # further conditions, each with the protocol that it needs
    ('', '-m limit --limit 1/hour --limit-burst 3'), ('', '-m mark --mark 0x1'), ('', '-m mark ! --mark 0x1'),
    ('', '-m mac --mac-source 00:11:22:33:44:55'), ('', '-m recent --set --name r --rsource'),
    ('', '-m recent ! --rcheck --name r --rsource'), ('', '-m string --string abc --algo bm'),
    ('', '-m string ! --string -s --algo bm'), ('', '-m time --timestart 00:00:00 --timestop 12:00:00'),
    ('', '-m hashlimit --hashlimit-above 1/hour --hashlimit-burst 2 --hashlimit-mode srcip --hashlimit-name h'),
    ('', '-m connlimit --connlimit-above 1 --connlimit-mask 8'), ('', '-m connmark ! --mark 0x1'),
    ('', '-m length --length 0:30'), ('', '-m ttl --ttl-gt 60'), ('', '-m tos ! --tos 0x10'), ('', '-m dscp --dscp 0'),
    ('', '-m statistic --mode random --probability 0.5'), ('', '-m physdev ! --physdev-in t1'),
    ('', '-m pkttype --pkt-type unicast'), ('', '-m policy --dir in --pol none'), ('', '-m quota --quota 1000'),
    ('', '-m u32 --u32 "0>>28=4"'), ('', '-m helper --helper ftp'), ('', '-m realm ! --realm 1'),
    ('', '-m connbytes --connbytes 2: --connbytes-mode packets --connbytes-dir both'), ('', '-m cpu --cpu 0'),
    ('', '-m devgroup --src-group 0'), ('', '-m bpf --bytecode "1,6 0 0 65535"'), ('', '-m ecn --ecn-ip-ect 0'),
    ('tcp', '-m tcp --tcp-option 5'), ('tcp', '-m tcp ! --tcp-option 5'), ('tcp', '-m tcpmss --mss 0:500'),
    ('tcp', '-m tcp --tcp-flags SYN,PSH SYN'), ('tcp', '-m tcp --dport 80 --tcp-flags FIN,SYN,RST,ACK SYN'),
    ('tcp', '-m ecn --ecn-tcp-cwr'), ('tcp', '-m osf --genre Linux'), ('sctp', '-m sctp --dport 80'),
    ('esp', '-m esp --espspi 0:500'), ('udp', '-m udp ! --sport 1024:65535'), ('icmp', '-m icmp --icmp-type 8/0'),
    ('icmp', '-m icmp ! --icmp-type 8'), ('icmp', '-m icmp --icmp-type any'),
    ('', '-m addrtype --dst-type UNICAST --limit-iface-in'), ('', '-m addrtype ! --dst-type LOCAL --limit-iface-out'),
    ('', '-m addrtype --src-type UNICAST --limit-iface-in'), ('', '-m addrtype ! --src-type LOCAL'),
    ('', '-m addrtype --dst-type MULTICAST,UNICAST'), ('', '-m comment --comment "-j DROP -s 1.2.3.4"'),
    ('', '-m conntrack --ctstate NEW --ctdir ORIGINAL'), ('', '-m conntrack --ctstate NEW --ctdir REPLY'),
    ('', '-m conntrack ! --ctstate NEW ! --ctproto 6'), ('', '-m conntrack --ctorigsrc 10.1.0.0/16'),
    ('', '-m conntrack ! --ctorigdst 10.2.0.0/16 --ctstate NEW,ESTABLISHED'), ('', '-m conntrack --ctstatus NONE'),
    ('', '-m conntrack --ctstatus SEEN_REPLY --ctstate ESTABLISHED'), ('', '-m conntrack --ctstate DNAT'),
    ('', '-m conntrack ! --ctstate SNAT'), ('', '-m state --state NEW,RELATED'), ('', '-m state ! --state INVALID'),
    ('tcp', '-m conntrack --ctorigdstport 80'), ('', '-f'), ('', '! -f'))
TARGETS = (
    *('-j ACCEPT',) * 8, *('-j DROP',) * 8, *('-j RETURN',) * 3, '', '-j REJECT',
    '-j REJECT --reject-with icmp-host-prohibited', '-j LOG --log-prefix "-j DROP"', '-j LOG --log-prefix -j',
    '-j MARK --set-xmark 0x1/0xffffffff', '-j CONNMARK --save-mark', '-j NFLOG --nflog-group 3', '-j TRACE',
    '-j AUDIT --type drop', '-j CLASSIFY --set-class 1:1', '-j NFQUEUE --queue-num 3 --queue-bypass',
    '-j NFQUEUE --queue-num 3')
SET_OPTIONS = ('--return-nomatch', '--return-nomatch', '--packets-gt 1', '--packets-gt 5', '--packets-eq 0',
               '--bytes-lt 50', '! --update-counters', '! --packets-lt 2', '! --bytes-eq 9')
NFT_CONDITIONS = (
    'ip saddr {network}', 'ip saddr != {network}', 'ip daddr {network}', 'ip saddr { {host}, {other} }',
    'ip daddr != { {host}, {other} }', 'ip saddr {host}-10.3.255.255', 'ip daddr > {host}',
    'ip saddr & 255.0.255.0 == 10.0.4.0', 'ip saddr & 255.0.0.0 == 10.0.0.1', 'ip protocol { tcp, udp }',
    'ip protocol tcp', 'ip protocol != udp', 'ip protocol > 6', 'ip protocol 0', 'meta l4proto tcp',
    'meta l4proto 6-17', 'meta l4proto != { tcp, icmp }', 'tcp dport {port}', 'tcp dport != {port}',
    'tcp dport 22-80', 'tcp dport > {port}', 'tcp dport { 22, 80 }', 'tcp sport {port}',
    'tcp sport {port} tcp dport {port}', 'udp dport {port}', 'udp length 20', 'tcp window 8192', 'tcp flags syn',
    'tcp flags & (syn|ack) == syn', 'icmp type 8', 'icmp type { 8, 0 }', 'iifname {device}', 'iifname != {device}',
    'oifname {device}', 'iifname { t1, t2 }', 'iif {device}', 'oif != {device}', 'meta mark 0', 'meta mark != 1',
    'meta mark { 0, 1 }', 'ip ttl > 60', 'ip frag-off 0', 'ip frag-off & 0x1fff == 0', 'meta pkttype unicast',
    'limit rate 5/second', 'counter', 'ip saddr . ip daddr { {host} . {other} }',
    'ip saddr . tcp dport { {host} . 80 }', 'meta protocol ip', 'ip length 40', 'ct state new')
NFT_VERDICTS = ('accept', 'drop', 'return', 'jump X', 'goto X', 'counter drop', 'counter accept', '')
NFT_MAPS = ('ip saddr vmap { {host} : accept, {other} : drop }', 'tcp dport vmap { 22 : accept, 80 : drop }')


class Wide(Chance):
    """Draws rules with one to four matches of those that the back end takes."""
    matches: Iterable[tuple[str, str]] = ()
    targets: Iterable[str] = ()
    sets: Iterable[tuple[str, str]] = ()  # names and directions
    kinds: Iterable[str] = ()  # types of sets that the kernel has
    theme = ''  # what most rules have: sets, interfaces, or any matches

    def save(self) -> str:
        self.theme = self.choice(('sets', 'sets', 'interfaces', '', ''))
        if self.theme == 'sets':
            nets = [each for each in self.sets if each[0] == 's1']  # of networks, whose exceptions an option matches
            self.sets = [*nets, *nets, *self.sample(list(self.sets), min(2, len(list(self.sets))))]
        return super().save()

    def rule(self, chain: str, later: list[str], doubts: float) -> str:
        if self.theme and self.random() < 0.6:
            return f'-A {chain} {self.narrow()} -j {self.choice(("ACCEPT", "ACCEPT", "DROP", *later))}'
        protocol = self.choice(('tcp', 'tcp', 'udp', 'icmp', 'esp', 'sctp', '', '', '', '', '! udp'))
        words = [f'-A {chain}', *(self.ends() if self.random() < 0.6 else [])]
        if protocol:
            words.append(f'! -p {protocol[2:]}' if protocol[0] == '!' else f'-p {protocol}')
        count = self.choice((1, 1, 2, 2, 3, 4))
        words += [self.match(protocol) for _ in range(count)]
        target = f'-{self.choice("jjjg")} {self.choice(later)}' if later and self.random() < 0.2 else (
            self.choice(list(self.targets)))
        return ' '.join(filter(None, [*words, target]))

    def narrow(self) -> str:
        """Returns a condition on a set alone, or on interfaces."""
        if self.theme == 'sets' and self.sets:
            return self.set_match()
        ends = [f'{self.sign(0.3)}-{end} {self.choice(DEVICES)}' for end in self.choice(('i', 'i', 'o', 'io'))]
        return ' '.join(ends)

    def match(self, protocol: str) -> str:
        kind = self.random()
        if kind < 0.25 and self.sets:
            return self.set_match()
        if kind < 0.4 and protocol in ('tcp', 'udp'):
            return self.port_match(protocol)
        if kind < 0.5:
            return f'-m iprange {self.sign()}--{self.choice(("src", "dst"))}-range {self.range()}'
        if kind < 0.6:
            return f'-m conntrack {self.sign()}--ctstate {self.choice(STATES)}'
        return self.choice([match for needs, match in self.matches if needs in ('', protocol)])

    def set_match(self) -> str:
        name, directions = self.choice(list(self.sets))
        drawn = ','.join(self.choice(('src', 'dst')) for _ in directions)
        option = f' {self.choice(SET_OPTIONS)}' if self.random() < (0.6 if self.theme else 0.3) else ''
        return f'-m set {self.sign(0.4)}--match-set {name} {drawn}{option}'

    # Sets.

    def sets_text(self) -> str:
        """Returns sets of each type with random options and entries, for `ipset -exist restore`."""
        lines = []
        for place, (kind, parts) in enumerate((kind, SET_KINDS[kind]) for kind in self.kinds):
            options = [option for option in SET_EXTRAS.get(kind, ()) + SET_SHARED if self.random() < 0.15]
            options += [self.choice(('timeout 0', 'timeout 100'))] * (self.random() < 0.1)
            lines.append(f'create s{place} {kind} {" ".join([*SET_HEADS.get(kind, ()), *options])}')
            for _ in range(self.randint(1, 2 if kind == 'hash:mac' else 6)):
                entry = ','.join(getattr(self, f'{part}_part')() for part in parts)
                is_exception = 'net' in parts and self.random() < 0.4
                lines.append(f'add s{place} {entry}{" nomatch" if is_exception else ""}')
        lines.append('create s99 list:set')
        lines += [f'add s99 s{place}' for place in self.sample(range(3), 2)]
        return '\n'.join(lines) + '\n'

    def ip_part(self) -> str:
        return self.host()

    def local_part(self) -> str:
        return f'10.1.{self.choice((0, 4))}.{self.randint(0, 255)}'

    def net_part(self) -> str:
        return self.choice(NETWORKS)

    def port_part(self) -> str:
        return self.choice(('tcp:', 'udp:', 'tcp:')) + str(self.choice(PORTS)) if self.random() < 0.8 else (
            self.choice(('icmp:8/0', 'icmp:echo-reply', 'sctp:80', 'esp:0', '47:0')))

    def number_part(self) -> str:
        return str(self.choice(PORTS))

    def range_part(self) -> str:
        low, high = sorted(self.choices(range(256), k=2))
        return f'10.1.4.{low}-10.1.4.{high}'

    def mark_part(self) -> str:
        return '0x1'

    def mac_part(self) -> str:
        return '00:11:22:33:44:55'

    def iface_part(self) -> str:
        return self.choice(DEVICES[:4])

    def host(self) -> str:
        from topos_tools.import_sets import address_text
        low, high = self.network()
        return address_text(self.choice((low, high, self.randint(low, high))))

    # Routes.

    def routing(self) -> list[str]:
        """Returns commands for `ip -batch`: routes of three tables, and rules."""
        lines = [f'route flush table {table}' for table in ('main', '100', '200')]
        lines += ['rule flush', 'rule add pref 32766 lookup main', 'rule add pref 32767 lookup default']
        lines += [f'route add default {self.way()} table main'] * (self.random() < 0.9)
        for table in ('main', 'main', 'main', '100', '100', '200'):
            lines += [self.route(table) for _ in range(self.randint(0, 3))]
        return lines + [self.routing_rule() for _ in range(self.choice((0, 0, 1, 2, 4)))]

    def way(self) -> str:
        if self.random() < 0.15:
            return ' '.join(f'nexthop dev {name}' for name in self.sample(DEVICES[:4], 2))
        return f'dev {self.choice(DEVICES[:4])}'

    def route(self, table: str) -> str:
        network = self.choice((*NETWORKS, 'default'))
        if self.random() < 0.12:
            return f'route add {self.choice(("throw", "blackhole", "unreachable", "prohibit"))} {network} table {table}'
        extra = self.choice(('', '', '', '', ' tos 0x10', f' metric {self.randint(1, 9)}'))
        return f'route add {network}{extra} {self.way()} table {table}'

    def routing_rule(self) -> str:
        network, other = self.choice(NETWORKS), self.choice(NETWORKS)
        selector = self.choice((f'from {network}', f'to {network}', f'iif {self.choice(DEVICES[:4])}', 'fwmark 0x1',
                                'tos 0x10', f'not from {network}', 'from all', f'from {network} to {other}',
                                'ipproto tcp'))
        action = self.choice(('lookup 100', 'lookup 200', 'lookup 100', 'lookup main suppress_prefixlength 0',
                              'lookup 100 suppress_prefixlength 16', 'goto 32766', 'blackhole', 'lookup 77'))
        return f'rule add pref {self.randint(1, 300)} {selector} {action}'

    # Tables of nft.

    def rule_of_iptables(self) -> str:
        return f'-A FORWARD -s {self.choice(NETWORKS)} -p tcp -m tcp --dport {self.choice(PORTS)} -j X'

    def nft_rules(self) -> list[str]:
        return [f'add rule ip filter {self.choice(("FORWARD", "FORWARD", "X"))} {self.nft_rule()}'
                for _ in range(self.randint(1, 4))]

    def nft_rule(self) -> str:
        if self.random() < 0.1:
            return self.filled(self.choice(NFT_MAPS))
        words = [self.filled(self.choice(NFT_CONDITIONS)) for _ in range(self.choice((1, 1, 2)))]
        return ' '.join([*words, self.choice(NFT_VERDICTS)])

    def filled(self, text: str) -> str:
        while '{port}' in text:
            text = text.replace('{port}', str(self.choice(PORTS)), 1)
        return (text.replace('{network}', self.choice(NETWORKS)).replace('{host}', '10.1.4.8')
                .replace('{other}', '10.2.7.7').replace('{device}', self.choice(DEVICES[:4])))


SET_KINDS = {
    'hash:ip': ('ip',), 'hash:net': ('net',), 'bitmap:ip': ('range',), 'bitmap:port': ('number',),
    'hash:ip,port': ('ip', 'port'), 'hash:net,port': ('net', 'port'), 'hash:ip,port,ip': ('ip', 'port', 'ip'),
    'hash:ip,port,net': ('ip', 'port', 'net'), 'hash:net,net': ('net', 'net'),
    'hash:net,port,net': ('net', 'port', 'net'), 'hash:ip,mark': ('ip', 'mark'), 'hash:net,iface': ('net', 'iface'),
    'hash:mac': ('mac',), 'hash:ip,mac': ('ip', 'mac'), 'bitmap:ip,mac': ('local', 'mac')}
SET_HEADS = {
    'bitmap:ip': ('range 10.1.4.0/24',), 'bitmap:port': ('range 0-65535',), 'bitmap:ip,mac': ('range 10.1.0.0/16',)}
SET_EXTRAS = {'hash:ip': ('netmask 24',), 'bitmap:ip': ('netmask 28',)}
SET_SHARED = ('counters', 'comment', 'skbinfo')
