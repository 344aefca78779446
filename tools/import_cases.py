"""Cases for import-test: rules with what both bounds do, texts that are refused, and wrong translations."""
from typing import NamedTuple

BOTH, DOUBT, NONE = 'both', 'doubt', 'none'  # both bounds forward the packet, upper alone does, none does
ROUTES = ('default via 192.0.2.1 dev eth0 proto static\n10.0.0.0/8 via 10.1.0.1 dev eth1\n'
          '10.1.0.0/24 dev eth2 proto kernel scope link\nblackhole 192.168.0.0/16\n'
          '0:\tfrom all lookup local\n32766:\tfrom all lookup main\n'
          + ''.join(f'net.ipv4.conf.{name}.rp_filter = 1\n' for name in ('all', 'eth0', 'eth1', 'eth2')))
TABLES = ROUTES + ('local 10.1.0.7 dev eth2 table local proto kernel scope host src 10.1.0.7\n'
                   'broadcast 10.2.0.7 dev eth1 table local\ndefault via 192.0.2.9 dev eth9 table 100\n'
                   'net.ipv4.conf.eth9.rp_filter = 1\n')
SETS = ('create a hash:net family inet hashsize 1024 maxelem 65536\nadd a 10.0.0.0/8\nadd a 10.1.0.0/16 nomatch\n'
        'add a 10.1.0.7\ncreate t hash:ip timeout 60\nadd t 10.1.0.7 timeout 5\ncreate p hash:ip,port\n'
        'add p 10.1.0.7,tcp:80\ncreate m hash:ip family inet netmask 24\nadd m 10.1.0.0\n'
        'create b bitmap:ip range 10.1.0.0-10.1.0.255\nadd b 10.1.0.4-10.1.0.8\n'
        'create n hash:ip family inet comment\nadd n 10.1.0.7 comment "nomatch \\"\n'
        'create w bitmap:port range 1-65535\nadd w 80-443\n'
        'create q hash:net,port family inet\nadd q 10.0.0.0/8,tcp:80\nadd q 10.1.0.0/16,tcp:80 nomatch\n'
        'create i hash:ip,port,ip\nadd i 10.1.0.7,tcp:80,8.8.8.8\nadd i 10.1.0.7,icmp:8/0,8.8.8.8\n'
        'add i 10.1.0.7,esp:0,8.8.8.8\ncreate k hash:ip,mark\nadd k 10.1.0.7,0x1\n'
        'create h hash:net,net\nadd h 10.1.0.0/16,8.0.0.0/8\ncreate o hash:net,net\n'
        'add o 10.1.0.0/16,8.0.0.0/8 nomatch\n'
        'create y hash:net,port\nadd y 10.0.0.0/8,icmp:echo-request\nadd y 10.1.0.0/16,icmp:echo-reply nomatch\n')
MAIN = '32766:\tfrom all lookup main\n'
STRICT = ''.join(f'eth{number} rp_filter 1\n' for number in range(3))
E_SAVE = '-A FORWARD ! -i eth0 -o eth2 -p tcp -m tcp --dport 443 -j ACCEPT'  # with the routes of two uplinks
E_ROUTES = 'default via 1.1.1.1 dev eth0\n198.18.0.0/30 dev eth1\n10.0.0.0/8 dev eth2\n'
WEB = '8.8.8.8 10.0.0.9 tcp 4000 443'
MULTIPATH = ('default proto static\n\tnexthop via 192.0.2.1 dev eth0 weight 1\n\tnexthop via 198.51.100.1 dev eth1 '
             'weight 1\n10.0.0.0/8 dev eth2\n' + MAIN + STRICT)
POLICY = (E_ROUTES + 'default via 2.2.2.2 dev eth1 table 201\n100:\tfrom 10.9.0.0/16 lookup 201\n' + MAIN + STRICT)
THROW = ('default dev eth0\n10.0.0.0/8 dev eth2\ndefault dev eth1 table 7\nthrow 10.0.0.0/8 table 7\n'
         '9:\tfrom all lookup 7\n' + MAIN + STRICT)

A, B, C = '10.1.0.7 8.8.8.8 tcp 1 80', '10.2.0.7 8.8.8.8 tcp 1 80', '8.8.8.8 10.1.0.7 tcp 1 80'
SSH, DNS, HIGH = '10.1.0.7 8.8.8.8 tcp 1 22', '10.1.0.7 8.8.8.8 udp 1 53', '10.1.0.7 8.8.8.8 tcp 80 1'
PING, ESP, OTHER = '10.1.0.7 8.8.8.8 icmp 0 0', '10.1.0.7 8.8.8.8 50 0 0', '8.1.1.1 2.2.2.2 icmp 0 0'
NAT = ('\nCOMMIT\n*nat\n-A PREROUTING -p tcp -j DNAT --to-destination 10.1.0.3-10.1.0.7:80\n'
       '-A PREROUTING -j NETMAP --to 10.9.0.0/24')
CAST = '10.1.0.7 224.0.0.9 udp 1 53'
LATER = f'{A};8.8.8.8 10.1.0.7 tcp 80 1'  # the verdict on the last packet counts
LIMIT = '-m limit --limit 1/s'
NOT_SYN = '-A FORWARD -p tcp -m state --state NEW -m tcp ! --tcp-flags FIN,SYN,RST,ACK SYN'


class Case(NamedTuple):
    rules: str
    wanted: dict[str, str]
    routes: str = ''
    sets: str = ''
    syn: bool = False


CASES = (
    Case('-A FORWARD -i eth2 -j ACCEPT', {A: BOTH, B: NONE, C: NONE}, ROUTES),
    Case('-A FORWARD -i eth1 -j ACCEPT', {A: NONE, B: BOTH}, ROUTES),
    Case('-A FORWARD -i eth0 -o eth2 -j ACCEPT', {A: NONE, C: BOTH}, ROUTES),
    Case('-A FORWARD -o eth2 -j ACCEPT', {A: NONE, C: BOTH}, ROUTES),
    Case('-A FORWARD ! -i eth0 -j ACCEPT', {A: BOTH, B: BOTH, C: NONE}, ROUTES),
    Case('-A FORWARD -i eth+ -j ACCEPT', {A: BOTH, C: BOTH}, ROUTES),
    Case('-A FORWARD -i lo -j ACCEPT', {A: NONE, C: NONE}, ROUTES),
    Case('-A FORWARD -i ppp0 -j ACCEPT', {A: DOUBT}, ROUTES),
    Case('-A FORWARD ! -i ppp0 -j DROP\n-A FORWARD -j ACCEPT', {A: DOUBT}, ROUTES),
    Case('-A FORWARD -i eth2 -j ACCEPT', {A: DOUBT, C: DOUBT}),
    Case('-A FORWARD -i eth2 -j ACCEPT', {A: BOTH, B: NONE}, 'eth0 rest\neth2 10.1.0.0/16 # office\n'),
    Case('-A FORWARD -m set --match-set a src -j ACCEPT',
         {A: BOTH, B: BOTH, '10.1.0.8 8.8.8.8 17 1 1': NONE, C: NONE}, sets=SETS),
    Case('-A FORWARD -m set ! --match-set a src -j ACCEPT', {A: NONE, C: BOTH}, sets=SETS),
    Case('-A FORWARD -m set --match-set b dst -j ACCEPT', {A: NONE, C: BOTH}, sets=SETS),
    Case('-A FORWARD -m set --match-set n src -j ACCEPT', {A: BOTH, C: NONE}, sets=SETS),
    Case('-A FORWARD -m set --match-set a src,src -j ACCEPT', {A: DOUBT, C: DOUBT}, sets=SETS),
    Case('-A FORWARD -m set --match-set y src,src -j ACCEPT', {PING: DOUBT}, sets=SETS),
    Case('-A FORWARD -m set ! --match-set y src,src -j ACCEPT', {PING: DOUBT}, sets=SETS),
    *(Case(f'-A FORWARD -m set --match-set {name} src -j ACCEPT', {A: DOUBT}, sets=SETS) for name in 'tpmx'),
    Case('-A FORWARD -m set --match-set a src -j ACCEPT\n-A FORWARD -j SET --add-set a src', {A: DOUBT}, sets=SETS),
    Case('-A FORWARD -s ! 10.1.0.0/255.255.0.0 -j ACCEPT', {A: NONE, B: BOTH}),
    Case('-A FORWARD -s 10.1.0.0/255.0.255.0 -j ACCEPT', {A: DOUBT}),
    Case('-A FORWARD -s 10.1.0.0/16,10.2.0.0/16 -p tcp --dport http -j ACCEPT', {A: BOTH, B: BOTH, C: NONE}),
    Case('-A FORWARD -j ACCEPT -p tcp --dport 80', {A: BOTH, SSH: NONE, DNS: NONE}),
    Case('-A FORWARD -p tcp -m multiport --dports 80,443 -j ACCEPT', {A: BOTH, SSH: NONE, HIGH: NONE}),
    Case('-A FORWARD -p tcp -m multiport ! --dports 80,443 -j ACCEPT', {A: NONE, SSH: BOTH, HIGH: BOTH}),
    Case('-A FORWARD -p tcp -m multiport --ports 80,443 -j ACCEPT', {A: BOTH, SSH: NONE, HIGH: BOTH, DNS: NONE}),
    Case('-A FORWARD -p tcp -m multiport ! --ports 80,443 -j ACCEPT', {A: NONE, SSH: BOTH, HIGH: NONE, DNS: NONE}),
    Case('-A FORWARD -p sctp -m sctp --dport 80 -j ACCEPT', {'10.1.0.7 8.8.8.8 132 1 80': DOUBT, A: NONE}),
    Case('-A FORWARD -p sctp -m multiport --dports 80 -j ACCEPT', {'10.1.0.7 8.8.8.8 132 1 80': DOUBT, A: NONE}),
    Case('-A FORWARD ! -p tcp -j ACCEPT', {A: NONE, DNS: BOTH, ESP: BOTH}),
    Case('-A FORWARD -p gre -j ACCEPT', {'10.1.0.7 8.8.8.8 47 0 0': BOTH, ESP: NONE}),
    Case('-A FORWARD -p ipip -j ACCEPT', {'10.1.0.7 8.8.8.8 94 0 0': BOTH, '10.1.0.7 8.8.8.8 4 0 0': NONE}),
    Case('-A FORWARD -m iprange --src-range 10.1.0.3-10.1.0.7 -j ACCEPT',
         {A: BOTH, B: NONE, '10.1.0.8 1.1.1.1 50 0 0': NONE}),
    Case('-A FORWARD -m iprange ! --src-range 10.1.0.3-10.1.0.7 -j ACCEPT', {A: NONE, B: BOTH}),
    Case('[3:120] -A FORWARD -m comment --comment "a \\" -j DROP" -j ACCEPT', {A: BOTH}),
    Case('-A FORWARD -m comment --comment ! -j ACCEPT', {A: BOTH}),
    Case('-A FORWARD -j NFQUEUE --queue-num 3 --queue-bypass', {A: DOUBT}),
    Case('-A FORWARD -j NFQUEUE --queue-num 3\n-A FORWARD -j ACCEPT', {A: DOUBT}),
    Case('-A FORWARD -j LOG --log-prefix "-j DROP "\n-A FORWARD -j MARK --set-xmark 0x1/0x1\n'
         '-A FORWARD -s 10.1.0.0/16\n-A FORWARD -j ACCEPT', {A: BOTH}),
    Case('-A FORWARD -s 10.1.0.0/16 -j REJECT --reject-with icmp-port-unreachable\n-A FORWARD -j ACCEPT',
         {A: NONE, B: BOTH}),
    Case('-A FORWARD -m string --string "-j DROP" --algo bm -j DROP\n-A FORWARD -j ACCEPT', {A: DOUBT}),
    Case('-A FORWARD -m unheard --of 1 -j ACCEPT', {A: DOUBT}),
    Case('-A FORWARD -m policy --dir in --pol ipsec --reqid 1 --proto esp -j ACCEPT', {A: DOUBT, ESP: DOUBT}),
    Case('-A FORWARD -g c\n-A FORWARD -j ACCEPT\n-A c -s 10.1.0.0/16 -j ACCEPT', {A: BOTH, B: NONE}),
    Case('-A FORWARD -j c\n-A FORWARD -s 10.2.0.0/16 -j ACCEPT\n-A c -g d\n-A c -j ACCEPT\n'
         '-A d -s 10.1.0.0/16 -j ACCEPT', {A: BOTH, B: BOTH, C: NONE}),
    Case('-A FORWARD -j c\n-A FORWARD -j ACCEPT\n-A c -s 10.1.0.0/16 -j RETURN\n-A c -j DROP', {A: BOTH, B: NONE}),
    Case('-A FORWARD -s 10.1.0.0/16 -j RETURN\n-A FORWARD -j ACCEPT', {A: NONE, B: BOTH}),
    Case(f'-A FORWARD -j c\n-A FORWARD -p tcp -j ACCEPT\n-A c {LIMIT} -j RETURN\n-A c -j DROP', {A: DOUBT, DNS: NONE}),
    Case(f'-A FORWARD -j c\n-A FORWARD -j DROP\n-A c {LIMIT} -j RETURN\n-A c -p tcp -j ACCEPT', {A: DOUBT, DNS: NONE}),
    Case(f'-A FORWARD -j c\n-A FORWARD -j ACCEPT\n-A c {LIMIT} -j RETURN\n-A c -p tcp -j DROP', {A: DOUBT, DNS: BOTH}),
    Case(f'-A FORWARD {LIMIT} -j c\n-A FORWARD -p tcp -j ACCEPT\n-A c -j DROP', {A: DOUBT, DNS: NONE}),
    Case(f'-A FORWARD {LIMIT} -j c\n-A FORWARD -p tcp -j DROP\n-A c -j ACCEPT', {A: DOUBT, DNS: DOUBT}),
    Case(f'-A FORWARD {LIMIT} -j c\n-A FORWARD -j ACCEPT\n-A c -j d\n-A c -j ACCEPT\n-A d -p tcp -j DROP',
         {A: DOUBT, DNS: BOTH}),
    Case(f'-A FORWARD {LIMIT} -j DROP\n-A FORWARD -p tcp -j ACCEPT', {A: DOUBT, DNS: NONE}),
    Case(f'-A FORWARD -p tcp {LIMIT} -j ACCEPT\n-A FORWARD -s 10.2.0.0/16 -j ACCEPT', {A: DOUBT, B: BOTH, DNS: NONE}),
    Case(f'{NOT_SYN} -j DROP\n-A FORWARD -j ACCEPT', {A: DOUBT, DNS: BOTH}),
    Case(f'{NOT_SYN} -j DROP\n-A FORWARD -j ACCEPT', {A: BOTH}, syn=True),
    Case('-A FORWARD -p tcp --syn -j ACCEPT', {A: BOTH, DNS: NONE}, syn=True),
    Case('-A FORWARD -p tcp -m tcp --tcp-flags SYN,PSH SYN -j ACCEPT', {A: DOUBT}, syn=True),
    Case('-A FORWARD -p tcp -m tcp --tcp-flags SYN SYN,PSH -j ACCEPT', {A: NONE}, syn=True),
    Case('-A FORWARD -p tcp -m tcp --tcp-flags 0x17 0x02 -j ACCEPT', {A: DOUBT}, syn=True),
    Case('-A FORWARD -p icmp -m icmp --icmp-type 3 -j ACCEPT\n-A FORWARD -p icmp -m icmp --icmp-type any -s 8.0.0.0/8'
         ' -j ACCEPT', {PING: NONE, OTHER: BOTH}),
    Case('-A FORWARD -p icmp -m icmp --icmp-type 8 -j ACCEPT', {PING: DOUBT, A: NONE}),
    Case('-A FORWARD -p icmp -m icmp ! --icmp-type echo-reply -j ACCEPT', {PING: BOTH}),
    Case('-A FORWARD -m state --state RELATED,ESTABLISHED -j ACCEPT\n-A FORWARD -s 10.1.0.0/16 -j ACCEPT',
         {A: BOTH, C: NONE, LATER: BOTH}),
    Case('-A FORWARD -m conntrack ! --ctstate INVALID -j ACCEPT', {A: BOTH}),
    Case('-A FORWARD -m conntrack --ctstate INVALID -j ACCEPT', {A: NONE}),
    Case('-A FORWARD -m conntrack ! --ctstate NEW -j DROP\n-A FORWARD -j ACCEPT', {A: BOTH, LATER: NONE}),
    Case('-A FORWARD -m conntrack --ctstate DNAT -j ACCEPT', {A: DOUBT}),
    Case(f'-A FORWARD -m conntrack --ctstate DNAT -j ACCEPT{NAT}',
         {A: NONE, C: DOUBT, '8.8.8.8 10.1.0.9 udp 1 1': NONE}),
    Case('-A FORWARD -m conntrack --ctstate DNAT -j ACCEPT\nCOMMIT\n*nat\n'
         '-A PREROUTING --jump DNAT --to-destination 10.1.0.7', {A: NONE, C: DOUBT}),
    Case(f'-A FORWARD -m conntrack --ctstate DNAT,SNAT -j ACCEPT{NAT}', {A: DOUBT}),
    Case(f'-A FORWARD -m conntrack ! --ctstate DNAT -j ACCEPT{NAT}', {A: DOUBT}),
    Case(f'-A FORWARD -i eth7 -m state --state NEW,DNAT -j ACCEPT{NAT}', {A: DOUBT}),
    Case(f'-A FORWARD -m conntrack --ctstate DNAT -j ACCEPT{NAT}\n-A PREROUTING -j DNAT --to-destination :80',
         {A: DOUBT}),
    Case(f'-A FORWARD -m state --state ESTABLISHED -j RETURN\n-A FORWARD -m state --state DNAT -j DROP\n'
         f'-A FORWARD -j ACCEPT{NAT}', {C: DOUBT, A: BOTH}),
    Case(f'-A FORWARD -m state --state NEW -j ACCEPT\n-A FORWARD -m state --state DNAT -j ACCEPT{NAT}',
         {f'{C};10.1.0.7 8.8.8.8 tcp 80 1': DOUBT, f'{B};8.8.8.8 10.2.0.7 tcp 80 1': NONE}),
    Case('-A FORWARD -m conntrack --ctstate NEW --ctdir ORIGINAL -j ACCEPT', {A: DOUBT}),
    *(Case(f'-A FORWARD -m conntrack --ctstate NEW -j ACCEPT\nCOMMIT\n*raw\n-A PREROUTING -p udp -j {target}',
           {A: DOUBT, LATER: DOUBT}) for target in ('NOTRACK', 'CT --notrack', 'CT --zone 5')),
    Case("-A FORWARD -m state --state NEW -j ACCEPT\n# Table `raw' is incompatible, use 'nft' tool.", {A: DOUBT}),
    Case(f"-A FORWARD -m state --state DNAT -j ACCEPT{NAT}\n# Table `nat' contains incompatible base-chains",
         {A: DOUBT}),
    Case('-A FORWARD -f -j ACCEPT', {A: DOUBT}),
    Case('-A FORWARD -o old -j ACCEPT', {A: NONE}, ROUTES + 'old none\n'),
    Case('-A FORWARD ! -o old -j ACCEPT', {A: BOTH}, ROUTES + 'old none\n'),
    Case('-A FORWARD -m addrtype --dst-type BROADCAST -j DROP\n-A FORWARD -j ACCEPT', {A: BOTH, CAST: BOTH}),
    Case('-A FORWARD -m addrtype --dst-type UNICAST -j ACCEPT', {A: BOTH, CAST: NONE}),
    Case('-A FORWARD -m addrtype ! --dst-type UNICAST -j ACCEPT', {A: NONE, CAST: BOTH}),
    Case('-A FORWARD -m addrtype --src-type BROADCAST -j DROP\n-A FORWARD -j ACCEPT',
         {A: BOTH, '224.1.1.1 1.1.1.1 6 1 1': BOTH}),
    Case('-A FORWARD -m addrtype --src-type MULTICAST,LOCAL -j ACCEPT', {A: NONE, '224.1.1.1 1.1.1.1 6 1 1': BOTH}),
    Case('-A FORWARD -m addrtype ! --src-type LOCAL --dst-type UNICAST -j ACCEPT', {A: BOTH, CAST: NONE}),
    Case('-A FORWARD -m addrtype --src-type UNICAST --limit-iface-in -j ACCEPT', {A: DOUBT, B: DOUBT}),
    Case('-A FORWARD -m set --match-set a src --return-nomatch -j ACCEPT', {A: DOUBT, B: DOUBT, C: DOUBT}, sets=SETS),
    Case('-A FORWARD -m set ! --match-set a src --packets-gt 5 -j ACCEPT', {A: DOUBT, B: DOUBT, C: DOUBT}, sets=SETS),
    Case('-A FORWARD -m set --match-set a src --return-nomatch -m set --match-set n src -j ACCEPT',
         {A: DOUBT, B: NONE, C: NONE}, sets=SETS),
    Case('-A FORWARD -m addrtype --dst-type LOCAL --limit-iface-in -j ACCEPT', {A: DOUBT}),
    Case('-A FORWARD -s 10.1.0.0/16 -m addrtype ! --dst-type UNICAST --limit-iface-out -j DROP\n-A FORWARD -j ACCEPT',
         {A: DOUBT, B: BOTH}),
    Case('-A FORWARD -m conntrack --ctstate INVALID --ctunheard 1 -j ACCEPT', {A: DOUBT}),
    Case('-A FORWARD -m unheard --of -s 10.2.0.0/16 -j ACCEPT', {A: DOUBT, B: DOUBT}),
    Case('-A FORWARD -p tcp -m unheard --dport 22 -j ACCEPT', {A: DOUBT, DNS: NONE}),
    Case('-A FORWARD -j SYSRQ\n-A FORWARD -j ACCEPT', {A: DOUBT}),
    Case('-A FORWARD -j SYSRQ\n-A FORWARD -j DROP', {A: DOUBT}),
    Case('-A FORWARD -j LOG --log-prefix -j\n-A FORWARD -j ACCEPT', {A: DOUBT}),
    Case('-A FORWARD -m set --match-set w dst -j ACCEPT', {A: BOTH, SSH: NONE, DNS: NONE, ESP: NONE}, sets=SETS),
    Case('-A FORWARD -m set ! --match-set w dst -j ACCEPT', {A: DOUBT, SSH: BOTH, DNS: BOTH, ESP: DOUBT}, sets=SETS),
    Case('-A FORWARD -p tcp -m set ! --match-set w dst -j ACCEPT', {A: NONE, SSH: BOTH, DNS: NONE}, sets=SETS),
    Case('-A FORWARD -m set --match-set p src,dst -j ACCEPT', {A: BOTH, SSH: NONE, B: NONE, HIGH: NONE}, sets=SETS),
    Case('-A FORWARD -m set ! --match-set p src,dst -j ACCEPT', {A: NONE, SSH: BOTH, B: BOTH, ESP: BOTH}, sets=SETS),
    Case('-A FORWARD -m set --match-set p src,src -j ACCEPT', {A: NONE, HIGH: BOTH}, sets=SETS),
    Case('-A FORWARD -m set --match-set q src,dst -j ACCEPT', {A: NONE, B: BOTH, SSH: NONE}, sets=SETS),
    Case('-A FORWARD -m set --match-set i src,dst,dst -j ACCEPT',
         {A: BOTH, SSH: NONE, PING: DOUBT, ESP: BOTH, B: NONE}, sets=SETS),
    Case('-A FORWARD -m set ! --match-set i src,dst,dst -j ACCEPT',
         {A: DOUBT, SSH: BOTH, PING: DOUBT, ESP: DOUBT, B: BOTH}, sets=SETS),
    Case('-A FORWARD -m set --match-set h src,dst -j ACCEPT', {A: BOTH, B: NONE, C: NONE}, sets=SETS),
    *(Case(f'-A FORWARD -m set --match-set {name} src,dst -j ACCEPT', {A: DOUBT}, sets=SETS) for name in 'ko'),
    *(Case(E_SAVE, {WEB: DOUBT}, routes) for routes in (
        E_ROUTES, E_ROUTES + STRICT, E_ROUTES + MAIN, E_ROUTES + MAIN + STRICT.replace('eth1 rp_filter 1', ''),
        E_ROUTES + MAIN + STRICT + 'eth7 rp_filter 2\n', POLICY, 'eth0 rest\neth1 rest\neth2 10.0.0.0/8')),
    Case(E_SAVE, {WEB: NONE}, E_ROUTES + MAIN + STRICT),
    Case('-A FORWARD -i eth2 -o eth0 -j ACCEPT', {A: DOUBT, C: NONE}, MULTIPATH),
    Case('-A FORWARD -i eth2 ! -o eth2 -j ACCEPT', {A: BOTH, C: NONE}, MULTIPATH),
    Case('-A FORWARD -o eth+ -j ACCEPT', {A: BOTH, C: BOTH}, MULTIPATH),
    Case('-A FORWARD -o eth0 -j ACCEPT', {A: DOUBT, C: NONE}, POLICY),
    Case('-A FORWARD -o eth2 -j ACCEPT', {A: NONE, C: DOUBT}, POLICY),
    Case('-A FORWARD -o eth1 -j ACCEPT', {A: BOTH, C: NONE}, THROW),
    Case('-A FORWARD -o eth2 -j ACCEPT', {A: NONE, C: BOTH}, THROW),
    Case('-A FORWARD -o eth1 -j ACCEPT', {A: NONE, C: NONE}, THROW.replace('from all', 'from all to 10.0.0.0/8', 1)),
    Case('-A FORWARD -o eth1 -j ACCEPT', {A: NONE, C: NONE},
         THROW.replace('lookup 7', 'lookup 7 suppress_prefixlength 0')),
    Case('-A FORWARD -o eth2 -j ACCEPT', {A: DOUBT, C: DOUBT}, THROW + '8:\tfrom all fwmark 0x1 lookup 9\n'),
    Case('-A FORWARD -o eth0 -j ACCEPT', {A: DOUBT, C: NONE},
         'default dev eth0 metric 100\ndefault dev eth1 metric 200\n10.0.0.0/8 dev eth2\n' + MAIN + STRICT),
    Case('-A FORWARD -i eth2 -j ACCEPT', {A: BOTH, B: NONE}, TABLES),
    Case('-A FORWARD -p tcp -m tcp --tcp-flags FIN,SYN,PSH FIN,PSH -j DROP\n-A FORWARD -j ACCEPT', {A: BOTH}, syn=True),
    Case('-A FORWARD -p tcp -m tcp --tcp-flags SYN,PSH SYN,PSH -j DROP\n-A FORWARD -j ACCEPT', {A: DOUBT}, syn=True),
    Case(f'-A FORWARD -i eth0 ! -o eth0 -p tcp -m multiport --dports 22,80 {LIMIT} -j c\n'
         '-A c ! -s 8.8.0.0/16 -j DROP\n-A c -m multiport -p tcp --sports 1:5,7 -j ACCEPT',
         {A: NONE, C: DOUBT, B: NONE}, ROUTES),
)

LISTED = ('\nip filter FORWARD 5 4\n  [ meta load l4proto => reg 1 ]\n  [ cmp eq reg 1 0x00000006 ]\n'
          '  [ immediate reg 0 accept ]\n')
DROPS = '  [ immediate reg 0 drop ]\n'
SENDER = '  [ payload load 4b @ network header + 12 => reg 1 ]\n'
NFT_LISTS = (  # what nft lists of a first rule, and whether iptables may have printed another one
    (SENDER + '  [ lookup reg 1 set __set0 0x0 ]\n', True), (SENDER + '  [ cmp eq reg 1 0x0500000a ]\n', False),
    (SENDER + '  [ cmp neq reg 1 0x0500000a ]\n' + SENDER + '  [ cmp neq reg 1 0x0600000a ]\n', True),
    (SENDER + '  [ cmp gte reg 1 0x0500000a ]\n  [ cmp lte reg 1 0x0600000a ]\n', True),
    ('  [ meta load iifname => reg 1 ]\n  [ cmp eq reg 1 0x30687465 ]\n'
     '  [ meta load iif => reg 1 ]\n  [ cmp eq reg 1 0x00000001 ]\n', True),
    ('  [ meta load l4proto => reg 1 ]\n  [ cmp eq reg 1 0x00000000 ]\n', True),
    ('  [ meta load l4proto => reg 1 ]\n  [ cmp eq reg 1 0x00000006 ]\n'
     '  [ payload load 2b @ transport header + 14 => reg 1 ]\n  [ cmp eq reg 1 0x00000500 ]\n', True),
    ('  [ counter pkts 0 bytes 0 ]\n  [ limit rate 5/second burst 5 type packets flags 0x0 ]\n', False))
NFT_RULES = '-A FORWARD -j DROP\n-A FORWARD -p tcp -j ACCEPT'
BAD_NFT_LISTS = (('table ip filter {', 'no table ip filter'),
                 (f'ip filter FORWARD 4\n{DROPS}', 'has 1 rules, and 2 in'),
                 (f'ip filter FORWARD 4\n{DROPS}{LISTED}\nip filter x 6\n', 'the chain x has 1 rules, and 0'))

ODD = ','.join(str(port) for port in range(1, 2000, 2))
EST = '-m state --state ESTABLISHED'
ACCEPTING = (  # whether every established packet is seen to be accepted
    (f'-A FORWARD {EST} -j ACCEPT', True), (f'-A FORWARD -s 10.0.0.0/8 {EST} -j ACCEPT', False), ('', False),
    (f'-A FORWARD -m state --state NEW -j DROP\n-A FORWARD -p tcp -j ACCEPT\n-A FORWARD {EST} -j ACCEPT', True),
    (f'-A FORWARD -p tcp -j DROP\n-A FORWARD {EST} -j ACCEPT', False),
    (f'-A FORWARD {LIMIT} {EST} -j ACCEPT', False), (f'-A FORWARD -j c\n-A c -j LOG\n-A c {EST} -j ACCEPT', True),
    (f'-A FORWARD -p tcp -j c\n-A c {EST} -j ACCEPT', False), (f'-A FORWARD {LIMIT} -j c\n-A c {EST} -j ACCEPT', False),
    (f'-A FORWARD -j c\n-A c -p tcp -j RETURN\n-A c {EST} -j ACCEPT', False),
    (f'-A FORWARD -j c\n-A FORWARD {EST} -j ACCEPT\n-A c -p tcp -j RETURN\n-A c -j ACCEPT', True),
    (f'-A FORWARD -j c\n-A FORWARD {EST} -j ACCEPT\n-A c -p tcp -j RETURN\n-A c -j DROP', False),
    (f'-A FORWARD -p tcp -j RETURN\n-A FORWARD {EST} -j ACCEPT', False),
    (f'-A FORWARD -p tcp -j c\n-A FORWARD {EST} -j ACCEPT\n-A c -p tcp -j ACCEPT', True),
    (f'-A FORWARD -p tcp -j c\n-A FORWARD {EST} -j ACCEPT\n-A c -p tcp -j DROP', False),
    (f'-A FORWARD -j NFQUEUE\n-A FORWARD {EST} -j ACCEPT', False))
SHADOWED = (  # conditions of a rule, those of a rule below, and whether no packet at all meets the second one
    ('', '', True), ('', '-m state --state INVALID,NEW', True), ('-m state --state NEW,ESTABLISHED', '', False),
    ('-m state --state NEW,ESTABLISHED', '-m state --state NEW', True),
    ('-m state --state RELATED,ESTABLISHED', '-m state --state ESTABLISHED,RELATED', True),
    ('-m state --state RELATED,ESTABLISHED', '-m state --state ESTABLISHED,INVALID', False),
    ('-m state ! --state INVALID', '-m state --state NEW,RELATED', True), ('-m state ! --state INVALID', '', False),
    ('-m state --state NEW,ESTABLISHED,DNAT', '-m state --state NEW,DNAT', False),
    ('-p icmp -m icmp ! --icmp-type 3', '-p icmp', False), ('-p icmp', '-p icmp -m icmp ! --icmp-type 3', True),
    ('-p icmp -m icmp ! --icmp-type 3', '-p icmp -m state --state NEW', True))
HEAD = '*filter\n:FORWARD DROP [0:0]\n:c - [0:0]\n'
REFUSED = (
    ('', 'no table filter'), ('*nat\nCOMMIT\n', 'no table filter'), ('iptables -A FORWARD -j DROP\n', 'not in a table'),
    (HEAD, 'no COMMIT'), ('*nat\n' + HEAD + 'COMMIT\n', 'no COMMIT'),
    (f'{HEAD}:c - [0:0]\nCOMMIT\n', 'has one'), (f'{HEAD}:d\nCOMMIT\n', 'without a policy'),
    ('*filter\n:FORWARD - [0:0]\nCOMMIT\n', 'the policy -'),
    ('# Generated by ip6tables-save v1.8.9\n', 'IPv6'), ("# Table `filter' is incompatible\n", 'filter; line 1: Table'),
    *((f'{HEAD}{line}\nCOMMIT\n', cause) for line, cause in (
        ('-A x -j DROP', 'chain x'), ('-I FORWARD -j DROP', 'no line of a save'), ('-A', 'no line of a save'),
        ('[1:2]', 'no line of a save'), ('-A FORWARD -s fe80::/64 -j DROP', 'a wrong value'),
        ('-A FORWARD -s 10.0.0.300 -j DROP', 'a wrong value'), ('-A FORWARD -s 10.0.0.0/33 -j DROP', 'a wrong value'),
        ('-A FORWARD -s ! 10.0.0.1,10.0.0.2 -j DROP', '! before a list'),
        ('-A FORWARD -s 1.1.1.1 -s 1.1.1.2', 'second -s'),
        ('-A FORWARD -p 256 -j DROP', 'a wrong value'), ('-A FORWARD -p nothing -j DROP', 'a wrong value'),
        ('-A FORWARD ! -p all -j DROP', 'all protocols'), ('-A FORWARD -p tcp --dport 65536', 'a wrong value'),
        ('-A FORWARD -p tcp --dport 80:22', 'a wrong value'), ('-A FORWARD -p tcp --dport \u0661', 'a wrong value'),
        ('-A FORWARD -m conntrack --ctstate OPEN -j DROP', 'a wrong value'),
        ('-A FORWARD -m icmp --icmp-type 256', 'wrong'), ('-A FORWARD -m addrtype --src-type HOME', 'a wrong value'),
        ('-A FORWARD -m iprange --src-range 10.0.0.2-10.0.0.1', 'a wrong value'), ('-A FORWARD -g x', 'no user chain'),
        ('-A FORWARD -j INPUT', 'no user chain'), ('-A FORWARD -jACCEPT', 'no option'),
        ('-A FORWARD --jump=ACCEPT', 'no option'),
        ('-A FORWARD --jum ACCEPT', 'a short spelling'), ('-A FORWARD ACCEPT', 'no option'),
        ('-A FORWARD -', 'no option'),
        ('-A FORWARD -j DROP -j ACCEPT', 'second target'), ('-A FORWARD -s', 'missing'), ('-A FORWARD !', 'missing'),
        ('-A FORWARD -m comment --comment "a', 'a quote'), ('-A FORWARD -j c\n-A c -j c', 'cycle'),
        (':d - [0:0]\n-A FORWARD -j c\n-A c -j d\n-A d -g c', 'cycle'),
        (f'-A FORWARD -j c\n-A c -p tcp -m multiport --ports {ODD} -m iprange --src-range 1.0.0.1-223.255.255.254'
         ' -m iprange --dst-range 1.0.0.1-223.255.255.254 -j RETURN', 'would be written'))))
BAD_SETS = ('eth0 rest', '"" x', 'flush a')
BAD_TABLES = ('eth0', 'eth0 10.0.0.0/33', 'eth0 x', 'default dev')

# Each replaces code by other code, in a module of topos_tools. The test has to fail.
WRONG = (
    ('multiport without !', 'options',
     'given = complement(numbers, greatest) if self.is_negated else numbers', 'given = numbers'),
    ('iprange is one short', 'words', 'return (bounds,)', 'return ((bounds[0], bounds[1] - 1),)'),
    ('-o is the sender', 'options', "reader.read_interface('destinations', given)",
     "reader.read_interface('sources', given)"),
    ('--ports asks for both', 'options',
     'restricted(with_source if self.is_negated else self.pieces,', 'restricted(with_source,'),
    ('! --ports asks for one', 'options', 'self.pieces = of_destination if self.is_negated else',
     'self.pieces ='),
    ('goto continues below', 'bounds', ", Step(rule, returned, '', rule.pieces)]", ']'),
    ('RETURN of FORWARD returns', 'bounds', "policy if chain == 'FORWARD' else Action.RETURN", 'Action.DROP'),
    ('a doubt is forgotten', 'options',
     'self.doubt(match.text())', 'pass'),
    ('an option that is not known is a further condition', 'parse',
     'return self.name in MATCHES and not self.unknown and', 'return self.name in MATCHES and'),
    ('an option behind one that is not known is sure', 'parse',
     'if any(match.unknown for match in self.matches):', 'if False:'),
    ('SYSRQ continues', 'table', 'ACCOUNT LOGMARK', 'ACCOUNT LOGMARK SYSRQ'),
    ('a loose interface has the senders of its routes', 'tables', 
     'self.behind(pattern, frozenset(self.open_names()))', 'self.behind(pattern, frozenset())'),
    ('other tables of routes are not used', 'tables', 'yield Rule(0, ALL_ADDRESSES, False, \'\')', 'pass'),
    ('a rule of routing for some is one for all', 'routes', "not left.strip() and bool(table)", 'True'),
    ('throw ends the rules', 'routes', 'goes_on = goes_on or route.is_throw', 'pass'),
    ('a port of a set is one of each protocol', 'ipset', 'is_sure = number in WITH_PORTS', 'is_sure = True'),
    ('an exception for a type of ICMP is one for all', 'ipset',
     "'nomatch' in options and (SERVICE, ICMP_TYPE) in zip(found.dimensions(), entry)", 'False'),
    ('the members of a set are no members', 'ipset', 'complement(numbers, greatest[0]) if is_negated else numbers',
     'numbers'),
    ('a misread rule is as printed', 'save', 'if rule.line not in self.misread:', 'if True:'),
    ('a RETURN in doubt is sure', 'bounds', 'if any(map(self.takes, self.steps[chain][place + 1:])):', 'if False:'),
    ('a RETURN in doubt is left out', 'bounds',
     'elif copy.is_plain:\n            self.write', 'elif False:\n            self.write'),
    ('a chain in doubt gives both verdicts', 'bounds',
     'self.name(Copy(step.target, False))', 'self.name(Copy(step.target, True))'),
    ('a jump in doubt is left out', 'bounds',
     'elif self.may_take[step.target]:', 'elif is_sure and self.may_take[step.target]:'),
    ('a copy in doubt gives both verdicts', 'bounds', 'self.other if copy.is_plain else Action.RETURN', 'self.other'),
    ('both verdicts are taken in doubt', 'bounds',
     'if is_sure:\n                self.add(name, piece, self.other',
     'if True:\n                self.add(name, piece, self.other'),
    ('no verdict is taken in doubt', 'bounds',
     'if step.action is self.taken:', 'if step.action is self.taken and is_sure:'),
    ('no copy differs', 'bounds',
     'self.is_same[chain] = all(map(self.stays, self.steps[chain]))', 'self.is_same[chain] = True'),
    ('NFQUEUE accepts', 'bounds', "pieces = in_doubt(rule.pieces, f'target {rule.target}')", 'pieces = rule.pieces'),
    ('exceptions are left out', 'text', "self.add_line(helper, (exception,), 'RETURN', rule, ())", 'pass'),
    ('INVALID is new', 'options',
     'matching = frozenset(BOTH & names)',
     "matching = frozenset(BOTH & names | ({NEW} if 'INVALID' in names else set()))"),
    ('a query of ICMP is sure', 'options',
     "split_states(BOTH - unsure if self.is_negated else frozenset(), unsure, f'icmp",
     "split_states(BOTH, frozenset(), f'icmp"),
    ('the policy is ACCEPT', 'text', "f':FORWARD {self.policy} [0:0]'", "':FORWARD ACCEPT [0:0]'"),
    ('options behind a target are skipped', 'parse',
     'if self.action is not Action.CONTINUE and self.action is not Action.UNKNOWN:', 'if False:'),
    ('the shortest prefix has an address', 'routes', 'in reversed(above):', 'in above:'),
    ('nomatch is taken first', 'ipset', 'entry[0][0] - entry[0][1]', 'entry[0][1] - entry[0][0]'),
    ('a mask of a set is forgotten', 'ipset', 'WITH_VALUE = {', "WITH_VALUE = {'netmask', "),
    ('a changed set is sure', 'save', "replace(each, cause='a rule changes it') if name in changed else each", 'each'),
    ('untracked packets have a state', 'save', 'any(each.changes_tracking() for each in self.others)', 'False'),
    ('ports of SCTP are forgotten', 'options', "self.doubt(f'{given.name} {given.values[0]}')\n        return None",
     'return None'),
    ('a flag of a later packet is decided', 'options',
     'or may_match and masked - DECIDED_FLAGS:', 'and masked - DECIDED_FLAGS:'),
    ('another flag keeps a first packet from matching', 'options', 'wanted & DECIDED_FLAGS', 'wanted'),
    ('the type of a sender is that of a receiver', 'options', "read_address_type('sources', given)",
     "read_address_type('destinations', given)"),
    ('the answers of written receivers are forgotten', 'options',
     "self.pieces += restricted(in_states(before, unsure & {ESTABLISHED}), 'sources', receivers)", 'pass'),
    ('a rule of nat that is not read writes no receiver', 'nat', 'return ALL_ADDRESSES', 'return ()'),
    ('without the table nat no receiver is written', 'save',
     "if 'nat' in tables.names - tables.unread else ALL_ADDRESSES", ''),
    ('a multicast address is UNICAST', 'types', 'complement(MULTICAST, MOST_ADDRESS)', 'complement((), MOST_ADDRESS)'),
)
