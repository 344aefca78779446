"""Rules of FORWARD, and which of them are dead: the lines, with those of the rules that take their packets.

The rules begin at line 3, below `*filter` and the policy; a line `:NAME` declares a chain and counts.
"""

# The first case is one that was wrong: each of both bounds has no packet for line 5, and a kernel has.
CASES: list[tuple[str, str, dict[int, list[int]]]] = [
    ('matches in doubt of opposite verdicts', '''
-A FORWARD -p tcp -m hashlimit --hashlimit-above 200/sec --hashlimit-mode srcip --hashlimit-name x -j DROP
-A FORWARD -p tcp -m mark --mark 0x1 -j ACCEPT
-A FORWARD -d 192.0.2.20/32 -p tcp -m tcp --dport 21 -j ACCEPT''', {}),
    ('a sure match', '''
-A FORWARD -p tcp -m mark --mark 0x1 -j ACCEPT
-A FORWARD -d 192.0.2.0/24 -p tcp -j DROP
-A FORWARD -d 192.0.2.20/32 -p tcp -m tcp --dport 21 -j ACCEPT''', {5: [4]}),
    ('a dead rule in doubt', '''
-A FORWARD -d 192.0.2.0/24 -j DROP
-A FORWARD -d 192.0.2.20/32 -m mark --mark 0x1 -j ACCEPT''', {4: [3]}),
    ('two rules that take the packets', '''
-A FORWARD -s 10.0.0.0/9 -j ACCEPT
-A FORWARD -s 10.128.0.0/9 -p tcp -j ACCEPT
-A FORWARD -s 10.128.0.0/9 -j DROP
-A FORWARD -s 10.0.0.0/8 -p tcp -j DROP
-A FORWARD -s 10.0.0.0/8 -p udp -j DROP''', {6: [3, 4], 7: [3, 5]}),
    ('a return in doubt', '''
:c - [0:0]
-A FORWARD -s 10.0.0.0/8 -j c
-A FORWARD -s 10.1.0.0/16 -j ACCEPT
-A c -m limit --limit 1/hour -j RETURN
-A c -j DROP
-A c -s 10.1.0.0/16 -j ACCEPT''', {8: [7]}),
    ('a sure return', '''
:c - [0:0]
-A FORWARD -s 10.0.0.0/8 -j c
-A FORWARD -s 10.1.0.0/16 -j ACCEPT
-A FORWARD -s 10.2.0.0/16 -j ACCEPT
-A c -s 10.1.0.0/16 -j RETURN
-A c -j DROP
-A c -s 10.1.0.0/16 -j ACCEPT''', {6: [8], 9: [7]}),
    ('a jump in doubt', '''
:c - [0:0]
-A FORWARD -m mark --mark 0x1 -j c
-A FORWARD -s 10.1.0.0/16 -j ACCEPT
-A c -j DROP
-A c -s 10.1.0.0/16 -j ACCEPT''', {7: [6]}),
    ('a jump in doubt to a chain of jumps', '''
:c - [0:0]
:d - [0:0]
-A FORWARD -m mark --mark 0x1 -j c
-A FORWARD -s 10.1.0.0/16 -j ACCEPT
-A c -j d
-A c -s 10.1.0.0/16 -j ACCEPT
-A d -j DROP''', {}),
    ('a goto', '''
:c - [0:0]
-A FORWARD -s 10.1.0.0/16 -g c
-A FORWARD -s 10.1.2.0/24 -j ACCEPT
-A c -p tcp -j ACCEPT''', {5: [4]}),
    ('a goto in doubt', '''
:c - [0:0]
-A FORWARD -s 10.1.0.0/16 -m mark --mark 0x1 -g c
-A FORWARD -s 10.1.2.0/24 -j ACCEPT
-A c -p tcp -j ACCEPT''', {}),
    ('a goto in doubt within a chain', '''
:c - [0:0]
:d - [0:0]
-A FORWARD -j c
-A FORWARD -p tcp -j ACCEPT
-A c -m mark --mark 0x1 -g d
-A c -j DROP
-A d -p udp -j ACCEPT''', {}),
    ('a verdict that is not known', '''
-A FORWARD -s 10.1.0.0/16 -j NFQUEUE --queue-num 0
-A FORWARD -s 10.1.2.0/24 -j ACCEPT
-A FORWARD -s 10.1.2.0/24 -j DROP''', {5: [4]}),
    ('no way to a chain', '''
:c - [0:0]
-A FORWARD -s 10.1.0.0/16 -j c
-A c -s 10.2.0.0/16 -j ACCEPT''', {5: []}),
    ('states that are no others', '''
-A FORWARD -m conntrack --ctstate NEW,ESTABLISHED -j ACCEPT
-A FORWARD -s 10.2.0.0/16 -j DROP''', {}),
    ('all states', '''
-A FORWARD -m conntrack --ctstate RELATED,ESTABLISHED -j ACCEPT
-A FORWARD -m conntrack --ctstate INVALID,UNTRACKED -j DROP
-A FORWARD -s 10.2.0.0/16 -m conntrack --ctstate NEW -j ACCEPT
-A FORWARD -s 10.2.3.0/24 -j DROP
-A FORWARD -s 10.2.3.0/24 -m conntrack --ctstate NEW -j DROP
-A FORWARD -s 10.3.3.0/24 -m conntrack --ctstate RELATED -j DROP''', {6: [3, 4, 5], 7: [5], 8: [3]}),
    ('a rule that is wholly negated', '''
-A FORWARD -m conntrack ! --ctstate NEW -j ACCEPT
-A FORWARD -s 10.2.0.0/16 -m conntrack --ctstate RELATED,INVALID -j DROP
-A FORWARD -s 10.2.0.0/16 -j DROP''', {4: [3]}),
    ('flags', '''
-A FORWARD -p tcp -m tcp --syn -m conntrack --ctstate NEW -j ACCEPT
-A FORWARD -p tcp -m conntrack --ctstate NEW -j ACCEPT''', {}),
    ('errors of ICMP', '''
-A FORWARD -p icmp -m icmp --icmp-type 3 -j ACCEPT
-A FORWARD -p icmp -m conntrack --ctstate RELATED -j ACCEPT
-A FORWARD -p icmp -m conntrack --ctstate RELATED -j DROP''', {5: [4]}),
    ('outside of a set of addresses', '''
-A FORWARD -m iprange ! --src-range 10.0.0.5-10.0.0.9 -j ACCEPT
-A FORWARD -s 10.0.0.16/28 -j DROP
-A FORWARD -m iprange --src-range 10.0.0.7-10.0.0.11 -j DROP''', {4: [3]}),
    ('sets that are not there', '''
-A FORWARD -m set --match-set friends src -j ACCEPT
-A FORWARD -s 10.0.0.16/28 -j DROP''', {}),
]
