"""Descriptions for diff-test and cuts, with answers written by hand from the rules of docs/FORMATS.md."""

TABLE = '''
[[template]]
name = "zones"
strategy = "access"
kinds = ["outside", "wifi", "desk", "lab", "store", "keeper"]
default = "outside"
deny = [
  ["outside", "desk"], ["outside", "lab"], ["outside", "store"], ["outside", "keeper"], ["outside", "wifi"],
  ["wifi", "desk"], ["wifi", "lab"], ["wifi", "store"], ["wifi", "keeper"],
  ["desk", "store"], ["desk", "keeper"], ["desk", "wifi"],
  ["lab", "desk"], ["lab", "keeper"], ["lab", "wifi"],
  ["store", "desk"], ["store", "lab"], ["store", "keeper"], ["store", "wifi"],
]
'''
OLD = '''topos = 2
flow = [
  ["eduroam", "printers", "tcp/443", "tcp/631"],
  ["students", "printers", "tcp/631"],
  # topos: title Backup
  ["lab1", "storp", "tcp/3300"],
  ["admin", "storp", "tcp/22"],
]
host = [
  { name = "inet", rest = true },
  { name = "students", at = ["10.20.20.0/22"] },
  { name = "lab1", at = ["10.20.30.0/24"] },
  { name = "printers", at = ["10.20.50.0/25"] },
  { name = "storp", at = ["10.20.61.0/26"] },
  { name = "admin", at = ["10.20.2.0/27"] },
  { name = "eduroam", at = ["10.20.128.0/18"] },
  { name = "unlisted", at = ["10.20.88.0/21"] },
]

# topos: title Storage
[[invariant]]
template = "partners"
assign = [{ host = "storp", kind = "master", from = ["lab1", "admin"] }]

# topos: title Management
[[invariant]]
template = "partners"
assign = [
  { host = "admin", kind = "master", from = [] },
  { host = "printers", kind = "master", from = ["students", "eduroam", "admin", "lab1"] },
  { host = "unlisted", kind = "master", from = [] },
]

# topos: title Zones
[[invariant]]
template = "zones"
assign = [
  { host = "eduroam", kind = "wifi" }, { host = "students", kind = "desk" }, { host = "lab1", kind = "lab" },
  { host = "storp", kind = "store" }, { host = "admin", kind = "keeper" },
]
''' + TABLE

# A merge request: a host in the middle, three flows, one of which opens all ports, and the entries that they need.
REQUEST = [
    ('["eduroam", "printers", "tcp/443", "tcp/631"]', '["eduroam", "printers"]'),
    ('  ["admin", "storp", "tcp/22"],',
     '  ["admin", "storp", "tcp/22"],\n  ["students", "hpc", "tcp/22"], ["hpc", "storp", "tcp/3300"],'),
    ('  { name = "printers", at', '  { name = "hpc", at = ["10.20.90.0/25"] },\n  { name = "printers", at'),
    ('["10.20.88.0/21"]', '["10.20.88.0/23", "10.20.90.128/25", "10.20.91.0/24", "10.20.92.0/22"]'),
    ('from = ["lab1", "admin"]', 'from = ["lab1", "admin", "hpc"]'),
    ('{ host = "lab1", kind = "lab" }', '{ host = "lab1", kind = "lab" }, { host = "hpc", kind = "lab" }')]

# unlisted, which had the addresses of hpc, was a master with an empty list and of the kind outside.
REQUEST_TEXT = '''3 invariants are weaker, 3 gaps are new, no invariant fails, 1 flow is wider: eduroam -> printers: \
everything, was tcp/443 tcp/631
weaker: invariant 2 "Management": students lab1 admin -> hpc (hpc was unlisted)
weaker: invariant 3 "Zones": hpc -> lab1 (hpc was unlisted)
weaker: invariants 1 "Storage" and 3 "Zones": hpc -> storp (hpc was unlisted)
new gap: lab1 admin -> hpc (2)
new gap: hpc -> lab1
~ flow eduroam -> printers: everything, was tcp/443 tcp/631
+ flow students -> hpc: tcp/22
+ flow hpc -> storp: tcp/3300
+ host hpc: 10.20.90.0/25, was unlisted
~ invariant 1 "Storage": storp: from adds hpc
~ invariant 3 "Zones": hpc is added (lab)
'''
REQUEST_MARKDOWN = '**3 invariants are weaker, 3 gaps are new, no invariant fails, 1 flow is wider: ' + \
    r'''eduroam -\> printers: everything, was tcp/443 tcp/631**

Invariants that are weaker:

- weaker: invariant 2 "Management": students lab1 admin -\> hpc \(hpc was unlisted\)
- weaker: invariant 3 "Zones": hpc -\> lab1 \(hpc was unlisted\)
- weaker: invariants 1 "Storage" and 3 "Zones": hpc -\> storp \(hpc was unlisted\)

New gaps:

- new gap: lab1 admin -\> hpc \(2\)
- new gap: hpc -\> lab1

Flows that come or change:

- \~ flow eduroam -\> printers: everything, was tcp/443 tcp/631
- \+ flow students -\> hpc: tcp/22
- \+ flow hpc -\> storp: tcp/3300

Hosts:

- \+ host hpc: 10.20.90.0/25, was unlisted

Invariants and settings:

- \~ invariant 1 "Storage": storp: from adds hpc
- \~ invariant 3 "Zones": hpc is added \(lab\)
'''

# Back from the merge request: what opened is closed.
BACK_TEXT = '''no invariant is weaker, no gap is new, no invariant fails, no flow is wider
~ flow eduroam -> printers: tcp/443 tcp/631, was everything
- flow students -> hpc: tcp/22
- flow hpc -> storp: tcp/3300
stricter: invariant 2 "Management": students lab1 admin -> hpc (hpc is unlisted)
stricter: invariant 3 "Zones": hpc -> lab1 (hpc is unlisted)
stricter: invariants 1 "Storage" and 3 "Zones": hpc -> storp (hpc is unlisted)
closed gap: lab1 admin -> hpc (2)
closed gap: hpc -> lab1
- host hpc: 10.20.90.0/25, now unlisted
~ invariant 1 "Storage": storp: from loses hpc
~ invariant 3 "Zones": hpc is removed (lab)
'''

SMALL = '''topos = 2
flow = [["web", "db", "tcp/5432"], ["inet", "web"]]
host = [{ name = "web", at = ["10.0.1.10"] }, { name = "db", at = ["10.0.2.20", "10.0.2.21"] },
        { name = "inet", rest = true }]
invariant = [{ template = "partners", assign = [{ host = "db", kind = "master", from = ["web"] }] }]
'''

INVARIANT = 'invariant = [{ template = "partners", assign = [{ host = "db", kind = "master", from = ["web"] }] }]'
SINK = [('invariant = [', 'invariant = [{ template = "sink", assign = [{ host = "db", kind = "sink" }] }, ')]

# Each case: what it shows, the edits of SMALL, the status, and the text.
CASES: list[tuple[str, list[tuple[str, str]], int, str]] = [
    ('nothing', [], 0, 'nothing differs\n'),
    ('the order of hosts and flows', [
        ('[["web", "db", "tcp/5432"], ["inet", "web"]]', '[["inet", "web"], ["web", "db", "tcp/5432"]]'),
        ('{ name = "web", at = ["10.0.1.10"] }, { name = "db", at = ["10.0.2.20", "10.0.2.21"] }',
         '{ name = "db", at = ["10.0.2.21", "10.0.2.20"] }, { name = "web", at = ["10.0.1.10"] }')],
     0, 'nothing differs\n'),
    ('a renamed host', [('"db"', '"data"')], 0,
     'no invariant is weaker, no gap is new, no invariant fails, no flow is wider\n~ host db: now data\n'),
    ('a flow that an invariant denies', [('["inet", "web"]', '["inet", "web"], ["inet", "db"]')], 1,
     'no invariant is weaker, no gap is new, 1 invariant fails, no flow is wider\n'
     'fails: invariant 1 partners: inet -> db\n'),
    ('an invariant that is gone', [
        (INVARIANT, '')], 1,
     '''1 invariant is weaker, 1 gap is new, no invariant fails, no flow is wider
weaker: invariant 1 partners (removed): inet -> db
new gap: inet -> db
- invariant 1 partners: partners with 1 entry
'''),
    ('an entry that lets others in', [('from = ["web"]', 'from = ["web", "inet"]')], 1,
     '''1 invariant is weaker, 1 gap is new, no invariant fails, no flow is wider
weaker: invariant 1 partners: inet -> db
new gap: inet -> db
~ invariant 1 partners: db: from adds inet
'''),
    # A sink sends nothing, not even answers. web -> inet, db -> web and db -> inet were gaps.
    ('answers that a new invariant denies', SINK, 0,
     '''no invariant is weaker, no gap is new, no invariant fails, no flow is wider
answers go: web -> db: tcp/5432, denied by invariant 1 sink, so TCP fails
stricter: invariant 1 sink (new): db -> web inet
closed gap: db -> web inet (2)
+ invariant 1 sink: sink with 1 entry
'''),
    # What web sent to 10.0.2.21 is no gap of OLD, and is one now; so is what db sends there. inet may send to web.
    ('an address that goes to the rest host', [(', "10.0.2.21"', '')], 1,
     '''no invariant is weaker, 2 gaps are new, no invariant fails, no flow is wider
new gap: web db -> inet (2)
+ flow inet -> web: everything, in part (was db -> web)
- flow web -> db: tcp/5432, in part (now web -> inet)
closed gap: db -> web inet (2)
~ host db loses 10.0.2.21, now inet
'''),
    ('a host that is the rest host no more', [('rest = true', 'at = ["128.0.0.0/1"]')], 0,
     '''no invariant is weaker, no gap is new, no invariant fails, no flow is wider
- flow inet (old addresses) -> web: everything
closed gap: web db -> inet (2)
~ host inet loses 0.0.0.0/5 8.0.0.0/7 10.0.0.0/24 10.0.1.0/29 and 34 more, now no host
'''),
    ('other services', [('"tcp/5432"', '"tcp/5432", "icmp"')], 1,
     '''no invariant is weaker, no gap is new, no invariant fails, 1 flow is wider: web -> db: tcp/5432 icmp, was \
tcp/5432
~ flow web -> db: tcp/5432 icmp, was tcp/5432
'''),
    ('a service in place of another one', [
        ('["web", "db", "tcp/5432"], ["inet", "web"]', '["web", "db", "tcp/22"], ["inet", "web"]')], 1,
     '''no invariant is weaker, no gap is new, no invariant fails, 1 flow is wider: web -> db: tcp/22, was tcp/5432
~ flow web -> db: tcp/22, was tcp/5432
'''),
    # Without its flow the host is open to web by nothing but the list.
    ('a host that goes', [
        (', { name = "db", at = ["10.0.2.20", "10.0.2.21"] }', ''), ('["web", "db", "tcp/5432"], ', ''),
        (INVARIANT, '')], 1,
     '''no invariant is weaker, 1 gap is new, no invariant fails, no flow is wider
new gap: web -> inet
+ flow inet -> web: everything, in part (was db -> web)
- flow web -> db: tcp/5432
closed gap: db -> web inet (2)
- host db: 10.0.2.20/31, now inet
- invariant 1 partners: partners with 1 entry
'''),
]

# Eight flows that get more services: those from the rest host come first, and none is cut.
WIDE = '''topos = 2
flow = [["a", "b", "tcp/1"], ["a", "c", "tcp/1"], ["b", "a", "tcp/1"], ["b", "c", "tcp/2"], ["c", "a", "tcp/1"],
        ["c", "b", "tcp/3"], ["d", "a", "tcp/22"], ["d", "b", "tcp/22"]]
host = [{ name = "a", at = ["10.0.1.1"] }, { name = "b", at = ["10.0.1.2"] }, { name = "c", at = ["10.0.1.3"] },
        { name = "d", rest = true }]
'''
WIDENED = [('"a", "b", "tcp/1"', '"a", "b"'), ('"a", "c", "tcp/1"', '"a", "c", "tcp/1-9"'),
           ('"b", "a", "tcp/1"', '"b", "a", "tcp/1-8"'), ('"b", "c", "tcp/2"', '"b", "c", "tcp/2-8"'),
           ('"c", "a", "tcp/1"', '"c", "a", "tcp/1-6"'), ('"c", "b", "tcp/3"', '"c", "b", "tcp/3-6"'),
           ('"d", "a", "tcp/22"', '"d", "a", "tcp/22", "tcp/3389"'),
           ('"d", "b", "tcp/22"', '"d", "b", "tcp/22", "tcp/443"')]
WIDENED_FLOWS = [
    'd -> a: tcp/22 tcp/3389, was tcp/22', 'd -> b: tcp/22 tcp/443, was tcp/22', 'a -> b: everything, was tcp/1',
    'a -> c: tcp/1-9, was tcp/1', 'b -> a: tcp/1-8, was tcp/1', 'b -> c: tcp/2-8, was tcp/2',
    'c -> a: tcp/1-6, was tcp/1', 'c -> b: tcp/3-6, was tcp/3']

# Connections: what is shown, more words, the lines, the status, and the text.

TRACKED = '''\
conntrack v1.4.7 (conntrack-tools): 10 flow entries have been shown.
tcp      6 431999 ESTABLISHED src=10.20.30.5 dst=10.20.61.9 sport=40000 dport=3300 src=10.20.61.9 dst=10.20.30.5 \
sport=3300 dport=40000 [ASSURED] mark=0 use=1
ipv4     2 tcp      6 100 ESTABLISHED src=10.20.20.5 dst=10.20.50.7 sport=40001 dport=631 src=10.20.50.7 \
dst=10.20.20.5 sport=631 dport=40001 [ASSURED] mark=0 use=1 id=77
tcp      6 100 SYN_SENT src=10.20.20.5 dst=10.20.50.7 sport=40002 dport=9100 [UNREPLIED] src=10.20.50.7 \
dst=10.20.20.5 sport=9100 dport=40002 mark=0 use=1
[1764460800.000001]	    [NEW] tcp      6 120 SYN_SENT src=10.20.20.6 dst=10.20.50.7 sport=40002 dport=9100 \
[UNREPLIED] src=10.20.50.7 dst=10.20.20.6 sport=9100 dport=40002
[1764460801.000001]	 [UPDATE] tcp      6 60 SYN_RECV src=10.20.20.6 dst=10.20.50.7 sport=40002 dport=9100 \
src=10.20.50.7 dst=10.20.20.6 sport=9100 dport=40002
tcp      6 100 ESTABLISHED src=10.20.128.9 dst=10.20.61.9 sport=40003 dport=3300 src=10.20.61.9 dst=10.20.128.9 \
sport=3300 dport=40003 [ASSURED] mark=0 use=1
udp      17 20 src=198.51.100.7 dst=10.20.128.9 sport=53 dport=53 [UNREPLIED] src=10.20.128.9 dst=198.51.100.7 \
sport=53 dport=53 mark=0 use=1
tcp      6 100 ESTABLISHED src=198.51.100.8 dst=203.0.113.1 sport=5000 dport=80 src=10.20.50.7 dst=198.51.100.8 \
sport=8080 dport=5000 [ASSURED] mark=0 use=1
udp      17 20 src=10.20.50.7 dst=198.51.100.9 sport=123 dport=123 src=198.51.100.9 dst=203.0.113.1 sport=123 \
dport=123 mark=0 use=1
icmp     1 29 src=10.20.20.5 dst=10.20.50.7 type=8 code=0 id=77 src=10.20.50.7 dst=10.20.20.5 type=0 code=0 id=77 \
mark=0 use=1
ipv6     10 tcp      6 100 ESTABLISHED src=fd00::1 dst=fd00::2 sport=1 dport=2 src=fd00::2 dst=fd00::1 sport=2 dport=1
'''
LOGGED = '''src,dst,proto,sport,dport
10.20.20.5,10.20.50.7,tcp,40000,631
10.20.50.7,10.20.20.5,tcp,631,40000
10.20.20.5,10.20.50.7,tcp,40000,631
10.20.2.3 10.20.61.4 6 40001 22 120 bytes
10.20.2.3 10.20.61.4 TCP 40002 3300
10.20.50.7 10.20.50.8 udp 1 2
10.20.50.7 10.20.50.8 udp

# the end
'''
CUTS: list[tuple[str, list[str], str, int, str]] = [
    ('tracked', [], TRACKED, 1, '''a load would delete 7 connections; 2 remain
would be deleted: students -> printers tcp/9100: 2 connections from 2 machines, asked for as tcp/631
would be deleted: eduroam -> storp tcp/3300: 1 connection from 1 machine, not asked for and denied by invariants \
1 "Storage" and 3 "Zones"
would be deleted: inet -> eduroam udp/53: 1 connection from 1 machine, not asked for and denied by invariant 3 "Zones"
would be deleted: inet -> printers tcp/8080: 1 connection from 1 machine, not asked for and denied by invariant \
2 "Management"
would be deleted: printers -> inet udp/123: 1 connection from 1 machine, not asked for
would be deleted: students -> printers icmp: 1 connection from 1 machine, asked for as tcp/631
topos-cuts: note: connections: 1 line of IPv6 left out
'''),
    ('logged', [], LOGGED, 1, '''a load would delete 2 connections; 2 remain
would be deleted: admin -> storp tcp/3300: 1 connection from 1 machine, asked for as tcp/22
would be deleted: printers -> printers udp/2: 1 connection from 1 machine, within one host
topos-cuts: note: connections: 1 line is no connection, the first is line 8
'''),
    ('of the firewall', ['--firewall', '10.20.2.0/29,10.20.50.8'], LOGGED, 0,
     '''a load would delete 0 connections; 1 remain
topos-cuts: note: connections: 1 line is no connection, the first is line 8
'''),
    ('of the firewall alone', ['--firewall', '10.20.2.0/29,10.20.50.8,10.20.20.5'], LOGGED, 2,
     '''topos-cuts: note: connections: 1 line is no connection, the first is line 8
topos-cuts: connections: no connection to evaluate
'''),
    ('an empty file', [], '', 2, 'topos-cuts: connections: no connection to evaluate\n'),
    ('no entry', ['--json'], 'conntrack v1.4.7 (conntrack-tools): 0 flow entries have been shown.\n', 2,
     'topos-cuts: connections: no connection to evaluate\n'),
    ('IPv6 alone', [], 'fd00::1 fd00::2 tcp 40000 80\n', 2,
     '''topos-cuts: note: connections: 1 line of IPv6 left out
topos-cuts: connections: no connection to evaluate
'''),
    ('many services', [],
     ''.join(f'10.20.20.{port % 3 + 1} 10.20.50.7 tcp 1 {port}\n' for port in range(1000, 1021)), 1,
     '''a load would delete 21 connections; 0 remain
would be deleted: students -> printers: 21 connections from 3 machines, asked for as tcp/631
'''),
]
SILENT = '10.0.1.10 10.0.2.20 tcp 40000 5432\n'
SILENT_TEXT = '''a load would delete 0 connections; 1 remain
would get no answers: web -> db tcp/5432: 1 connection from 1 machine, the rules drop the answers
'''
