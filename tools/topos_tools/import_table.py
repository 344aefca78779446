"""What an import does with each match and target: the table from which rules are read, and that IMPORT prints.

A match, an option or a target that is not in the table is in doubt.
"""
from typing import NamedTuple

from .import_pieces import Action

EXACT, BOUNDED, DOUBT = 'exact', 'bounded', 'in doubt'


class Option(NamedTuple):
    """An option of a match, and how it is read. The options of the match `''` are those of iptables itself."""
    match: str
    name: str
    words: int  # values behind it
    treatment: str
    becomes: str
    reader: str = ''  # the name of its reader; an option without one is a further condition in doubt
    may_negate: bool = True


OPTIONS = (
    Option('', '-s', 1, EXACT, 'itself, also a list; in doubt with a mask that has holes', 'sources'),
    Option('', '-d', 1, EXACT, 'itself, also a list; in doubt with a mask that has holes', 'destinations'),
    Option('', '-p', 1, EXACT, 'itself, by name or number', 'protocol'),
    Option('', '-i', 1, BOUNDED, 'the senders that may or have to come in there, by the table of interfaces', 'input'),
    Option('', '-o', 1, BOUNDED, 'the receivers that may or have to be there, by the table of interfaces', 'output'),
    Option('', '-f', 0, DOUBT, 'a condition in doubt'),
    Option('', '-c', 2, EXACT, 'nothing, as they are counts', 'nothing', may_negate=False),
    Option('tcp', '--sport', 1, EXACT, 'itself', 'source ports'),
    Option('tcp', '--dport', 1, EXACT, 'itself', 'destination ports'),
    Option('tcp', '--tcp-flags', 2, BOUNDED,
           'a condition in doubt; with `--syn` exact for new packets as far as SYN, ACK, FIN and RST decide', 'flags'),
    Option('tcp', '--syn', 0, BOUNDED, 'as `--tcp-flags FIN,SYN,RST,ACK SYN`', 'syn'),
    Option('tcp', '--tcp-option', 1, DOUBT, 'a condition in doubt'),
    Option('udp', '--sport', 1, EXACT, 'itself', 'source ports'),
    Option('udp', '--dport', 1, EXACT, 'itself', 'destination ports'),
    Option('icmp', '--icmp-type', 1, BOUNDED,
           '8, 13, 15, 17 are in doubt; 0, 14, 16, 18 in doubt for established packets; other types match none',
           'icmp type'),
    Option('multiport', '--sports', 1, EXACT, 'a rule for each range; in doubt but for TCP and UDP', 'source ports'),
    Option('multiport', '--dports', 1, EXACT, 'a rule for each range; in doubt but for TCP and UDP',
           'destination ports'),
    Option('multiport', '--ports', 1, EXACT, 'rules for both directions; in doubt but for TCP and UDP', 'both ports'),
    Option('iprange', '--src-range', 1, EXACT, 'prefixes', 'source range'),
    Option('iprange', '--dst-range', 1, EXACT, 'prefixes', 'destination range'),
    Option('set', '--match-set', 2, BOUNDED, 'prefixes, protocols and ports, by `--sets`; in doubt without the set',
           'set'),
    Option('addrtype', '--src-type', 1, EXACT,
           '224.0.0.0/4 for `MULTICAST`, all others for `UNICAST`, none for other types', 'source type'),
    Option('addrtype', '--dst-type', 1, EXACT,
           '224.0.0.0/4 for `MULTICAST`, all others for `UNICAST`, none for other types', 'destination type'),
    Option('state', '--state', 1, BOUNDED, 'as `--ctstate`', 'states'),
    Option('conntrack', '--ctstate', 1, BOUNDED,
           '`NEW` and `ESTABLISHED` are exact; `RELATED`, `INVALID`, `UNTRACKED` match none; `DNAT` is in doubt for '
           'connections whose receiver a rule of the table `nat` writes, without this table for all; `SNAT` is in '
           'doubt, and every state in a save with `NOTRACK` or zones of `CT`', 'states'),
    *(Option('conntrack', name, 1, DOUBT, 'a condition in doubt') for name in (
        '--ctproto', '--ctorigsrc', '--ctorigdst', '--ctreplsrc', '--ctrepldst', '--ctorigsrcport', '--ctorigdstport',
        '--ctreplsrcport', '--ctrepldstport', '--ctstatus', '--ctexpire', '--ctdir')),
    Option('comment', '--comment', 1, EXACT, 'the comment of the rule', 'comment', may_negate=False))


class Target(NamedTuple):
    """Targets, what they do, and the values behind each of their options."""
    names: tuple[str, ...]
    action: Action
    treatment: str
    becomes: str
    options: tuple[tuple[str, int], ...] = ()


TARGETS = (
    Target(('ACCEPT',), Action.ACCEPT, EXACT, 'itself'),
    Target(('DROP',), Action.DROP, EXACT, 'itself'),
    Target(('REJECT',), Action.DROP, EXACT, '`DROP`', (('--reject-with', 1),)),
    Target(('RETURN',), Action.RETURN, EXACT, 'itself; in `FORWARD` its policy'),
    Target(tuple('''
        LOG NFLOG ULOG MARK CONNMARK SECMARK CONNSECMARK TCPMSS CLASSIFY DSCP TOS TTL SET TRACE CT NOTRACK AUDIT
        CHECKSUM TEE TCPOPTSTRIP ECN HL IDLETIMER LED RATEEST HMARK ACCOUNT LOGMARK'''.split()),
           Action.CONTINUE, EXACT, 'nothing, as they continue'))

MATCHES = {each.match for each in OPTIONS}
BY_NAME = {(each.match, each.name): each for each in OPTIONS}
TARGET_OF = {name: each for each in TARGETS for name in each.names}
SPELLINGS = {
    '--source': '-s', '--src': '-s', '--destination': '-d', '--dst': '-d', '--in-interface': '-i',
    '--out-interface': '-o', '--protocol': '-p', '--match': '-m', '--jump': '-j', '--goto': '-g',
    '--fragment': '-f', '--source-port': '--sport', '--destination-port': '--dport', '--source-ports': '--sports',
    '--destination-ports': '--dports', '--set-counters': '-c', '--append': '-A'}


def page() -> str:
    """Returns the table as the page IMPORT has it."""
    lines = ['| Match | Option | Treatment | Becomes |', '|---|---|---|---|']
    shown: dict[tuple[str, str, str], list[str]] = {}
    for each in OPTIONS:
        shown.setdefault((each.match, each.treatment, each.becomes), []).append(f'`{each.name}`')
    lines += [f'| {f"`{match}`" if match else "of iptables"} | {", ".join(names)} | {treatment} | {becomes} |'
              for (match, treatment, becomes), names in shown.items()]
    lines += ['| any | every option that is not above | in doubt | the whole match is in doubt, with what its other '
              'options say |',
              '| every other match | all | in doubt | a condition in doubt |', '',
              '| Target | Treatment | Becomes |', '|---|---|---|']
    lines += [f'| {", ".join(f"`{name}`" for name in each.names)} | {each.treatment} | {each.becomes} |'
              for each in TARGETS]
    lines += ['| a chain with `-j` | exact | itself |',
              '| a chain with `-g` | exact | `-j`, then `RETURN` on the same condition |',
              '| every other target | in doubt | a verdict in doubt |', '']
    return '\n'.join(lines)
