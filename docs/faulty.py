"""The smallest files that are refused: each prints a line that docs/FORMATS.md, TEXTS.md or GUIDE.md shows."""
from collections.abc import Iterable, Iterator

TWO = 'host = [{ name = "a", at = ["10.0.1.1"] }, { name = "b", at = ["10.0.2.1"] }]\n'
HEAD = 'topos = 1\n' + TWO
RULES = '*filter\n:INPUT ACCEPT\n:FORWARD DROP\n:OUTPUT ACCEPT\n'


def hosts(counts: Iterable[int]) -> str:
    """A host for each number, with so many addresses."""
    tables = []
    for k, count in enumerate(counts):
        at = ', '.join(f'"{10 + k // 256}.{k % 256}.{i}.1"' for i in range(count))
        tables.append(f'{{ name = "h{k}", at = [{at}] }}')
    return f"topos = 1\nhost = [{', '.join(tables)}]\n"


def assigns(template: str, *entries: str) -> str:
    return f'[[invariant]]\ntemplate = "{template}"\nassign = [{", ".join(entries)}]\n'


def templates(count: int, default: str = '"out"', deny: str = '[]') -> str:
    """So many tables of the kinds `in` and `out`."""
    return ''.join(f'[[template]]\nname = "t{k}"\nstrategy = "access"\nkinds = ["in", "out"]\n'
                   f'default = {default}\ndeny = {deny}\n' for k in range(count))


DESCRIPTIONS = [
    '#' * 1048577,                                                                          # 1 TooLong
    'topos = 1\nhost = [\n',                                                                # 2 NotToml
    'topos = 1\nhost = [{ name = "a", at = ["10.0.1.1"] }, { name = "b", adress = [] }]\n',   # 3 UnknownKey
    HEAD + '[[invariant]]\ntemplate = "blp"\nassign = [{ host = "a" }, { level = 1 }]\n',   # 4 MissingKey
    'topos = 1\nflow = [["a", "b"], ["b", "a"], ["a"]]\n' + TWO,                            # 5 WrongType
    'topos = 3\n' + TWO,                                                                    # 6 BadVersion
    hosts([1] * 257),                                                                       # 7 TooMany
    hosts([52] * 18 + [84, 5]),
    HEAD + assigns('blp') * 17,
    'topos = 2\n' + TWO + templates(17),
    'topos = 1\nflow = [["a", "b"], ["b c", "a"]]\n' + TWO,                                 # 8 BadName
    'topos = 1\nhost = [{ name = "a", at = ["10.0.1.1"] }, { name = "a", at = ["10.0.2.1"] }]\n',
    'topos = 1\nhost = [{ name = "a", at = ["10.0.0.01"] }]\n',                             # 10 BadPrefix
    'topos = 1\nhost = [{ name = "a", at = ["10.0.0.1/24"] }]\n',                           # 11 HostBits
    'topos = 1\nhost = [{ name = "a", at = ["10.0.1.1"] }, { name = "b" }]\n',              # 12 NoAddress
    'topos = 1\nhost = [{ name = "a", rest = true }, { name = "b", rest = true }]\n',       # 13 TwoRests
    'topos = 1\nhost = [{ name = "a", at = ["10.0.0.0/24"] }, { name = "b", at = ["10.0.0.1"] }]\n',
    HEAD + assigns('levels'),                                                               # 15 UnknownTemplate
    'topos = 1\nflow = [["a", "c"]]\n' + TWO,                                               # 16 UndeclaredHost
    HEAD + assigns('blp', '{ host = "a" }', '{ host = "b" }', '{ host = "a" }'),            # 17 DuplicateAssign
    HEAD + assigns('sink', '{ host = "a" }'),                                               # 18 BadAttribute
    'topos = 1\nflow = [["a", "a"]]\n' + TWO,                                               # 19 SelfFlow
    'topos = 1\nflow = [["a", "b"], ["a", "b"]]\n' + TWO,                                   # 20 DuplicateFlow
    'topos = 2\nflow = [["a", "b", "tcp/080"]]\n' + TWO,                                    # 21 BadService
    'topos = 2\nflow = [["a", "b", %s]]\n' % ', '.join(['"tcp"'] * 17) + TWO,               # 22 ManyServices
    'topos = 2\n' + TWO + templates(1, default='"somewhere"'),                              # 23 BadTemplate
    'topos = 2\n' + TWO + templates(1, deny='[["out", "in"], ["in", "in"], ["in", "out"]]'),  # 24 NotLawful
]

# 91 addresses beside the rest of the world
MANY_FLOWS = 'topos = 1\nflow = []\nhost = [{ name = "a", at = [%s] }, { name = "r", rest = true }]\n' \
    % ', '.join(f'"10.0.{i}.1"' for i in range(91))

# 100 hosts, each of which asks 412 addresses for 16 services
SIXTEEN = ', '.join(f'"tcp/{port}"' for port in range(1, 17))
MANY_RULES = 'topos = 2\nanswers = "none"\nflow = [%s]\nhost = [%s, { name = "b", at = [%s] }]\n' % (
    ', '.join(f'["a{k}", "b", {SIXTEEN}]' for k in range(100)),
    ', '.join(f'{{ name = "a{k}", at = ["10.0.{k}.1"] }}' for k in range(100)),
    ', '.join(f'"10.{1 + i // 256}.{i % 256}.1"' for i in range(412)))


def runs() -> Iterator[tuple[list[str], dict[str, str]]]:
    """The words of each run, and the files that it wants."""
    for text in DESCRIPTIONS:
        yield ['check', 'net.toml'], {'net.toml': text}
    yield ['rules', 'openflow', 'net.toml'], {'net.toml': MANY_FLOWS}
    yield ['rules', 'iptables', 'net.toml'], {'net.toml': MANY_RULES}
    interface = RULES + '-A FORWARD -s 10.0.0.0/8 -j DROP\n' * 2 + '-A FORWARD -i eth0 -j ACCEPT\nCOMMIT\n'
    yield ['trace', 'iptables', 'box.rules', 'net.events'], {'box.rules': interface, 'net.events': ''}
