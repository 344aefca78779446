"""Descriptions and rule sets to audit, at the limit of the number of packet classes."""
import itertools
from collections.abc import Iterable, Iterator

from descriptions import LIMIT, quoted, small_description
from traced import RULES, table

SERVED, ASKED = 235, 21  # hosts of a prefix each, and how many later ones each asks for a port
MANY, EACH = 250, 4  # hosts, and prefixes of each
FEW = 22  # hosts of the large rule set
TOP = '255.255.255.255'


def address(number: int) -> str:
    """Returns an address. No two of them are adjacent, so each adds two interval boundaries."""
    return f'10.{number // 100}.{number % 100}.1'


def hosts(addresses: Iterable[list[str]]) -> list[str]:
    return [f'{{ name = "h{host}", at = {quoted(at)} }},\n' for host, at in enumerate(addresses)]


def served() -> str:
    """The last host has the last address. 235 addresses make 470 classes, one port 3 and its protocol 2."""
    at = [[address(number)] for number in range(SERVED - 1)] + [[TOP]]
    flows = ''.join(f'["h{host}","h{(host + step) % SERVED}","tcp/80"],' for host in range(SERVED)
                    for step in range(1, ASKED + 1))
    return small_description(flows, hosts(at), version=2)


def last_class_passes(rules: list[str]) -> list[str]:
    """The lines of rules with one that accepts only the packets of the last class: from the last host to itself."""
    rule = f'-A FORWARD -s {TOP}/32 -d {TOP}/32 -p tcp -m tcp --sport 81: --dport 81: -j ACCEPT'
    first = next(place for place, line in enumerate(rules) if line.startswith('-A'))
    return [*rules[:first], rule, *rules[first:]]


def many_prefixes() -> str:
    """1,000 prefixes make 2,000 classes; every host asks all later ones."""
    numbers = range(MANY * EACH)
    at = [[address(number) for number in numbers[host::MANY]] for host in range(MANY)]
    at[-1][-1] = TOP
    flows = ''.join(f'["h{i}","h{j}"],' for i in range(MANY) for j in range(i + 1, MANY))
    text = small_description(flows, hosts(at))
    assert len(text) <= LIMIT
    return text


def few_hosts() -> str:
    """22 addresses make 45 classes; every host asks all later ones, and there are no answers."""
    flows = ''.join(f'["h{i}","h{j}"],' for i in range(FEW) for j in range(i + 1, FEW))
    return 'answers = "none"\n' + small_description(flows, hosts([[address(number)] for number in range(FEW)]))


def many_rules() -> Iterator[str]:
    """Yields the rules for `few_hosts`, in each chain after many rules that only count packets."""
    chains = [f'c{host}' for host in range(FEW)]
    jumps = [f'-A FORWARD -s {address(host)} -j c{host}' for host in range(FEW)]
    flows = [f'-A c{i} -d {address(j)} -j ACCEPT' for i in range(FEW) for j in range(i + 1, FEW)]
    counts = (f'-A c{number % FEW} -d {address(number // FEW % FEW)} -j LOG' for number in
              range(RULES - len(jumps) - len(flows)))
    return table(chains, itertools.chain(jumps, counts, flows))
