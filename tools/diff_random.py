"""Random pairs of descriptions for diff-test, and what differs between two by brute force."""
import copy
import itertools
import random
import tomllib
from collections.abc import Iterator
from typing import Any

from report_networks import TABLE, entry
from topos_tools.flows_services import of_words
from topos_tools.import_sets import intersection
from topos_tools.query import Programs, text_of

Table = dict[str, Any]
Flow = tuple[str, str]
TEMPLATES = ['blp', 'tainting', 'sink', 'gateway', 'subnets', 'partners', 'domains', 'tenants', 'noninterference']
SERVICES = ['tcp/80', 'tcp', 'udp/53', 'icmp', 'tcp/79-81', 'udp', 'tcp/443']
PLACES = [(0, 0), (1, 0), (1, 65535), (2, 7), (6, 0), (6, 78), (6, 79), (6, 80), (6, 81), (6, 82), (6, 442), (6, 443),
          (6, 444), (6, 65535), (7, 0), (16, 9), (17, 0), (17, 52), (17, 53), (17, 54), (17, 65535), (18, 0), (255, 0)]
SPORT = 61000  # of no service


def description(chance: random.Random) -> Table:
    """Returns a random description of two to five hosts."""
    names = [f'h{number}' for number in range(chance.randrange(2, 6))]
    hosts: list[Table] = [{'name': name, 'at': [f'10.0.{number}.0/25', f'10.0.{number}.128/25']}
                          for number, name in enumerate(names)]
    if chance.random() < .7:
        hosts[0] = {'name': names[0], 'rest': True}
    table: Table = {'topos': 2, 'flow': [], 'host': hosts, 'template': [own_template()], 'invariant': []}
    for _ in range(chance.randrange(8)):
        add_flow(chance, table)
    for _ in range(chance.randrange(4)):
        add_invariant(chance, table)
    return table


def own_template() -> Table:
    found: Table = tomllib.loads(TABLE)['template'][0]
    return found


def names_of(table: Table) -> list[str]:
    return [host['name'] for host in table['host']]


def add_flow(chance: random.Random, table: Table) -> None:
    pair = chance.sample(names_of(table), 2)
    table['flow'] = [flow for flow in table['flow'] if flow[:2] != pair]
    table['flow'].append([*pair, *chance.sample(SERVICES, chance.randrange(3))])


def add_invariant(chance: random.Random, table: Table) -> None:
    names, template = names_of(table), chance.choice(TEMPLATES)
    chosen = names if template == 'noninterference' else chance.sample(names, chance.randrange(1, len(names) + 1))
    assign = [{'host': name, **entry(chance, template, [each for each in names if each != name], len(names))}
              for name in chosen]
    table['invariant'].append({'template': template, 'assign': assign})


# Changes of a description.

def change_flow(chance: random.Random, table: Table) -> None:
    if table['flow'] and chance.random() < .5:
        table['flow'].pop(chance.randrange(len(table['flow'])))
    else:
        add_flow(chance, table)


def change_invariant(chance: random.Random, table: Table) -> None:
    if table['invariant'] and chance.random() < .6:
        invariant = chance.choice(table['invariant'])
        invariant['assign'].pop(chance.randrange(len(invariant['assign'])))
        if not invariant['assign']:
            table['invariant'].remove(invariant)
    else:
        add_invariant(chance, table)


def shuffle(chance: random.Random, table: Table) -> None:
    for key in ('host', 'flow', 'invariant'):
        chance.shuffle(table[key])


def rename(chance: random.Random, table: Table) -> None:
    """Renames a host, in flows and invariants too."""
    old, new = chance.choice(names_of(table)), f'n{chance.randrange(1000)}'

    def named(value: Any) -> Any:
        if isinstance(value, dict):
            return {key: named(inner) for key, inner in value.items()}
        if isinstance(value, list):
            return [named(each) for each in value]
        return new if value == old else value
    table.update(named({key: table[key] for key in ('host', 'flow', 'invariant')}))


def move(chance: random.Random, table: Table) -> None:
    """Moves a prefix to another host or to a new one, or removes it."""
    givers = [host for host in table['host'] if len(host.get('at', [])) > 1]
    if not givers:
        return
    giver = chance.choice(givers)
    prefix = giver['at'].pop(chance.randrange(len(giver['at'])))
    others = [host for host in table['host'] if 'at' in host and host is not giver]
    if chance.random() < .4:
        table['host'].insert(chance.randrange(len(table['host']) + 1),
                             {'name': f'm{chance.randrange(1000)}', 'at': [prefix]})
    elif others and chance.random() < .7:
        chance.choice(others)['at'].append(prefix)


def drop_host(chance: random.Random, table: Table) -> None:
    """Removes a host, its flows, and the invariants that name it."""
    if len(table['host']) < 3:
        return
    host = table['host'].pop(chance.randrange(len(table['host'])))
    table['flow'] = [flow for flow in table['flow'] if host['name'] not in flow[:2]]
    table['invariant'] = [each for each in table['invariant'] if repr(host['name']) not in repr(each)]


CHANGES = (change_flow, change_flow, change_invariant, change_invariant, shuffle, rename, move, move, drop_host)


def pair_of(seed: int) -> tuple[bytes, bytes]:
    """Returns a description, and the same after one to four changes."""
    chance = random.Random(seed)
    old = description(chance)
    new = copy.deepcopy(old)
    for _ in range(chance.randrange(1, 5)):
        chance.choice(CHANGES)(chance, new)
    return text_of(old), text_of(new)


# Brute force.

def interval(prefix: str) -> tuple[int, int]:
    base, _, length = prefix.partition('/')
    number = sum(int(byte) << shift for byte, shift in zip(base.split('.'), (24, 16, 8, 0)))
    return number, number + (1 << 32 - int(length or 32)) - 1


def owner(network: Table, address: int) -> str | None:
    """Returns the host that has an address."""
    for host in network['hosts']:
        if any(low <= address <= high for low, high in map(interval, host['at'])):
            return str(host['name'])
    return next((str(host['name']) for host in network['hosts'] if host['rest']), None)


def addresses(*networks: Table) -> list[int]:
    """Returns an address of each range that the networks distinguish."""
    found = {0}
    for network in networks:
        for host in network['hosts']:
            for low, high in map(interval, host['at']):
                found |= {low, high + 1}
    return sorted(each for each in found if each < 1 << 32)


def flow_facts(network: Table) -> dict[tuple[str | None, str | None], Table]:
    return {(each['flow'][0], each['flow'][1]): each for each in network['flows']}


def share(services: list[str], others: list[str]) -> bool:
    """Whether some packet matches the services of both flows."""
    return bool(intersection(of_words(services), of_words(others)))


def openings(old: Table, new: Table) -> Table:
    """Returns what NEW opens: the keys `weaker` and `gaps`, after docs/QUERIES.md, address by address."""
    facts, past = flow_facts(new), flow_facts(old)
    ends = {(owner(new, each), owner(old, each)) for each in addresses(old, new)}
    weaker: dict[tuple[str, str, str, str], list[int]] = {}
    gaps = set[Flow]()
    for (sender, was_sender), (receiver, was_receiver) in itertools.product(ends, ends):
        if (sender, receiver) not in facts:
            continue
        fact, before = facts[sender, receiver], past.get((was_sender, was_receiver))
        if before and before['denied_by'] and not fact['denied_by'] and share(fact['services'], before['services']):
            weaker[str(sender), str(receiver), str(was_sender), str(was_receiver)] = before['denied_by']
        if fact['gap'] and not (before and before['gap']):
            gaps.add((str(sender), str(receiver)))
    order = {host['name']: number for number, host in enumerate(new['hosts'])}
    past_order = {host['name']: number for number, host in enumerate(old['hosts'])}
    listed = sorted(weaker, key=lambda key: (order[key[0]], order[key[1]], past_order[key[2]], past_order[key[3]]))
    return {'weaker': [{'flow': key[:2], 'old': key[2:], 'denied_by': weaker[key]} for key in listed],
            'gaps': sorted(gaps, key=lambda flow: (order[flow[0]], order[flow[1]]))}


def packets(old: Table, new: Table) -> Iterator[tuple[int, int, int, int]]:
    """Yields a packet for each pair of ranges of addresses, and each range of services."""
    found = addresses(old, new)
    for sender, receiver in itertools.product(found, found):
        for protocol, port in PLACES:
            yield sender, receiver, protocol, port


def text(address: int) -> str:
    return '.'.join(str(address >> shift & 255) for shift in (24, 16, 8, 0))


def verdicts(programs: Programs, description_text: bytes, asked: list[tuple[int, int, int, int]]
             ) -> list[tuple[bool, bool, bool]]:
    """Returns whether each packet passes, whether its answer passes then, and whether the answer passes alone."""
    lines = []
    for sender, receiver, protocol, port in asked:
        there = f'{text(sender)} {text(receiver)} {protocol} {SPORT} {port}'
        back = f'{text(receiver)} {text(sender)} {protocol} {port} {SPORT}'
        lines += [f'packet {there}', f'packet {back}', f'forget {there}', f'packet {back}', f'forget {back}']
    found: list[str] = []
    rules = programs.rules(description_text)
    for start in range(0, len(lines), 500_000):
        found += programs.trace(rules, '\n'.join(lines[start:start + 500_000]) + '\n')
    said = [each == 'forward' for each in found]
    return list(zip(said[0::5], said[1::5], said[3::5]))
