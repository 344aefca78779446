"""Random networks over all templates, for the test of the report."""
import random
from typing import Any

from topos_tools.query import toml

LABELS, PATHS = ['red', 'blue', 'card'], ['a', 'a/b', 'a/c', 'd']
KINDS = {'sink': ['sink', 'pool', 'unassigned'], 'noninterference': ['interfering', 'unrelated', 'unrelated'],
         'gateway': ['gateway', 'gateway-in', 'member', 'accessible', 'unassigned'],
         'tenants': ['red', 'blue', 'shared']}
TEMPLATES = ['blp', 'tainting', 'sink', 'gateway', 'subnets', 'partners', 'domains', 'dependability', 'noninterference',
             'noreach', 'tenants']
WIDE = ('dependability', 'noreach', 'noninterference')  # those that deny nearly all without entries
SERVICES = ['tcp/80', 'tcp', 'udp/53', 'icmp', 'tcp/8000-8080', 'udp']
TABLE = '''# the <table> & "its" kinds
[[template]]
name = "tenants"
strategy = "access"
kinds = ["red", "blue", "shared"]
default = "shared"
deny = [["red", "blue"], ["blue", "red"], ["shared", "red"], ["shared", "blue"]]'''


def partners_entry(chance: random.Random, others: list[str]) -> dict[str, Any]:
    kind = chance.choice(['dontcare', 'care', 'master', 'master'])
    listed = {'from': chance.sample(others, chance.randrange(min(len(others), 12) + 1))} if kind == 'master' else {}
    return {'kind': kind, **listed}


def entry(chance: random.Random, template: str, others: list[str], size: int) -> dict[str, Any]:
    """Returns a random attribute of a template."""
    if template in KINDS:
        return {'kind': chance.choice(KINDS[template])}
    if template == 'blp':
        return {'level': chance.randrange(3), 'trusted': chance.random() < .3}
    if template == 'tainting':
        taints = chance.sample(LABELS, chance.randrange(1, 3))
        return {'taints': taints, 'untaints': taints[:chance.randrange(2)]}
    if template == 'subnets':
        return {'kind': chance.choice(['subnet', 'border']), 'number': chance.randrange(2)}
    if template == 'partners':
        return partners_entry(chance, others)
    if template == 'domains':
        return {'path': chance.choice(PATHS), 'trust': chance.randrange(2)}
    if template == 'dependability':
        return {'limit': chance.randrange(1, size + 1)}
    return {'deny': chance.sample(others, chance.randrange(2))}


def flow_lines(chance: random.Random, pairs: list[tuple[str, str]]) -> list[str]:
    lines = ['flow = [  # wanted']
    for pair in chance.sample(pairs, int(len(pairs) * chance.random() * .7)):
        services = chance.sample(SERVICES, chance.randrange(3))
        lines += [f'  # topos: title flow {"-".join(pair)}', f'  {toml([*pair, *services])},']
    return [*lines, ']']


def host_lines(chance: random.Random, names: list[str]) -> list[str]:
    lines = ['host = [']
    for number, name in enumerate(names):
        is_rest = not number and chance.random() < .7
        at = 'rest = true' if is_rest else f'at = ["10.{number // 200}.{number % 200}.0/24"]'
        lines += [f'  # topos: title host {name} <b>', f'  # topos: why why {name},', '  # topos: why twice',
                  f'  {{ name = "{name}", {at} }},']
    return [*lines, ']']


def invariant_lines(chance: random.Random, number: int, names: list[str]) -> list[str]:
    template = chance.choice(TEMPLATES if len(names) <= 64 else [each for each in TEMPLATES if each not in WIDE])
    chosen = names if template in WIDE else chance.sample(names, chance.randrange(1, len(names) + 1))
    lines = [f'# {number + 1}. a comment with <b>, & and "quotes"', f'# topos: title invariant {number}',
             '[[invariant]]', f'template = "{template}"', 'assign = [']
    for name in chosen:
        others = [each for each in names if each != name]
        lines.append(f'  {toml({"host": name, **entry(chance, template, others, len(names))})},')
    return [*lines, ']']


def network(seed: int, hosts: int = 0) -> str:
    """Returns a random description, with two to eight hosts by default."""
    chance = random.Random(seed)
    count = hosts or chance.randrange(2, 9)
    names = [f'{chance.choice(["web", "db", "Desk", "x_y"])}-{number}' for number in range(count)]
    pairs = [(sender, receiver) for sender in names for receiver in names if sender != receiver]
    lines = ['topos = 2', f'answers = "{chance.choice(["all", "all", "all", "none"])}"']
    if hosts or chance.random() < .85:
        lines += flow_lines(chance, pairs if not hosts else chance.sample(pairs, 30 * hosts))
    lines += [*host_lines(chance, names), TABLE]
    for number in range(3 if hosts else chance.randrange(5)):
        lines += invariant_lines(chance, number, names)
    return '\n'.join(lines) + '\n'
