"""Prints a host with all private addresses, or all of some networks, that no host of a description has.

The prefixes are the fewest that cover exactly these addresses. A host of that name that the description has already
is not counted: the printed host replaces it.
"""
from __future__ import annotations

import re
from ipaddress import IPv4Network

from .import_sets import Numbers, difference, intersection, joined, prefix, prefixes
from .query import (BUDGET, READS_ANSWERS, USAGE, Programs, Stopped, Tool, data_text, need_words, read_bytes, text_of,
                    write_text)

TYPE_CHECKING = False
if TYPE_CHECKING:
    from collections.abc import Iterable
    from typing import Any

USAGE_TEXT = '''usage: topos-rest [--program TOPOS] [--name NAME] [--json] FILE [NETWORK ..]
           prints a host named `unlisted`, or NAME, with all addresses of the networks that belong to no other host;
           the default networks are the private ones: 10.0.0.0/8, 172.16.0.0/12, 192.168.0.0/16
       --json   prints the host as JSON
'''
SCHEMA = 'topos-rest 1'
PRIVATE = ('10.0.0.0/8', '172.16.0.0/12', '192.168.0.0/16')
HOSTS, PREFIXES = 256, 1024  # as many as a description may have
LONGEST_READING = 30  # seconds for a description that the program refuses
NAME = re.compile('[A-Za-z0-9_-]{1,32}')  # of a host
NOWHERE = '255.255.255.255'  # the address of the host while the others are read
WIDTH = 112  # of a line of prefixes


def left(networks: Iterable[IPv4Network], taken: Iterable[IPv4Network]) -> list[IPv4Network]:
    """Returns the smallest list of prefixes that cover exactly the addresses of the networks that are not taken."""
    free = difference(addresses_of(networks), addresses_of(taken))
    halves = prefix(0, 1), prefix(1 << 31, 1)  # a description has no prefix of the length 0
    return [IPv4Network(each) for half in halves for each in prefixes(intersection(free, half))]


def addresses_of(networks: Iterable[IPv4Network]) -> Numbers:
    return joined((int(each[0]), int(each[-1])) for each in networks)


def read_network(word: str) -> IPv4Network:
    try:
        return IPv4Network(word)
    except ValueError as fault:
        raise Stopped(f'{word} is not a network: {fault}', USAGE) from None


def others(programs: Programs, text: bytes, name: str) -> list[dict[str, Any]]:
    """Returns the hosts except the one of this name.

    With that host the program may refuse the description, since it overlaps new hosts. So the program is asked first,
    and only if it refuses the file, it is asked about a copy in which that host has another address.
    """
    try:
        answer = programs.ask(text, 'network')
    except Stopped as refused:
        answer = programs.ask(moved(text, name, refused), 'network')
    return [host for host in answer['hosts'] if host['name'] != name]


def moved(text: bytes, name: str, refused: Stopped) -> bytes:
    """Returns the description with the host of this name elsewhere. A key of many parts is slow for `tomllib`."""
    from .toml_places import Fault, Scanner
    BUDGET.start(LONGEST_READING)
    try:
        table = Scanner(text.decode()).document().plain()
    except (Fault, ValueError, RecursionError):
        raise refused from None
    BUDGET.start()
    named = [host for host in table.get('host', []) if host.get('name') == name] if is_form(table) else []
    if len(named) != 1:
        raise refused
    named[0]['at'] = [NOWHERE]
    return text_of(table)


def is_form(table: dict[str, Any]) -> bool:
    hosts = table.get('host')
    return isinstance(hosts, list) and all(isinstance(host, dict) for host in hosts)


def written(prefix: IPv4Network) -> str:
    return str(prefix if prefix.prefixlen < 32 else prefix.network_address)


def printed(name: str, prefixes: list[IPv4Network], is_table: bool) -> str:
    """Returns the host as a separate table, or as an element of `host = [..]`."""
    lines = ['']
    for word in (f'"{written(prefix)}",' for prefix in prefixes):
        if len(lines[-1]) + len(word) > WIDTH:
            lines.append('')
        lines[-1] += (' ' if lines[-1] else '') + word
    if is_table:
        return '\n'.join(['[[host]]', f'name = "{name}"', 'at = [', *(f'  {line}' for line in lines), ']'])
    return '\n'.join([f'  {{ name = "{name}", at = [', *(f'    {line}' for line in lines), '  ] },'])


def refuse_unfit(hosts: list[dict[str, Any]], taken: list[IPv4Network], prefixes: list[IPv4Network]) -> None:
    if not prefixes:
        raise Stopped('every one of these addresses is a host\'s: there is nothing left')
    if len(taken) + len(prefixes) > PREFIXES:
        raise Stopped(f'these are {len(prefixes)} prefixes, and with the {len(taken)} of the hosts more than the '
                      f'{PREFIXES} of a description: specify fewer networks, those of your firewall')
    if len(hosts) == HOSTS:
        raise Stopped(f'the description already has {HOSTS} hosts, the maximum')


def main(values: dict[str, str], options: set[str], words: list[str]) -> int:
    need_words(words, 1, 'a file is required', len(words))
    name, text = values.get('--name', 'unlisted'), read_bytes(words[0])
    if not NAME.fullmatch(name):
        raise Stopped(f'{name} is not a name of a host', USAGE)
    networks = list(map(read_network, words[1:] or PRIVATE))
    hosts = others(Programs.find(values.get('--program')), text, name)
    taken = [IPv4Network(prefix) for host in hosts for prefix in host['at']]
    prefixes = left(networks, taken)
    refuse_unfit(hosts, taken, prefixes)
    if '--json' in options:
        write_text(None, data_text({'schema': SCHEMA, 'name': name, 'at': list(map(written, prefixes))}))
        return 0
    is_table = any(line.split('#')[0].replace(' ', '').strip() == '[[host]]' for line in text.decode().splitlines())
    write_text(None, printed(name, prefixes, is_table) + '\n')
    return 0


TOOL = Tool(SCHEMA + READS_ANSWERS, USAGE_TEXT, {'--program', '--name'}, {'--json'}, main)
