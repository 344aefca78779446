"""Lists the flows that only the list of flows prevents: pairs of hosts that no invariant separates.

These are the flows that `topos-query network` marks as gaps: not asked for, and each together with all allowed flows
breaks no invariant.
"""
from __future__ import annotations

from .names import told_hosts
from .query import (READS_ANSWERS, USAGE, Programs, Stopped, Tool, data_text, lines_text, need_words, read_bytes, toml,
                    write_text)

TYPE_CHECKING = False
if TYPE_CHECKING:
    from collections.abc import Iterator
    from typing import Any

USAGE_TEXT = '''usage: topos-gaps [--program TOPOS] [--json] FILE
           prints a line for each receiver: its name, the number of hosts that only the list of flows denies, and their
           names, or `all but` and the names of the others if these are fewer
       topos-gaps [--program TOPOS] --open FILE
           prints the description without its key `flow`: for `topos policy`, never to load
       --json   prints the receivers as JSON
       topos-query is the program in TOPOS_QUERY, else the one next to topos, else the one on the PATH
'''
SCHEMA = 'topos-gaps 1'


def gaps(answer: dict[str, Any]) -> list[list[str]]:
    """Returns the flows that are marked as gaps, in the order of the answer."""
    return [each['flow'] for each in answer['flows'] if each['gap']]


def senders(answer: dict[str, Any]) -> dict[str, list[str]]:
    """Returns for each host, in the order of the file, the senders that only the list of flows denies."""
    found: dict[str, list[str]] = {host['name']: [] for host in answer['hosts']}
    for sender, receiver in gaps(answer):
        found[receiver].append(sender)
    return {receiver: names for receiver, names in found.items() if names}


def open_lines(table: dict[str, Any]) -> Iterator[str]:
    """Returns the lines of the description without its key `flow`."""
    for key in ('topos', 'answers'):
        if key in table:
            yield f'{key} = {toml(table[key])}'
    for key in ('host', 'template', 'invariant'):
        if key in table:
            yield from (f'{key} = [', *(f'  {toml(each)},' for each in table[key]), ']')


def main(values: dict[str, str], options: set[str], words: list[str]) -> int:
    need_words(words, 1, 'a file is required')
    if {'--open', '--json'} <= options:
        raise Stopped('--json and --open exclude each other', USAGE)
    programs, text = Programs.find(values.get('--program')), read_bytes(words[0])
    if '--open' in options:
        write_text(None, lines_text(open_lines(programs.table(text))))
        return 0
    answer = programs.ask(text, 'network')
    found, hosts = senders(answer), [host['name'] for host in answer['hosts']]
    if '--json' in options:
        receivers = [{'to': receiver, 'from': names} for receiver, names in found.items()]
        write_text(None, data_text({'schema': SCHEMA, 'receivers': receivers}))
    else:
        lines = (f'{receiver} {len(names)} from {told_hosts(names, hosts, [receiver])}'
                 for receiver, names in found.items())
        write_text(None, lines_text(lines))
    return 0


TOOL = Tool(SCHEMA + READS_ANSWERS, USAGE_TEXT, {'--program'}, {'--open', '--json'}, main)
