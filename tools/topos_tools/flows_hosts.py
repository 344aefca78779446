"""Addresses that rules single out: parts of hosts, and a proposal of hosts."""
import itertools
import re
from collections.abc import Iterator

from .flows_list import lines_text
from .import_save import Save
from .import_sets import (ALL_ADDRESSES, Numbers, address_text, difference, intersection, is_subset, joined,
                          prefix, prefix_text, prefixes)
from .import_tables import Interfaces
from .import_words import Refused, addresses

REST = 'rest'
MOST_HOSTS, MOST_PREFIXES, LONGEST_NAME = 256, 1024, 32  # of a description
MOST_SHOWN = 4
NO_HOST = prefix(0xe0000000, 3)  # multicast, reserved and broadcast addresses


def named_sets(save: Save) -> dict[Numbers, list[int]]:
    """Returns the sets of addresses that rules name, with the lines that name them. A rule may have to match."""
    found: dict[Numbers, list[int]] = {}
    for rule in save.all_rules():
        for numbers in rule.named if rule.pieces else ():
            if numbers not in ((), ALL_ADDRESSES):
                found.setdefault(numbers, []).append(rule.line)
    return found


def parts_of_hosts(save: Save, hosts: dict[str, Numbers]) -> Iterator[str]:
    """Yields a line for each set that a rule names and of which a host has other addresses too."""
    for numbers, lines in named_sets(save).items():
        cut = [host for host, owned in hosts.items() if is_part(intersection(numbers, owned), owned)]
        if cut:
            verb = 'name' if len(lines) > 1 else 'names'
            yield f'{lines_text(lines)} {verb} {told(numbers)}, a part of {" ".join(cut)}'


def is_part(part: Numbers, whole: Numbers) -> bool:
    return part not in ((), whole)


def told(numbers: Numbers) -> str:
    shown = [prefix_text(*each).removesuffix('/32') for each in prefixes(numbers)]
    return ' '.join(shown[:MOST_SHOWN]) + (f' and {len(shown) - MOST_SHOWN} more' if len(shown) > MOST_SHOWN else '')


def owned_addresses(table: dict[str, list[str]]) -> dict[str, Numbers]:
    """Returns the addresses of hosts by their prefixes; a host without prefixes has the rest."""
    found: dict[str, Numbers] = {}
    for host, at in table.items():
        found[host] = joined(interval for each in at for interval in addresses(each) or ())
    rest = difference(ALL_ADDRESSES, joined(each for numbers in found.values() for each in numbers))
    return {host: numbers or rest for host, numbers in found.items()}


def interfaces_of_hosts(save: Save | None, hosts: dict[str, Numbers]) -> dict[str, str]:
    """Returns the interface of each host all of whose addresses are behind it."""
    networks = save.context.interfaces.networks if save and save.context.interfaces else {}
    return {host: interface for host, owned in hosts.items() for interface, behind in networks.items()
            if is_subset(owned, behind)}


# A proposal of hosts.

def sets_of_hosts(save: Save, interfaces: Interfaces) -> dict[Numbers, list[int]]:
    """Returns the sets that rules name, without addresses that no host has, and except sets of broadcast addresses."""
    found: dict[Numbers, list[int]] = {}
    for numbers, lines in named_sets(save).items():
        owned = difference(numbers, NO_HOST)
        if not is_subset(owned, interfaces.broadcasts):
            found.setdefault(owned, []).extend(lines)
    return found


def proposal(save: Save, interfaces: Interfaces) -> str:
    """Returns hosts: the networks of each interface, and the sets that rules single out from them."""
    if not interfaces.networks:
        raise Refused('the table of interfaces is empty')
    named = sets_of_hosts(save, interfaces)
    rest = max(interfaces.networks, key=lambda name: sum(high - low for low, high in interfaces.networks[name]))
    classes: dict[tuple[str, tuple[Numbers, ...]], Numbers] = {}
    for interface, behind in interfaces.networks.items():
        networks = difference(behind, NO_HOST)
        cutting = [each for each in named if is_part(intersection(each, networks), networks)
                   and (interface != rest or is_subset(each, networks))]
        for numbers, within in split(networks, cutting):
            classes[interface, within] = numbers
    lines, names, count = [], set[str](), 0
    for (interface, within), numbers in classes.items():
        if not numbers or interface == rest and not within:
            continue
        name = fresh_name(interface, numbers if within else (), names)
        at = [prefix_text(*each).removesuffix('/32') for each in prefixes(numbers)]
        count += len(at)
        reason = lines_text({line for each in within for line in named[each]}) or f'behind {interface}'
        lines.append(f'  {{ name = "{name}", at = [{", ".join(map(quoted, at))}] }},  # {reason}')
    lines.append(f'  {{ name = "{REST}", rest = true }},  # behind {rest}')
    if len(lines) > MOST_HOSTS or count > MOST_PREFIXES:
        lines.append(f'  # {len(lines)} hosts with {count} prefixes: a description has at most {MOST_HOSTS} and '
                     f'{MOST_PREFIXES}')
    return '\n'.join(['topos = 2', 'flow = []', 'host = [', *lines, ']', ''])


def split(networks: Numbers, sets: list[Numbers]) -> list[tuple[Numbers, tuple[Numbers, ...]]]:
    """Splits networks into parts that lie in the same sets."""
    parts: list[tuple[Numbers, tuple[Numbers, ...]]] = [(networks, ())]
    for each in sorted(sets, key=lambda given: given[0][0] - given[-1][1]):
        split_parts = []
        for numbers, within in parts:
            inside, outside = intersection(numbers, each), difference(numbers, each)
            split_parts += [(outside, within)] if outside else []
            split_parts += [(inside, (*within, each))] if inside else []
        parts = split_parts
        if len(parts) > MOST_HOSTS * 4:
            raise Refused('the rules single out too many parts')
    return parts


def fresh_name(interface: str, numbers: Numbers, names: set[str]) -> str:
    """Returns a name of a host that is not taken: the interface, with the first of the addresses if there are any."""
    single = address_text(numbers[0][0]).replace('.', '-') if numbers else ''
    base = re.sub('[^A-Za-z0-9_-]', '-', f'{interface}-{single}' if single else interface)[:LONGEST_NAME - 4]
    numbered = (f'{base}-{number}' for number in itertools.count(2))
    name = next(each for each in itertools.chain([base], numbered) if each not in names | {REST})
    names.add(name)
    return name


def quoted(word: str) -> str:
    return f'"{word}"'
