"""Reads the sets that `ipset save` prints, as products of addresses and services.

A service is a protocol and a port as one number. Where a protocol has no ports, each port stands for it.
"""
import re
import socket
from collections.abc import Iterable, Iterator
from dataclasses import dataclass, field

from .import_sets import (ALL_ADDRESSES, MOST_ADDRESS, MOST_PORT, MOST_PROTOCOL, Numbers, complement, difference,
                          intersection, joined)
from .import_words import PROTOCOLS, Refused, address, address_range, decimal

ADDRESS, NETWORK, PORT, SERVICE = 'ip', 'net', 'port', 'service'
KINDS = {  # the dimensions of each type
    'hash:ip': (ADDRESS,), 'bitmap:ip': (ADDRESS,), 'hash:net': (NETWORK,), 'bitmap:port': (PORT,),
    'hash:ip,port': (ADDRESS, SERVICE), 'hash:net,port': (NETWORK, SERVICE), 'hash:net,net': (NETWORK, NETWORK),
    'hash:ip,port,ip': (ADDRESS, SERVICE, ADDRESS), 'hash:ip,port,net': (ADDRESS, SERVICE, NETWORK),
    'hash:net,port,net': (NETWORK, SERVICE, NETWORK)}
WITHOUT_VALUE = {'counters', 'comment', 'skbinfo', 'forceadd'}
WITH_VALUE = {'hashsize', 'maxelem', 'bucketsize', 'initval', 'range'}
COMMENT = re.compile('"[^"]*"')  # has no escapes
MOST_SERVICE = (MOST_PROTOCOL << 16) + MOST_PORT
WITH_PORTS = {6, 17}  # protocols whose ports a rule of topos has
PORTED = {6, 17, 1, 132, 136}  # protocols of which a set has ports or types
ICMP_TYPE: Numbers = ((1 << 16, 1 << 16),)  # each of them, as the model has none
MOST_PIECES = 1000  # of a rule with sets; with more the set is in doubt

Product = tuple[Numbers, ...]


@dataclass
class Set:
    """A set, with the reason why it is not read if there is one."""
    kind: str
    cause: str = ''
    entries: list[tuple[Product, bool]] = field(default_factory=list)  # and whether it is an exception

    def dimensions(self) -> tuple[str, ...]:
        return KINDS.get(self.kind, ())

    def products(self, is_negated: bool) -> list[Product]:
        """Returns disjoint products with the members, or with what is no member."""
        greatest = [MOST_ADDRESS if each in (ADDRESS, NETWORK) else MOST_SERVICE for each in self.dimensions()]
        return list(split(list(self.members()), greatest, is_negated))

    def members(self) -> Iterator[Product]:
        """Yields the products of the entries. The longest prefix with an address decides on exceptions."""
        place = next((place for place, kind in enumerate(self.dimensions()) if kind == NETWORK), None)
        if place is None or not any(is_exception for _, is_exception in self.entries):
            yield from (entry for entry, _ in self.entries)
            return
        alike: dict[Product, list[tuple[Numbers, bool]]] = {}
        for entry, is_exception in self.entries:
            alike.setdefault(entry[:place] + entry[place + 1:], []).append((entry[place], is_exception))
        for others, given in alike.items():
            yield (*others[:place], by_longest(given), *others[place:])


def by_longest(entries: list[tuple[Numbers, bool]]) -> Numbers:
    """Returns the addresses of networks. The longest prefix with an address decides, so it is taken last."""
    by_size: dict[int, tuple[list[tuple[int, int]], list[tuple[int, int]]]] = {}
    for entry, is_exception in entries:
        by_size.setdefault(entry[0][0] - entry[0][1], ([], []))[is_exception].extend(entry)
    found: Numbers = ()
    for _, (members, exceptions) in sorted(by_size.items()):
        found = difference(joined((*found, *members)), joined(exceptions))
    return found


def split(products: list[Product], greatest: list[int], is_negated: bool) -> Iterator[Product]:
    """Yields disjoint products with the numbers in any of the products, or in none."""
    if len(greatest) == 1:
        numbers = joined(interval for product in products for interval in product[0])
        wanted = complement(numbers, greatest[0]) if is_negated else numbers
        yield from [(wanted,)] if wanted else []
        return
    found: dict[tuple[Product, ...], list[tuple[int, int]]] = {}
    for low, high, within in slices(products, greatest[0]):
        found.setdefault(tuple(split(within, greatest[1:], is_negated)), []).append((low, high))
    for rest, intervals in found.items():
        yield from ((joined(intervals), *product) for product in rest)


def slices(products: list[Product], greatest: int) -> Iterator[tuple[int, int, list[Product]]]:
    """Yields ranges of the first dimension, with the other dimensions of the products that have them."""
    begins: dict[int, list[int]] = {0: []}
    ends: dict[int, list[int]] = {}
    for place, product in enumerate(products):
        for low, high in product[0]:
            begins.setdefault(low, []).append(place)
            ends.setdefault(high + 1, []).append(place)
    places = sorted({*begins, *ends, greatest + 1})
    current: dict[int, None] = {}
    for low, following in zip(places, places[1:]):
        for place in ends.get(low, ()):
            current.pop(place, None)
        current.update(dict.fromkeys(begins.get(low, ())))
        yield low, following - 1, [products[place][1:] for place in current]


def read_sets(text: str) -> dict[str, Set]:
    """Returns the sets of a text by their names."""
    sets: dict[str, Set] = {}
    for number, line in enumerate(text.splitlines(), 1):
        words = COMMENT.sub('', line).split()
        if words and words[0] not in ('create', 'add') and not words[0].startswith('#'):
            raise Refused(f'sets: line {number}: {line.strip()[:100]!r}')
        if words[:1] == ['create'] and len(words) > 2:
            sets[words[1]] = Set(words[2], cause_of(words[2], words[3:]))
        elif words[:1] == ['add'] and len(words) > 2 and words[1] in sets:
            add_entry(sets[words[1]], words[2], words[3:])
    for found in sets.values():
        if found.dimensions().count(NETWORK) > 1 and any(is_exception for _, is_exception in found.entries):
            found.cause = found.cause or 'nomatch in a set of two networks'
    return sets


def cause_of(kind: str, options: list[str]) -> str:
    """Returns why a set of a type with options is not read: something else decides beside its entries."""
    words = iter(options)
    for word in words:
        if word in WITH_VALUE:
            next(words, None)
        elif word == 'family':
            if next(words, '') != 'inet':
                return 'IPv6'
        elif word not in WITHOUT_VALUE:
            return f'{word} {next(words, "")}'.strip()
    return '' if kind in KINDS else f'the type {kind}'


def add_entry(found: Set, word: str, options: list[str]) -> None:
    if found.cause:
        return
    try:
        entry = entry_of(found.dimensions(), word)
    except (ValueError, OSError):
        found.cause = f'the entry {word[:50]}'
        return
    if 'nomatch' in options and (SERVICE, ICMP_TYPE) in zip(found.dimensions(), entry):
        found.cause = 'nomatch for a type of ICMP'  # other types may be members
    found.entries.append((entry, 'nomatch' in options))


def entry_of(dimensions: tuple[str, ...], word: str) -> Product:
    """Reads an entry. Fails with ValueError or OSError."""
    parts = word.split(',')
    if len(parts) != len(dimensions):
        raise ValueError(word)
    return tuple(part_of(kind, part) for kind, part in zip(dimensions, parts))


def part_of(kind: str, word: str) -> Numbers:
    if kind == PORT:
        ports = number_range(word)
        return tuple((number << 16 | low, number << 16 | high) for number in sorted(WITH_PORTS) for low, high in ports)
    if kind == SERVICE:
        return service(word)
    found = address_range(word) if kind == ADDRESS and '-' in word else address(word)
    if found is None:
        raise ValueError(word)
    return found


def number_range(word: str) -> Numbers:
    low, _, high = word.partition('-')
    bounds = decimal(low, MOST_PORT), decimal(high or low, MOST_PORT)
    if bounds[0] > bounds[1]:
        raise ValueError(word)
    return (bounds,)


def service(word: str) -> Numbers:
    """Reads a protocol with ports, or with a type of ICMP, of which the model has none."""
    name, colon, ports = word.partition(':')
    if not colon:
        name, ports = 'tcp', word
    number = PROTOCOLS.get(name.lower()) or (decimal(name, MOST_PROTOCOL) if name.isdigit()
                                             else socket.getprotobyname(name))
    base = number << 16
    if number not in PORTED:
        return ((base, base | MOST_PORT),)
    if number == 1:  # as types and codes, in words or numbers: none of them is decided
        return ICMP_TYPE
    return tuple((base | low, base | high) for low, high in number_range(ports))


def services_of(numbers: Numbers) -> Iterator[tuple[Numbers, Numbers, bool]]:
    """Yields protocols with their ports, and whether it is sure that their packets are in the set."""
    by_ports: dict[Numbers, list[int]] = {}
    for number in range(MOST_PROTOCOL + 1):
        base = number << 16
        ports = tuple((low - base, high - base) for low, high in
                      intersection(numbers, ((base, base | MOST_PORT),)))
        if ports:
            by_ports.setdefault(ports, []).append(number)
    for ports, protocols in by_ports.items():
        if ports == ((0, MOST_PORT),):
            yield joined((number, number) for number in protocols), ports, True
            continue
        for number in protocols:  # each apart, as a rule has the ports of one protocol
            is_sure = number in WITH_PORTS
            yield ((number, number),), ports if is_sure else ((0, MOST_PORT),), is_sure


def united(products: Iterable[Product], place: int) -> Numbers:
    """Returns the numbers of products in a dimension."""
    return joined(interval for product in products for interval in product[place]) or ALL_ADDRESSES
