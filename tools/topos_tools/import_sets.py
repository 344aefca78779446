"""Sets of addresses, ports and protocols, as sorted intervals that do not touch."""
from collections.abc import Iterable

Numbers = tuple[tuple[int, int], ...]

MOST_ADDRESS, MOST_PORT, MOST_PROTOCOL = 0xffffffff, 0xffff, 0xff
ALL_ADDRESSES: Numbers = ((0, MOST_ADDRESS),)
ALL_PORTS: Numbers = ((0, MOST_PORT),)
ALL_PROTOCOLS: Numbers = ((0, MOST_PROTOCOL),)
BITS = 32


def joined(intervals: Iterable[tuple[int, int]]) -> Numbers:
    """Returns the set of the numbers in any of the intervals."""
    found: list[tuple[int, int]] = []
    for low, high in sorted(intervals):
        if low > high:
            continue
        if found and low <= found[-1][1] + 1:
            found[-1] = found[-1][0], max(high, found[-1][1])
        else:
            found.append((low, high))
    return tuple(found)


def complement(numbers: Numbers, greatest: int) -> Numbers:
    """Returns the numbers from 0 to the greatest that are not in the set."""
    found, start = [], 0
    for low, high in numbers:
        if low > start:
            found.append((start, low - 1))
        start = high + 1
    if start <= greatest:
        found.append((start, greatest))
    return tuple(found)


def intersection(left: Numbers, right: Numbers) -> Numbers:
    found, one, other = [], 0, 0
    while one < len(left) and other < len(right):
        low, high = max(left[one][0], right[other][0]), min(left[one][1], right[other][1])
        if low <= high:
            found.append((low, high))
        if left[one][1] < right[other][1]:
            one += 1
        else:
            other += 1
    return tuple(found)


def difference(numbers: Numbers, others: Numbers) -> Numbers:
    """Returns the numbers of a set that are not in another one."""
    return intersection(numbers, complement(others, numbers[-1][1])) if numbers else ()


def is_subset(part: Numbers, whole: Numbers) -> bool:
    return intersection(part, whole) == part


def single(number: int) -> Numbers:
    return ((number, number),)


def prefix(base: int, length: int) -> Numbers:
    """Returns the addresses whose first bits are those of the base."""
    mask = (MOST_ADDRESS << (BITS - length)) & MOST_ADDRESS
    return ((base & mask, base & mask | MOST_ADDRESS >> length),)


def prefixes(addresses: Numbers) -> list[tuple[int, int]]:
    """Returns the fewest prefixes that make up the set, each as its base and length."""
    found = []
    for low, high in addresses:
        while low <= high:
            free = (low & -low).bit_length() - 1 if low else BITS
            free = min(free, (high - low + 1).bit_length() - 1)
            found.append((low, BITS - free))
            low += 1 << free
    return found


def address_text(address: int) -> str:
    return '.'.join(str(address >> shift & 255) for shift in (24, 16, 8, 0))


def prefix_text(base: int, length: int) -> str:
    return f'{address_text(base)}/{length}'
