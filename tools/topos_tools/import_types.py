"""The types of addresses that `addrtype` matches, for packets that a kernel forwards.

A kernel delivers what is for an address of its own or a broadcast address, and with rp_filter drops what comes from
one. So a forwarded packet has addresses of two types.
"""
from .import_sets import MOST_ADDRESS, Numbers, complement, joined

MULTICAST: Numbers = ((0xe0000000, 0xefffffff),)
NEVER = {'UNSPEC', 'LOCAL', 'BROADCAST', 'ANYCAST', 'BLACKHOLE', 'UNREACHABLE', 'PROHIBIT', 'THROW', 'NAT', 'XRESOLVE'}
TYPES: dict[str, Numbers] = {
    **dict.fromkeys(NEVER, ()), 'MULTICAST': MULTICAST, 'UNICAST': complement(MULTICAST, MOST_ADDRESS)}


def addresses_of_types(words: str) -> Numbers:
    """Returns the addresses of any of the types. Fails with ValueError."""
    names = words.upper().split(',')
    if not TYPES.keys() >= set(names):
        raise ValueError(words)
    return joined(each for name in names for each in TYPES[name])
