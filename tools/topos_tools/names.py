"""Short words for many hosts: `all`, `all but ..`, and flows as products of hosts."""
from __future__ import annotations

TYPE_CHECKING = False
if TYPE_CHECKING:
    from collections.abc import Collection, Iterable

MOST_NAMED = 8  # hosts, above which those that are missing are named if they are fewer
ALL = 'all'
LEAST_SHARED = 3  # hosts with the same others that are told to have flows to themselves, too


def told_hosts(names: Collection[str], hosts: Collection[str], others: Collection[str] = ()) -> str:
    """Returns names of hosts, or which of all hosts are missing if these are fewer.

    If the hosts at the other end of the flows are one alone, it is not told to be missing.
    """
    alone = others if len(others) == 1 else ()
    missing = [host for host in hosts if host not in names and host not in alone]
    if len(names) <= MOST_NAMED or len(missing) >= len(names) or ALL in hosts:
        return ' '.join(host for host in hosts if host in names)
    return ' '.join([f'{ALL} but', *missing]) if missing else ALL


def arrow(senders: Collection[str], receivers: Collection[str], hosts: Collection[str]) -> str:
    """Returns a product of hosts for a reader."""
    return f'{told_hosts(senders, hosts, receivers)} -> {told_hosts(receivers, hosts, senders)}'


def products(flows: Iterable[tuple[str, str]]) -> list[tuple[set[str], set[str]]]:
    """Returns products of hosts that have these flows, and perhaps those of a host to itself."""
    pairs = list(flows)
    by_sender = grouped(pairs)
    by_receiver = grouped([(receiver, sender) for sender, receiver in pairs])
    return by_sender if len(by_sender) <= len(by_receiver) else [(ends, receivers) for receivers, ends in by_receiver]


def grouped(pairs: Iterable[tuple[str, str]]) -> list[tuple[set[str], set[str]]]:
    """Groups the first hosts of pairs that have the same second ones, themselves left out or added."""
    ends: dict[str, set[str]] = {}
    for first, second in pairs:
        ends.setdefault(first, set()).add(second)
    counts: dict[frozenset[str], int] = {}
    forms = {first: (frozenset(others), frozenset(others | {first})) for first, others in ends.items()}
    for both in forms.values():
        for each in both:
            counts[each] = counts.get(each, 0) + 1
    found: dict[frozenset[str], set[str]] = {}
    for first, (others, closed) in forms.items():
        is_shared = counts[closed] >= LEAST_SHARED and counts[closed] > counts[others]
        found.setdefault(closed if is_shared else others, set()).add(first)
    return [(firsts, set(others)) for others, firsts in found.items()]
