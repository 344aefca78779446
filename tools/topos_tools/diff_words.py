"""The words of a difference: sets of flows as few lines, names of invariants, lists that are cut."""
import textwrap
from collections.abc import Iterable

from .report_model import Flow, Source
from .why_network import joined

MOST_NAMES = 8  # that are shown of a list
MOST_TITLE = 60  # letters of a comment in place of a title
MANY = 4000  # flows, above which the search for the widest product is too slow
Product = tuple[tuple[str, ...], tuple[str, ...]]  # all flows from the first hosts to the second


def products(flows: Iterable[Flow]) -> list[Product]:
    """Returns products that make up a set of flows, the widest first."""
    left = list(dict.fromkeys(flows))
    if len(left) > MANY:
        return max(_candidates(left), key=lambda found: -len(found))
    found = []
    while left:
        widest = max((each for found_by in _candidates(left) for each in found_by),
                     key=lambda each: len(each[0]) * len(each[1]))
        found.append(widest)
        covered = {(sender, receiver) for sender in widest[0] for receiver in widest[1]}
        left = [flow for flow in left if flow not in covered]
    return found


def _candidates(flows: list[Flow]) -> tuple[list[Product], list[Product]]:
    """Returns the set as products of hosts with the same receivers, and of hosts with the same senders."""
    by_sender = _grouped(flows)
    by_receiver = _grouped([(receiver, sender) for sender, receiver in flows])
    return by_sender, [(senders, receivers) for receivers, senders in by_receiver]


def _grouped(flows: list[Flow]) -> list[Product]:
    ends: dict[str, list[str]] = {}
    for first, second in flows:
        ends.setdefault(first, []).append(second)
    same: dict[tuple[str, ...], list[str]] = {}
    for first, seconds in ends.items():
        same.setdefault(tuple(sorted(seconds)), []).append(first)
    return [(tuple(firsts), tuple(ends[firsts[0]])) for firsts in same.values()]


def few(words: Iterable[str], most: int | None = MOST_NAMES) -> str:
    """Returns a list of words, cut after the most that are shown; None shows all."""
    listed = list(words)
    if most is None or len(listed) <= most + 1:
        return ' '.join(listed)
    return f'{" ".join(listed[:most])} and {len(listed) - most} more'


def arrow(product: Product, most: int | None = MOST_NAMES) -> str:
    return f'{few(product[0], most)} -> {few(product[1], most)}'


def invariant_name(source: Source, number: int) -> str:
    """Returns the number of an invariant with its title, else with the comment above it, else with its template.

    The title and the comment may be those of its custom template.
    """
    place, template = source.page.invariant(number), source.network.invariants[number - 1]['template']
    if not (place.title or place.comment):
        place = source.page.templates.get(template, place)
    title = place.title or textwrap.shorten(place.comment, MOST_TITLE, placeholder=' ..')
    return f'{number} "{title}"' if title else f'{number} {template}'


def invariant_names(source: Source, numbers: Iterable[int]) -> str:
    """Returns the names of invariants, with the noun."""
    names = [invariant_name(source, number) for number in numbers]
    return f'invariant{"s" if len(names) > 1 else ""} {joined(names)}'
