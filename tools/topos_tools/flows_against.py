"""Compares what rules let pass with what a description permits."""
from collections.abc import Iterator
from dataclasses import dataclass, field

from .flows_answer import Pair
from .flows_groups import Ends
from .flows_list import Listing, grouped
from .flows_rules import Rules
from .flows_services import ALL_SERVICES, brief_services, of_words, size
from .import_sets import Numbers, difference, intersection, joined
from .names import arrow, products
from .query import Programs


def permitted(programs: Programs, description: bytes, omitted: Numbers) -> dict[Pair, Numbers]:
    """Returns the services of each permitted flow, without those omitted unless it has all."""
    found: dict[Pair, Numbers] = {}
    for each in programs.ask(description, 'network')['flows']:
        if each['permitted']:
            services = of_words(each['services'])
            pair = each['flow'][0], each['flow'][1]
            found[pair] = services if services == ALL_SERVICES else difference(services, omitted)
    return found


@dataclass(frozen=True)
class Surplus:
    """Services that only the rules of some lines let pass, or, without lines, only the description permits."""
    lines: tuple[int, ...] | None
    services: Numbers
    note: str

    def told(self) -> str:
        return f'{brief_services(self.services)}{self.note}'


@dataclass
class Pairs:
    """The pairs of hosts with the same surplus, the size of the greatest sender, and a packet that passes."""
    pairs: list[Ends] = field(default_factory=list)
    senders: int = 0
    example: str = ''


class Differences:
    """What rules and a description treat in different ways."""

    def __init__(self, listing: Listing, flows: dict[Pair, Numbers], omitted: Numbers,
                 owned: dict[str, Numbers]) -> None:
        self.listing, self.owned = listing, owned
        self.found: dict[Surplus, Pairs] = {}
        for pair in listing.pairs():
            services = flows.get(pair, ())
            for surplus, example in (*self.opened(pair, services, omitted), *self.closed(pair, services)):
                group = self.found.setdefault(surplus, Pairs())
                group.pairs.append(pair)
                group.senders = max(group.senders, size(owned[pair[0]]))
                group.example = group.example or example

    def opened(self, pair: Ends, services: Numbers, omitted: Numbers) -> Iterator[tuple[Surplus, str]]:
        """Yields what the rules may let pass and the description does not permit, by rules."""
        left_out = () if self.listing.upper.whole(pair) == ALL_SERVICES else omitted
        open_ = difference(self.listing.upper.any(pair), joined(services + left_out))
        for lines, parts in grouped(self.listing.upper.ranges(pair)).items() if open_ else ():
            shared = intersection(joined(each for part in parts for each in part.services), open_)
            example = next((f', as {each}' for part in parts if (each := part.example(shared))), '')
            if shared:
                yield Surplus(lines, shared, limits(self.listing, pair, shared)), example

    def closed(self, pair: Ends, services: Numbers) -> Iterator[tuple[Surplus, str]]:
        """Yields what the description permits and the rules do not surely let pass."""
        found = difference(services, self.listing.lower.whole(pair))
        if found:
            yield Surplus(None, found, limits(self.listing, pair, found)), ''

    def ordered(self) -> list[tuple[Surplus, Pairs]]:
        """Lists the differences: what only rules let pass first, then most services, then most senders."""
        return sorted(self.found.items(), key=lambda each: (each[0].lines is None, -size(each[0].services),
                                                            -each[1].senders))

    def text(self, rules: Rules) -> list[str]:
        """Returns the differences for a reader, those of the same rules below these."""
        sections: dict[tuple[int, ...] | None, list[str]] = {}
        for surplus, group in self.ordered():
            sections.setdefault(surplus.lines, []).extend(
                f'  {arrow(senders, receivers, self.listing.hosts)}: {surplus.told()}{group.example}'
                for senders, receivers in products(group.pairs))
        found: list[str] = []
        for lines, told in sections.items():
            heads = ['description alone'] if lines is None else rules.heads(lines)
            found += [f'rules alone: {each}' if lines is not None else each for each in heads] + told
        return found


def limits(listing: Listing, pair: tuple[str, str], services: Numbers) -> str:
    """Returns whether the rules let some of the services pass in part, or only in doubt."""
    in_part = intersection(services, joined(each for part in listing.parts(pair) for each in part.services))
    whole = intersection(services, listing.upper.whole(pair))
    in_doubt = listing.doubtful(pair, whole) + difference(in_part, listing.lower.any(pair))
    told = [name for name, found in (('in part', in_part), ('in doubt', in_doubt)) if found]
    return ', ' + ' and '.join(told) if told else ''
