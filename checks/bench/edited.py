"""Descriptions of 256 hosts, and edits of them."""
import random
from collections.abc import Iterator

from descriptions import HOSTS, description, each, mixed_invariants, name, pairs

EDITS, WALK_EDITS, SAME_EDITS, ANEW_EDITS = 10000, 1000, 100, 20
SPARSE, DENSE = 217, 8  # one of this number of pairs is asked for: some 300 flows, and some 8,200
EDGE_WISE = 8  # the first of the mixed invariants that is edge-wise


def asked(share: int) -> list[tuple[str, str]]:
    return pairs(lambda i, j: (37 * i + 11 * j) % share == 0)


def alone(share: int) -> str:
    """Eight edge-wise invariants."""
    return description(asked(share), mixed_invariants()[EDGE_WISE:])


def walks(share: int) -> str:
    """Sixteen invariants, half of which depend on paths."""
    return description(asked(share), mixed_invariants())


def flow_edits(share: int, count: int, chosen: random.Random) -> Iterator[str]:
    """Adds and removes flows in turn, so their number stays the same."""
    flows = asked(share)
    there, every = set(flows), pairs(lambda i, j: True)
    for number in range(count):
        if number % 2:
            place = chosen.randrange(len(flows))
            flow, flows[place] = flows[place], flows[-1]
            flows.pop()
            there.remove(flow)
            yield 'remove ' + ' '.join(flow)
        else:
            flow = chosen.choice([flow for flow in (chosen.choice(every) for _ in range(64)) if flow not in there])
            flows.append(flow)
            there.add(flow)
            yield 'add ' + ' '.join(flow)


def flows_alone(share: int) -> Iterator[str]:
    return flow_edits(share, EDITS, random.Random(share))


def flows_and_assigns(share: int) -> Iterator[str]:
    """Every other edit sets the limit of a host, or takes out what was set there."""
    chosen = random.Random(share)
    flows = flow_edits(share, WALK_EDITS // 2, chosen)
    for host, flow in enumerate(flows):
        yield flow
        if host % 4 == 3:
            yield f'unset 1 {name(host // 2 % HOSTS)}'
        else:
            yield f'set 1 {{ host = "{name(host // 2 % HOSTS)}", limit = {100 + host % 150} }}'


def same() -> list[str]:
    """Each sets what is set, so that the description is read anew and stays as it is: the cost of from scratch."""
    return [f'set 1 {{ host = "{name(host)}", level = 7 }}' for host in range(SAME_EDITS)]


def narrowed(share: int, invariants: list[str]) -> str:
    """The same flows in version 2, so that flows may have services."""
    return description(asked(share), invariants, 2)


def edits_anew(share: int, attribute: str) -> dict[str, list[str]]:
    """Edits for which the description is read anew, by what they change; `attribute` is what invariant 1 assigns."""
    there = set(asked(share))
    absent = [flow for flow in pairs(lambda i, j: True) if flow not in there]
    fresh = random.Random(share).sample(absent, ANEW_EDITS // 2)
    return {
        'services': [line for a, b in fresh for line in (f'add {a} {b} tcp/80', f'remove {a} {b}')],
        'set': [f'set 1 {{ host = "{name(host)}", {attribute} }}' for host in range(ANEW_EDITS)],
        'unset': [f'unset 1 {name(host)}' for host in range(ANEW_EDITS)],
    }
