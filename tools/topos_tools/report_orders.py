"""Orders of hosts, and groups of hosts with the same flows."""
import ipaddress

from .report_model import Network, Report
from .report_words import DENIED, PERMITTED

SHOWN = PERMITTED + DENIED


def set_orders(report: Report) -> None:
    """Sets the groups and the orders of a report."""
    network = report.network
    report.groups = groups_of(network)
    report.orders = {
        'file': list(range(len(network.names))), 'address': by_address(network),
        'flows': [host for place in clustered(report.groups, network.rows) for host in report.groups[place]]}


def by_address(network: Network) -> list[int]:
    """Returns the hosts ordered by their first address; the rest host is the first."""
    def key(number: int) -> int:
        at = network.hosts[number]['at']
        return int(ipaddress.ip_network(at[0]).network_address) if at else -1
    return sorted(range(len(network.names)), key=key)


def marks_of(network: Network) -> list[list[int]]:
    """Returns a number for each pair: two pairs have the same one if their cells look the same."""
    numbers: dict[tuple[str, tuple[str, ...]], int] = {('', ()): 0}
    marks = iter([numbers.setdefault((state, tuple(network.services(flow))), len(numbers)) if state in SHOWN else 0
                  for flow, state in network.states.items()])
    hosts = range(len(network.names))
    return [[-1 if sender == receiver else next(marks) for receiver in hosts] for sender in hosts]


def groups_of(network: Network) -> list[list[int]]:
    """Returns the hosts in groups. The members of a group have the same flows, and the same one to each other."""
    hosts, grid = range(len(network.names)), marks_of(network)
    columns = [list(each) for each in zip(*grid)]
    sums = [sum(map(hash, zip(hosts, grid[host], columns[host]))) - hash((host, -1, -1)) for host in hosts]
    alike: dict[tuple[int, int], list[int]] = {}
    for host in hosts:
        # a member of the same group has the same sum if both have the mark between the two at their own place
        for inner in {mark for mark, back in zip(grid[host], columns[host]) if mark == back and mark >= 0}:
            alike.setdefault((inner, sums[host] + hash((host, inner, inner))), []).append(host)
    group_of: dict[int, list[int]] = {}
    for members in sorted(alike.values(), key=lambda each: (-len(each), each)):
        free = [host for host in members if host not in group_of]
        if len(free) > 1 and all(is_alike(grid, columns, free[0], host) for host in free[1:]):
            group_of.update(dict.fromkeys(free, free))
    return sorted({id(group): group for group in (group_of.get(host, [host]) for host in hosts)}.values())


def is_alike(grid: list[list[int]], columns: list[list[int]], one: int, other: int) -> bool:
    """Whether two hosts have the same marks to and from all others, and to each other."""
    return grid[one][other] == grid[other][one] and all(
        lines[one][host] == lines[other][host] for lines in (grid, columns) for host in range(len(grid))
        if host not in (one, other))


def bits(states: str, wanted: str) -> str:
    return ''.join('1' if each in wanted else '0' for each in states)


def distances(first: list[int], rows: list[str]) -> list[list[float]]:
    """Returns for each two groups the number of pairs in which they differ."""
    columns = [''.join(column) for column in zip(*rows)]
    marks = [int('1' + ''.join(bits(rows[host] + columns[host], wanted) for wanted in (PERMITTED, DENIED)), 2)
             for host in first]
    return [[float((one ^ other).bit_count()) for other in marks] for one in marks]


class Tree:
    """A cluster: its groups in order, and the sum of their weights."""

    def __init__(self, members: list[int], weight: float) -> None:
        self.members, self.weight = members, weight

    def key(self) -> tuple[float, int]:
        return -self.weight / len(self.members), self.members[0]

    def joined(self, other: 'Tree') -> 'Tree':
        first, second = sorted((self, other), key=Tree.key)
        return Tree(first.members + second.members, first.weight + second.weight)


def clustered(groups: list[list[int]], rows: list[str]) -> list[int]:
    """Returns the groups in an order in which neighbours have similar flows (average linkage); senders come first."""
    first = [group[0] for group in groups]
    apart = distances(first, rows)
    columns = [''.join(column) for column in zip(*rows)]
    weight = [sum(map(rows[host].count, PERMITTED)) - sum(map(columns[host].count, PERMITTED)) for host in first]
    trees = {number: Tree([number], weight[number]) for number in range(len(first))}
    chain: list[int] = []  # of nearest neighbours
    while len(trees) > 1:
        chain = chain or [min(trees)]
        last, before = chain[-1], chain[-2] if len(chain) > 1 else None
        near = min((each for each in trees if each != last), key=lambda each: (apart[last][each], each != before, each))
        if near != before:
            chain.append(near)
            continue
        del chain[-2:]
        merge(trees, apart, last, near)
    return next(iter(trees.values())).members if trees else []


def merge(trees: dict[int, Tree], apart: list[list[float]], last: int, near: int) -> None:
    """Replaces two clusters by one, which has the number of the first."""
    one, other = trees.pop(last), trees.pop(near)
    sizes = len(one.members), len(other.members)
    for each in trees:
        apart[last][each] = apart[each][last] = (
            apart[last][each] * sizes[0] + apart[near][each] * sizes[1]) / sum(sizes)
    trees[last] = one.joined(other)
