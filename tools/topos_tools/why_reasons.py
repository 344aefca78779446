"""Sentences on the invariants that deny a flow: the flows on which each fails, and the entries of their hosts."""
from __future__ import annotations

import itertools

from .query import toml
from .why_network import Description, counted, joined, say

TYPE_CHECKING = False
if TYPE_CHECKING:
    from typing import Any

    from .page import Place
    from .why_network import Flow, Table

    Given = Table  # an invariant that fails, with the flows on which it does
    Step = tuple[str, bool, str]  # a host, whether it is the sender, and the next host

FEW = 3  # elements that a sentence lists, and changes that are printed
SHOWN = 6  # hosts of a failing set whose entries are printed


def chain(flows: list[Flow]) -> list[Step] | None:
    """The steps of the way that the flows are, if they are one: host, whether it is the sender, and the next host."""
    ends = [host for host in dict.fromkeys(itertools.chain(*flows)) if sum(host in flow for flow in flows) == 1]
    left, steps = list(flows), []
    here = next((host for host in ends if any(host == flow[0] for flow in flows)), None)
    while left:
        flow = next((each for each in left if here in each), None)
        if here is None or flow is None or len(ends) != 2:
            return None
        left.remove(flow)
        there = flow[1] if flow[0] == here else flow[0]
        steps.append((here, flow[0] == here, there))
        here = there
    return steps


def said_flows(flows: list[Flow], answers: set[Flow]) -> str:
    """The flows as a way, host by host, else one by one, with those that are answers."""
    def marked(flow: Flow) -> str:
        return ' (answer)' if flow in answers else ''

    steps = chain(flows)
    if steps is None:
        return joined(say(flow) + marked(flow) for flow in flows)
    return steps[0][0] + ''.join(
        f' {"->" if forward else "<-"} {there}' + marked((here, there) if forward else (there, here))
        for here, forward, there in steps)


def hosts_of(flows: list[Flow]) -> list[str]:
    steps = chain(flows)
    return list(dict.fromkeys(itertools.chain(*([step[0], step[2]] for step in steps) if steps else flows)))


def said_value(key: str, value: Any, others: list[str]) -> str:
    """A value of an entry; of a long list those of the other hosts that are in it."""
    if not isinstance(value, list) or len(value) <= FEW:
        return f'{key} = {toml(value)}'
    shown = [each for each in value if each in others][:FEW]
    return f'{key} = [.., {toml(shown)[1:-1]}, ..]' if shown else f'{key} = [{toml(value[:FEW])[1:-1]}, ..]'


def said_entry(host: str, entry: Table | None, hosts: list[str]) -> str:
    """An entry as the file has it."""
    if not entry:
        return f'{host} has no entry'
    others = [other for other in hosts if other != host]
    return f'{host} has {", ".join(said_value(key, value, others) for key, value in entry.items())}'


def noted(place: Place) -> list[str]:
    """The title and the reason of a flow or an invariant, from its comment, as a line."""
    words = ': '.join(filter(None, (place.title, place.why)))
    return [f'  {words}'] if words else []


def reason(description: Description, given: Given, answers: set[Flow]) -> list[str]:
    """An invariant that fails, the flows on which it does, and what it assigns to their hosts."""
    flows = [tuple(flow) for flow in given['flows']]
    hosts, entries = hosts_of(flows), description.entries[given['invariant']]
    said = [said_entry(host, entries.get(host), hosts) for host in hosts[:SHOWN]]
    said += [counted(len(hosts) - SHOWN, 'more host')] if len(hosts) > SHOWN else []
    part = '' if len(flows) == 1 else ', and holds if one of these flows is missing'
    return [f'{given["invariant"]} {given["template"]} fails on {said_flows(flows, answers)}{part}.',
            f'  {"; ".join(said)}.']
