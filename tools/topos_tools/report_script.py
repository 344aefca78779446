"""The data for the script of the page, which shows a cell or the flows of a node on demand."""
from typing import Any

from .report_graph import Drawn
from .report_invariants import attributes_of
from .report_model import Flow
from .report_summary import changed_flows
from .report_view import View
from .report_words import DENIED, PERMITTED

MOST_SILENT = 4000  # flows without answers, with reasons


def script_data(view: View, drawn: Drawn) -> dict[str, Any]:
    """Returns the data. Hosts are numbers from 0, invariants from 1."""
    sets, held = denied_sets(view)
    services: dict[tuple[str, ...], int] = {}
    flows: dict[int, dict[int, list[Any]]] = {}
    for flow in view.network.of_state(PERMITTED + DENIED):
        number = services.setdefault(tuple(view.network.services(flow)), len(services))
        place = view.report.source.page.flow(*flow)
        notes = [place.title, place.why] if place.title or place.why else []
        if number or place.line or notes:
            flows.setdefault(view.number[flow[0]], {})[view.number[flow[1]]] = [number, place.line, *notes]
    return {'names': view.names, 'states': view.rows, 'sets': sets, 'held': held, 'flows': flows,
            'services': [list(each) for each in services], 'silent': silent(view), 'chains': chains(view),
            'invariants': [invariant_data(view, each) for each in view.report.invariants],
            'hosts': [[host.place.title, host.place.why] for host in view.report.hosts],
            'changed': {key(view, flow): [each.before, ' '.join(each.services_before)]
                        for flow, each in changed_flows(view).items()},
            'orders': view.report.orders, 'groups': view.report.groups,
            'nodes': drawn.nodes, 'thin': drawn.is_thin, 'pick': drawn.chosen}


def key(view: View, flow: Flow) -> str:
    return f'{view.number[flow[0]]},{view.number[flow[1]]}'


def denied_sets(view: View) -> tuple[list[list[int]], list[list[int]]]:
    """Returns the lists of invariants that deny a flow, and for each pair the number of its list."""
    numbers: dict[tuple[int, ...], int] = {}
    places = iter([numbers.setdefault(tuple(each['denied_by']), len(numbers))
                   for each in view.network.flows.values()])
    hosts = range(view.size)
    held = [[-1 if sender == receiver else next(places) for receiver in hosts] for sender in hosts]
    return [list(each) for each in numbers], held


def silent(view: View) -> dict[str, list[Any]]:
    """Returns for each flow without answers the invariants that deny them, and whether TCP lacks them."""
    found = view.network.silent
    if len(found) > MOST_SILENT:
        return {}
    return {key(view, flow): [by, view.network.lacks_tcp(flow)] for flow, by in found.items()}


def chains(view: View) -> dict[str, dict[int, list[str]]]:
    """Returns for denied flows the other flows with which an invariant fails."""
    return {key(view, flow): {number: [' → '.join(step) for step in flows] for number, flows in each.items()}
            for flow, each in view.report.reasons.items()}


def invariant_data(view: View, one: Any) -> dict[str, Any]:
    attributes = attributes_of(view, one)
    words = {each: number for number, each in enumerate(dict.fromkeys(attributes))}
    named = {entry.host for entry in one.entries}
    return {'template': one.template, 'title': one.place.title, 'line': one.place.line, 'said': list(words),
            'of': [words[each] for each in attributes],
            'bare': [host for host, name in enumerate(view.names) if name not in named]}
