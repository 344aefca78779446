"""A report for other programs: a table of all flows (CSV), and a graph (DOT)."""
import csv
import io
import json

from .report_model import Flow, Report
from .report_words import ANSWERED, DENIED, ONE_WAY, PERMITTED, SHORT

EDGE = {ANSWERED: 'color="#0072b2"', ONE_WAY: 'color="#0072b2", style=dashed',
        DENIED: 'color="#c8420b", penwidth=2.5'}

FORMULA = ('=', '+', '-', '@', '\t', '\r')  # how a formula begins in a spreadsheet


def cell(value: object) -> object:
    """Returns a cell that no spreadsheet reads as a formula: such a text has a quote before it."""
    return f"'{value}" if isinstance(value, str) and value.startswith(FORMULA) else value


def csv_text(report: Report) -> str:
    """Returns a line for each pair of hosts, with a head (RFC 4180)."""
    network, output = report.network, io.StringIO(newline='')
    lines = csv.writer(output)
    before = {change.flow: change.before for change in report.changes.flows} if report.changes else None
    added = report.changes.hosts_added if report.changes else []
    lines.writerow(['from', 'to', 'state', 'asked', 'permitted', 'answered', 'services', 'denied_by', 'line', 'title',
                    *(['before'] if before is not None else [])])
    for flow, each in network.flows.items():
        place = report.source.page.flow(*flow)
        row = [*flow, SHORT[network.states[flow]],
               *(str(each[key]).lower() for key in ('asked', 'permitted', 'answered')), ' '.join(each['services']),
               ' '.join(map(str, each['denied_by'])), place.line or '', place.title]
        if before is not None:
            same = '' if flow[0] in added or flow[1] in added else network.states[flow]
            row.append(SHORT.get(before.get(flow, same), ''))
        lines.writerow(map(cell, row))
    return output.getvalue()


def shown_edges(report: Report) -> dict[tuple[int, int], str]:
    """Returns the flows between groups, by the numbers of the groups. A denied flow hides a permitted one."""
    group_of = {host: place for place, group in enumerate(report.groups) for host in group}
    network = report.network
    found: dict[tuple[int, int], str] = {}
    for (sender, receiver), state in network.states.items():
        key = group_of[network.number[sender]], group_of[network.number[receiver]]
        if state in PERMITTED + DENIED and (state == DENIED or found.get(key) != DENIED):
            found[key] = state
    return found


def edge_label(report: Report, flow: Flow) -> str:
    """Returns the services of a flow, and for a denied one the invariants."""
    words = [*report.network.services(flow)]
    if report.network.states[flow] == DENIED:
        words.append('denied by ' + ' '.join(map(str, report.network.denied_by(flow))))
    return ' '.join(words)


def dot_text(report: Report) -> str:
    """Returns a graph for Graphviz: hosts with the same flows are one node."""
    names, groups = report.network.names, report.groups
    lines = [f'digraph {json.dumps(report.source.name)} {{', '  rankdir=LR;',
             '  node [shape=box, fontname="sans-serif"];', '  edge [fontname="sans-serif", fontsize=9];']
    for place, group in enumerate(groups):
        label = json.dumps('\n'.join(names[host] for host in group), ensure_ascii=False)
        style = ', style=filled, fillcolor="#e8edf3"' if any(report.hosts[host].rest for host in group) else ''
        lines.append(f'  n{place} [label={label}{style}];')
    for (one, other), state in shown_edges(report).items():
        sender, receiver = groups[one][0], groups[other][0 if one != other else -1]
        label = edge_label(report, (names[sender], names[receiver]))
        lines.append(f'  n{one} -> n{other} [{EDGE[state]}{f", label={json.dumps(label)}" if label else ""}];')
    return '\n'.join([*lines, '}', ''])
