"""The graph of the page: hosts in a ring, hosts with the same flows as one node, denied flows in red on top."""
import math
from dataclasses import dataclass

from .report_export import shown_edges
from .report_view import View
from .report_words import ANSWERED, DENIED, ONE_WAY, PERMITTED, counted, esc

MOST_EDGES = 1500
MANY_DENIED = 40  # edges that are faint next to those of a selected node
EDGE_WORDS = {ANSWERED: 'with answers', ONE_WAY: 'without answers', DENIED: 'denied'}
TIPS = {'out': '#0072b2', 'in': '#00795a', 'no': '#c8420b'}


@dataclass
class Drawn:
    """The nodes of the graph, whether the flows of the chosen node alone are drawn, and the node chosen first."""
    nodes: list[list[int]]
    is_thin: bool
    chosen: int


def section(view: View) -> tuple[Drawn, str]:
    """Returns what is drawn, and the section. A network of one host has none."""
    if view.size < 2:
        return Drawn([], False, 0), ''
    groups = view.report.groups
    order = view.report.orders['flows']
    first = {group[0]: place for place, group in enumerate(groups)}
    places = [first[host] for host in order if host in first]
    nodes = [groups[place] for place in places]
    node_of = {place: number for number, place in enumerate(places)}
    edges = {(node_of[one], node_of[other]): state for (one, other), state in shown_edges(view.report).items()
             if one != other}
    is_thin = len(edges) > MOST_EDGES
    if is_thin:
        edges = {key: state for key, state in edges.items() if state == DENIED}
        edges = edges if len(edges) <= MOST_EDGES else {}
    drawn = Drawn(nodes, is_thin, chosen_node(view, nodes))
    return drawn, f'''<section id="graph" aria-labelledby="graph-title">
<h2 id="graph-title">Graph {view.tag('fact')}</h2>
<p>{words(view, drawn)} <span class="js-only inline">Choose a node to see its flows alone.</span></p>
{line_key()}
<div class="picture">
{ring(view, nodes, edges)}
<div class="panel" id="picked" role="status" aria-live="polite"><p class="soft">The flows of each host are listed under
<a href="#hosts">Hosts</a>.</p></div>
</div>
</section>'''


def chosen_node(view: View, nodes: list[list[int]]) -> int:
    """Returns the node of the rest host, or that with the most flows."""
    rest = [number for number, node in enumerate(nodes) if any(view.report.hosts[host].rest for host in node)]
    if rest:
        return rest[0]
    degrees = [view.degree(node[0]) for node in nodes]
    return degrees.index(max(degrees))


def words(view: View, drawn: Drawn) -> str:
    said = ['Hosts with the same flows are one node: '
            f'{view.size} hosts, {counted(len(drawn.nodes), "node")}.' if len(drawn.nodes) < view.size else
            f'No two of the {view.size} hosts have the same flows: each is a node.']
    inner = [node for node in drawn.nodes if len(node) > 1
             and view.rows[node[0]][node[1]] in PERMITTED]
    if inner:
        listed = ', '.join(esc(view.names[node[0]]) + f' +{len(node) - 1}' for node in inner[:8])
        said.append(f'Hosts of one node may have flows to each other in {counted(len(inner), "node")} ({listed}).')
    if drawn.is_thin:
        said.append('There are too many flows to draw: permitted flows are drawn for the chosen node alone.')
    said.append('Flows that are asked for and denied are red.' if view.denied_flows() else
                'No flow that is asked for is denied.')
    return ' '.join(said)


def line_key() -> str:
    lines = (('', 'e eA', '', 'with answers'), ('', 'e ea', '', 'without answers'),
             ('js-only', '', 'stroke="#00795a" stroke-width="2"', 'into the chosen node'),
             ('', 'e eD', '', 'asked for and denied'))
    items = ''.join(f'<li class="{style}"><svg viewBox="0 0 46 10" aria-hidden="true">'
                    f'<path class="{line} strong" {more} d="M0 5h46"/></svg>{said}</li>'
                    for style, line, more, said in lines)
    return f'<ul class="linekey">{items}</ul>'


def ring(view: View, nodes: list[list[int]], edges: dict[tuple[int, int], str]) -> str:
    count = len(nodes)
    labels = [view.names[node[0]] + (f' +{len(node) - 1}' if len(node) > 1 else '') for node in nodes]
    radius = max(230.0, min(900.0, count * 19 / (2 * math.pi) + 60))
    half = radius + 8.2 * max(map(len, labels)) + 30
    at = [(radius * math.cos(2 * math.pi * each / count - math.pi / 2),
           radius * math.sin(2 * math.pi * each / count - math.pi / 2)) for each in range(count)]
    ordered = sorted(edges.items(), key=lambda each: (ONE_WAY + ANSWERED + DENIED).index(each[1]))
    paths = ''.join(
        f'<path class="e e{state}" data-from="{one}" data-to="{other}" '
        f'd="{curve(at[one], at[other], radius, (other, one) in edges)}">'
        f'<title>{esc(f"{labels[one]} → {labels[other]}: {EDGE_WORDS[state]}")}</title></path>'
        for (one, other), state in ordered)
    drawn = ''.join(node_of(view, nodes[number], label, at[number]) for number, label in enumerate(labels))
    tips = ''.join(f'<marker id="tip-{name}" viewBox="0 0 10 10" refX="8" refY="5" markerWidth="9" markerHeight="9" '
                   f'markerUnits="userSpaceOnUse" orient="auto"><path d="M0 0L10 5L0 10z" fill="{colour}"/></marker>'
                   for name, colour in TIPS.items())
    many = ' many' if sum(state == DENIED for state in edges.values()) > MANY_DENIED else ''
    view.styles.append(f'#ring {{ max-height:{min(900, 360 + 18 * count)}px }}')
    return (f'<svg id="ring" class="ring{many}" role="group" '
            f'viewBox="{-half:.0f} {-half:.0f} {2 * half:.0f} {2 * half:.0f}" aria-label="Hosts and flows">'
            f'<defs>{tips}</defs><g>{paths}</g>{drawn}</svg>')


def curve(start: tuple[float, float], end: tuple[float, float], radius: float, has_back: bool) -> str:
    """Returns a path: near nodes are joined along the rim, far ones through the middle, two directions side by side."""
    (x, y), (u, v) = start, end
    away = math.hypot(u - x, v - y) / (2 * radius)
    pull, side = .88 - .62 * away, 10 if has_back else 0
    cx = (x + u) / 2 * pull + side * (v - y) / (2 * radius * away)
    cy = (y + v) / 2 * pull - side * (u - x) / (2 * radius * away)
    reach = math.hypot(u - cx, v - cy) or 1
    return f'M{x:.1f} {y:.1f}Q{cx:.1f} {cy:.1f} {u - (u - cx) / reach * 11:.1f} {v - (v - cy) / reach * 11:.1f}'


def node_of(view: View, node: list[int], label: str, at: tuple[float, float]) -> str:
    x, y = at
    turn = math.degrees(math.atan2(y, x))
    is_flipped = abs(turn) > 90
    rest = ' rest' if view.report.hosts[node[0]].rest else ''
    members = ' '.join(view.names[host] for host in node)
    radius = 5 + min(6.0, view.degree(node[0]) / 8)
    place = f'x="{-15 if is_flipped else 15}" y="4.5" text-anchor="{"end" if is_flipped else "start"}"'
    return (f'<g class="node{rest}" tabindex="0" role="button" aria-pressed="false" aria-label="{esc(label)}">'
            f'<title>{esc(members)}</title><circle cx="{x:.1f}" cy="{y:.1f}" r="{radius:.1f}"/>'
            f'<text transform="translate({x:.1f} {y:.1f}) rotate({turn + 180 if is_flipped else turn:.1f})" {place}>'
            f'{esc(label)}</text></g>')
