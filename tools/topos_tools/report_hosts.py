"""The sections of the page on hosts: who opens connections to each, where it opens connections, and its attributes."""
from .report_model import Flow
from .report_view import FEW, View, at_line, note, table
from .report_words import ANSWERED, DENIED, GAP, ONE_WAY, PERMITTED, esc

MOST_PREFIXES = 4  # in the line of a host


def section(view: View) -> str:
    each = ''.join(host_details(view, host) for host in range(view.size))
    return f'''<section id="hosts" aria-labelledby="hosts-title">
<h2 id="hosts-title">Hosts {view.tag('fact')}</h2>
<p>A host reaches another one over several flows if each host on the way opens connections to the next. Services and
answers do not count.</p>
<p class="js-only tools"><button type="button" id="open-all">Open all</button>
<button type="button" id="close-all">Close all</button></p>
{each or '<p>There are none.</p>'}
</section>'''


def host_details(view: View, number: int) -> str:
    host = view.report.hosts[number]
    at = 'all addresses of no other host' if host.rest else ', '.join(host.at[:MOST_PREFIXES])
    more = ''
    if len(host.at) > MOST_PREFIXES:
        at += f' and {len(host.at) - MOST_PREFIXES} more'
        more = f'<p class="soft wrap">All prefixes: {esc(" ".join(host.at))}</p>'
    title = f'<span>{esc(host.place.title)}</span>' if host.place.title else ''
    columns = (peers(view, number, True), peers(view, number, False), steps(view, number), attributes(view, host.name),
               shut(view, number))
    facts = (f'<b>{esc(host.name)}</b>{title}<span class="mono soft">{esc(at)}</span>'
             f'<span>{numbers(view, number)}</span><span class="soft">{at_line(host.place)}</span>')
    parts = ''.join(f'<div>{each}</div>' for each in columns if each)
    return (f'<details class="host" id="host-{esc(host.name)}"><summary>{facts}</summary>\n'
            f'<div>{note(host.place)}{more}<div class="two">{parts}</div></div></details>\n')


def numbers(view: View, host: int) -> str:
    """Returns how many flows of a host have which state."""
    def both(states: str) -> tuple[int, int]:
        return len(view.senders(host, states)), len(view.receivers(host, states))
    permitted, denied, gaps = both(PERMITTED), both(DENIED), both(GAP)
    words = f'{permitted[0]} in, {permitted[1]} out'
    words += f', <b class="unused">{sum(denied)} denied</b>' if any(denied) else ''
    return words + (f', <span class="care">gaps: {gaps[0]} in, {gaps[1]} out</span>' if any(gaps) else '')


def flow_of(view: View, host: int, other: str, is_inward: bool) -> Flow:
    return (other, view.names[host]) if is_inward else (view.names[host], other)


def peers(view: View, host: int, is_inward: bool) -> str:
    """Returns the permitted flows from or to a host. In a large network flows of the same kind are one row."""
    others = (view.senders if is_inward else view.receivers)(host, PERMITTED)
    title = f'{"Opens connections to it" if is_inward else "It opens connections to"} ({len(others)})'
    if not others:
        return f'<h4>{title}</h4><p class="soft">No host.</p>'
    groups: dict[tuple[str, ...], list[str]] = {}
    for other in others:
        flow = flow_of(view, host, other, is_inward)
        key = (view.services(flow), view.network.states[flow], *([other] if view.is_small else []))
        groups.setdefault(key, []).append(other)
    rows = ''.join(peer_row(view, members, key, flow_of(view, host, members[0], is_inward))
                   for key, members in groups.items())
    return f'<h4>{title}</h4>' + table(('From' if is_inward else 'To', 'Services', 'Answers'), rows)


def peer_row(view: View, members: list[str], key: tuple[str, ...], flow: Flow) -> str:
    answers = 'pass' if key[1] == ANSWERED else 'none'
    if key[1] == ONE_WAY and len(members) == 1:
        denied = ', '.join(map(view.invariant_link, view.network.silent[flow]))
        answers += f' (denied by {denied})' if denied else ''
        answers += ' <b class="unused">no TCP</b>' if view.network.lacks_tcp(flow) else ''
    place = view.places.get(flow) if len(members) == 1 else None
    said = note(place, with_title=True) if place else ''
    return (f'<tr><th scope="row" class="names">{view.some(members, besides=0)}</th>'
            f'<td class="mono wrap">{esc(key[0])}</td><td>{answers}{said}</td></tr>')


def steps(view: View, host: int) -> str:
    """Returns the hosts that reach a host over several flows, but not over one, and those that it reaches so."""
    name, reached = view.names[host], view.report.reached
    if name not in reached:
        return ''
    direct = set(view.senders(host, PERMITTED)), set(view.receivers(host, PERMITTED))
    inward = [other for other in reached[name] if other not in direct[0]]
    outward = [other for other in view.names if name in reached.get(other, ()) and other not in direct[1]]
    late = ' <span class="soft">There was no time to judge all hosts.</span>' if len(reached) < view.size else ''
    return (f'<h4>Over several flows {view.tag("copy")}</h4>'
            f'<p>Reached by {len(inward)} more: {ways(view, host, inward)}<br>'
            f'Reaches {len(outward)} more: {view.some(outward, besides=0)}{late}</p>')


def ways(view: View, host: int, senders: list[str]) -> str:
    """Returns hosts that reach a host, each with the hosts between them on a shortest way."""
    after: dict[int, int] = {}
    pending = [host]
    for receiver in pending:
        for sender, state in enumerate(view.columns[receiver]):
            if state in PERMITTED and sender != host and sender not in after:
                after[sender] = receiver
                pending.append(sender)
    def way(sender: int) -> str:
        between, step = [], after.get(sender, host)
        while step != host:
            between.append(view.names[step])
            step = after[step]
        return esc(' '.join(between))
    said = [f'{view.link(name)} <span class="soft">(over {way(view.number[name])})</span>' for name in senders]
    return ', '.join(said) or '<span class="soft">no host</span>'


def attributes(view: View, name: str) -> str:
    """Returns the attribute of a host in each invariant, with defaults marked."""
    rows = ''
    for one in view.report.invariants:
        entry = next((each for each in one.entries if each.host == name), None)
        said = f'<td class="default">{esc(one.default)} (default)</td><td></td>'
        if entry:
            said = f'<td class="wrap">{esc(entry.attribute)}</td><td class="soft">{at_line(entry.place)}</td>'
        rows += f'<tr><th scope="row">{view.invariant_link(one.number)}</th>{said}</tr>'
    if not rows:
        return ''
    return f'<h4>Its attributes {view.tag("page")}</h4>' + table(('Invariant', 'Attribute', 'Line'), rows)


def shut(view: View, host: int) -> str:
    """Returns the flows of a host that are asked for and denied, and its gaps."""
    parts = ''
    for is_inward in (True, False):
        others = (view.senders if is_inward else view.receivers)(host, DENIED)
        if others:
            words = 'from' if is_inward else 'to'
            flows = [flow_of(view, host, other, is_inward) for other in others]
            listed = view.some(others, besides=0) if len(flows) > FEW else denied_words(view, flows)
            parts += f'<h4>Asked for and denied, {words} ({len(others)})</h4><p>{listed}</p>'
    gaps_in, gaps_out = view.senders(host, GAP), view.receivers(host, GAP)
    if gaps_in or gaps_out:
        parts += (f'<h4>Gaps: only the list of flows prevents</h4><p>From {len(gaps_in)}: {view.some(gaps_in)}<br>'
                  f'To {len(gaps_out)}: {view.some(gaps_out)}</p>')
    return parts


def denied_words(view: View, flows: list[Flow]) -> str:
    return '; '.join(f'{view.arrow(flow)} ({esc(view.services(flow))}) by '
                     + ', '.join(map(view.invariant_link, view.network.denied_by(flow))) for flow in flows)
