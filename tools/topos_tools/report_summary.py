"""The summary of the page: counts, points to check, and what changed since an older description."""
import functools
from collections.abc import Iterator
from ipaddress import IPv4Network

from .flows_services import TCP, UDP, covers
from .report_changes import Changes, EntryChange, FlowChange
from .report_model import Flow
from .report_view import FEW, View, note, table
from .report_words import FORBIDDEN, GAP, PERMITTED, STATES, counted, esc, verb
from .rest import PRIVATE, left

MOST_CHANGES = 400


def section(view: View) -> str:
    points = ''.join(f'<li>{each}</li>' for each in points_to_check(view)) or '<li>None.</li>'
    style, sentence = verdict(view)
    return f'''<section id="summary" aria-labelledby="summary-title">
<h2 id="summary-title">Summary {view.tag('fact')}</h2>
<p class="verdict {style}">{sentence}</p>
<ul class="tiles">{tiles(view)}</ul>
<h3>Points to check {view.tag('page')}</h3>
<ul class="look">{points}</ul>
</section>'''


def verdict(view: View) -> tuple[str, str]:
    """Returns the sentence on the invariants, and whether it is good news."""
    invariants = view.report.invariants
    failing = [each.number for each in invariants if not each.holds]
    if failing:
        listed = ', '.join(map(view.invariant_link, failing))
        fail = verb(len(failing), 'fails', 'fail')
        return 'bad', (f'{counted(len(failing), "invariant")} of {len(invariants)} {fail} on the flows that are asked '
                       f'for: {listed}. <code>topos rules</code> writes nothing; <code>topos repair</code> leaves the '
                       'denied flows out.')
    if not invariants:
        return 'bad', 'There are no invariants: only the list of flows restricts the network.'
    hold = f'All {len(invariants)} invariants hold' if len(invariants) > 1 else 'The invariant holds'
    return 'good', f'{hold} on the flows that are asked for.'


def tiles(view: View) -> str:
    counts = view.report.counts()
    alarm, care = ('alarm' if counts['denied'] else ''), ('care' if counts['gaps'] else '')
    listed = [('hosts', 'host', 'hosts', ''), ('asked', 'flow asked for', 'flows asked for', ''),
              ('permitted', 'permitted', 'permitted', ''), ('with_answers', 'with answers', 'with answers', ''),
              ('without_answers', 'without answers', 'without answers', ''), ('denied', 'denied', 'denied', alarm),
              ('holding', 'invariant holds', 'invariants hold', ''),
              ('failing', 'invariant fails', 'invariants fail', 'alarm' if counts['failing'] else ''),
              ('gaps', 'gap: not asked for, not denied', 'gaps: not asked for, not denied', care),
              ('forbidden', 'not asked for, denied', 'not asked for, denied', '')]
    return ''.join(f'<li class="{style}"><b data-count="{key}">{counts[key]:,}</b>'
                   f'<span>{one if counts[key] == 1 else many}</span></li>' for key, one, many, style in listed)


def points_to_check(view: View) -> Iterator[str]:
    """Yields sentences on what an operator or an auditor would ask about."""
    if not view.report.source.has_flow_key:
        yield ('The file has no key <code>flow</code>, so <b>every flow is asked for</b>. Do not load rules from such '
               'a file.')
    denied = view.denied_flows()
    if denied:
        yield f'<b>{counted(len(denied), "flow")} asked for and denied</b>: {denied_words(view, denied)}.'
    silent = [flow for flow in view.network.silent if view.network.lacks_tcp(flow)]
    if silent:
        yield f'<b>TCP passes and gets no answers</b> on {counted(len(silent), "flow")}: {view.few_flows(silent)}.'
    lacking = set(silent)
    others = [flow for flow in view.network.silent if flow not in lacking]
    if others:
        yield f'{counted(len(others), "other flow") if silent else counted(len(others), "flow")} without answers: ' \
              f'{view.few_flows(others)}.'
    yield from rest_points(view)
    yield from gap_points(view)
    yield from service_points(view)
    yield from exception_points(view)
    yield from host_points(view)


def denied_words(view: View, denied: list[Flow]) -> str:
    """Returns a list of denied flows, the first ones with the invariants that deny them."""
    said = [f'{view.arrow(flow)} (by {", ".join(map(view.invariant_link, view.network.denied_by(flow)))})'
            for flow in denied[:FEW]]
    return ', '.join(said) + (f' and {len(denied) - FEW:,} more' if len(denied) > FEW else '')


def rest_points(view: View) -> Iterator[str]:
    if not any(host.rest for host in view.report.hosts):
        yield 'There is no rest host: no packet from or to an address of no host passes.'
    for number, host in enumerate(view.report.hosts):
        if not host.rest:
            continue
        private = private_prefixes(view)
        if private:
            widest = sorted(private, key=lambda each: each.prefixlen)
            more = f' and {len(private) - FEW} more' if len(private) > FEW else ''
            yield (f'{counted(len(private), "private prefix", "private prefixes")} of no other host '
                   f'{verb(len(private), "belongs", "belong")} to {view.link(host.name)}: '
                   f'<span class="mono">{" ".join(map(str, widest[:FEW]))}</span>{more}. A machine there that nobody '
                   'listed counts as this host.')
        gaps, reached = view.receivers(number, GAP), view.receivers(number, PERMITTED)
        if gaps:
            yield (f'No invariant prevents flows from <b>{view.link(host.name)}</b> (all addresses of no other host) '
                   f'to {counted(len(gaps), "host")} that it does not reach today: {view.few(gaps)}.')
        if reached:
            yield f'{view.link(host.name)} opens connections to {counted(len(reached), "host")}: {view.few(reached)}.'
        else:
            yield f'{view.link(host.name)} opens no connection to another host.'


def private_prefixes(view: View) -> list[IPv4Network]:
    """Returns the private addresses of no host, but the rest host."""
    used = (IPv4Network(prefix) for host in view.report.hosts for prefix in host.at)
    return left(map(IPv4Network, PRIVATE), used)


def gap_points(view: View) -> Iterator[str]:
    gaps = view.network.of_state(GAP)
    if gaps:
        widest = sorted(((len(view.senders(host, GAP)), -host) for host in range(view.size)), reverse=True)
        told = ', '.join(f'{view.link(view.names[-host])} (from {number})' for number, host in widest[:5] if number)
        yield (f'Only the list of flows prevents {counted(len(gaps), "flow")}, no invariant does. '
               f'The widest gaps: {told}.')


def service_points(view: View) -> Iterator[str]:
    permitted = [each for each in view.report.flows if each.state in PERMITTED]
    whole = [each.flow for each in permitted if not each.services]
    if whole:
        yield f'{counted(len(whole), "permitted flow")} without services, for all traffic: {view.few_flows(whole)}.'
    ports = [each.flow for each in permitted
             if each.services and (covers(each.services, TCP) or covers(each.services, UDP))]
    if ports:
        yield f'{counted(len(ports), "permitted flow")} for all ports of TCP or UDP: {view.few_flows(ports)}.'
    bare = [each.flow for each in permitted if not (each.place.title or each.place.why)]
    if bare and view.report.source.page.is_known:
        listed = f': {view.few_flows(bare)}' if len(bare) < len(permitted) else ''
        yield (f'{len(bare):,} of {len(permitted):,} permitted flows without a title or a reason in the file '
               f'(<code># topos: title</code>, <code># topos: why</code>){listed}.')


def exception_points(view: View) -> Iterator[str]:
    unused = [(each.number, part) for each in view.report.invariants
              for part in each.exceptions if part.in_use is False]
    if unused:
        told = ', '.join(f'{view.link(part.host)} ({esc(part.part)}, {view.invariant_link(number)})'
                         for number, part in unused[:FEW])
        more = f' and {len(unused) - FEW} more' if len(unused) > FEW else ''
        yield f'{counted(len(unused), "exception")} that no permitted flow uses: {told}{more}.'
    late = [each.number for each in view.report.invariants
            if each.unjudged or any(part.in_use is None for part in each.exceptions)]
    if late:
        yield ('There was no time to judge all exceptions of ' + ', '.join(map(view.invariant_link, late))
               + ' (option <code>--seconds</code>).')


def host_points(view: View) -> Iterator[str]:
    invariants = view.report.invariants
    named = {entry.host for each in invariants for entry in each.entries}
    forgotten = [name for name in view.names if name not in named]
    if forgotten and invariants:
        yield f'{counted(len(forgotten), "host")} without an entry in any invariant: {view.few(forgotten)}.'
    lonely = [name for number, name in enumerate(view.names) if not view.degree(number)]
    if lonely:
        yield f'{counted(len(lonely), "host")} without a permitted flow: {view.few(lonely)}.'


# Changes.

def changes(view: View) -> str:
    """Returns the section on what changed, or nothing without an older description."""
    found = view.report.changes
    if not found:
        return ''
    lines = [
        ('Hosts added', view.few(found.hosts_added, 60) if found.hosts_added else ''),
        ('Hosts removed', esc(' '.join(found.hosts_removed))),
        ('Hosts with other addresses', moved_words(view, found)),
        ('Invariants added or changed', ', '.join(map(view.invariant_link, found.invariants_added))),
        ('Invariants removed or changed, by their old numbers',
         ', '.join(f'{number} {esc(template)}' for number, template in found.invariants_removed)),
        *((f'Invariants that {words} now', ', '.join(view.invariant_link(number) for number, holds in found.holds
                                                     if holds is wanted))
          for words, wanted in (('hold', True), ('fail', False)))]
    listed = ''.join(f'<li>{words}: {said}.</li>' for words, said in lines if said)
    nothing = '<p>Nothing changed.</p>' if found.is_empty() else ''
    rows = ''.join(change_row(view, each) for each in found.flows[:MOST_CHANGES])
    flows = table(('Flow', 'Before', 'Now', 'Services before', 'Services now'), rows,
                  f'{counted(len(found.flows), "flow")} changed.') if rows else ''
    rows = ''.join(map(functools.partial(entry_row, view), found.entries))
    entries = table(('Invariant', 'Host', 'Attribute before', 'Attribute now'), rows,
                    'Entries of changed invariants.') if rows else ''
    return f'''<section id="changes" aria-labelledby="changes-title">
<h2 id="changes-title">Changes since {esc(found.name)} {view.tag('fact')}</h2>
<p class="soft">SHA-256 of {esc(found.name)}: <span class="mono">{found.sha256}</span></p>
{nothing}<ul>{listed}</ul>
{entries}{flows}{view.more(len(found.flows), MOST_CHANGES, 'flow')}
</section>'''


def moved_words(view: View, found: Changes) -> str:
    """Returns the hosts with other addresses, and the prefixes that each lost and got."""
    at = {host.name: host.at for host in view.report.hosts}
    def words(name: str, before: list[str]) -> str:
        lost = [each for each in before if each not in at[name]]
        got = [each for each in at[name] if each not in before]
        return (f'{view.link(name)} (<span class="mono">{esc(" ".join(lost)) or "none"}</span> before, '
                f'<span class="mono">{esc(" ".join(got)) or "none"}</span> now)')
    return ', '.join(map(words, found.hosts_moved, found.addresses_before))


def entry_row(view: View, change: EntryChange) -> str:
    def said(attribute: str) -> str:
        return esc(attribute) or '<span class="soft">no entry</span>'
    return (f'<tr><th scope="row">{view.invariant_link(change.invariant)}</th><td>{view.link(change.host)}</td>'
            f'<td class="wrap">{said(change.before)}</td><td class="wrap">{said(change.after)}</td></tr>')


def change_row(view: View, change: FlowChange) -> str:
    style = f'{mark(change.before)}-{mark(change.after)}'
    def said(services: list[str], state: str) -> str:
        return esc(' '.join(services)) or ('all traffic' if state and state not in GAP + FORBIDDEN else '')
    place = view.places.get(change.flow)
    said_above = note(place, with_title=True) if place else ''
    return (f'<tr class="change {style}"><th scope="row">{view.arrow(change.flow)}{said_above}</th>'
            f'<td>{esc(STATES.get(change.before, "no such host"))}</td>'
            f'<td>{esc(STATES.get(change.after, "no such host"))}</td>'
            f'<td class="mono wrap">{said(change.services_before, change.before)}</td>'
            f'<td class="mono wrap">{said(change.services_after, change.after)}</td></tr>')


def mark(state: str) -> str:
    return 'open' if state and state in PERMITTED else 'shut'


def changed_flows(view: View) -> dict[Flow, FlowChange]:
    """Returns the changes by flow, without the flows of removed hosts."""
    found = view.report.changes
    return {each.flow: each for each in found.flows if each.after} if found else {}
