"""The sections of the page on invariants: what each guards, its entries and exceptions, and what it denies today."""
from .report_model import Exempt, Guard, Invariant
from .report_view import View, at_line, note, table
from .report_words import PERMITTED, counted, esc, template_words, verb

MOST_ROWS = 300  # of one table
MOST_CLASSES = 16  # of a table of attributes
TITLE = 110  # letters of a title in the overview


def section(view: View) -> str:
    rows = ''.join(overview_row(view, each) for each in view.report.invariants)
    heads = ('Invariant', 'Asked flows', 'Entries', 'Hosts by default', 'Flows it denies', 'Of these asked for',
             'Exceptions in use', 'Title or comment')
    whole = table(heads, rows) if rows else '<p>There are none.</p>'
    return f'''<section id="invariants" aria-labelledby="invariants-title">
<h2 id="invariants-title">Invariants {view.tag('fact')}</h2>
<p>The flows that an invariant denies are those on which it fails together with the permitted flows.</p>
{whole}
{''.join(card(view, each) for each in view.report.invariants)}
</section>'''


def overview_row(view: View, one: Invariant) -> str:
    used = sum(bool(part.in_use) for part in one.exceptions)
    late = sum(part.in_use is None for part in one.exceptions) + one.unjudged
    name = one.name if len(one.name) <= TITLE else one.name[:TITLE - 2].rsplit(' ', 1)[0] + ' ..'
    numbers = (len(one.entries), len(one.default_hosts), len(one.denied), len(one.denied_asked))
    cells = ''.join(f'<td class="n">{number:,}</td>' for number in numbers)
    return (f'<tr><th scope="row">{view.invariant_link(one.number)}</th>'
            f'<td>{"hold" if one.holds else "<b class=unused>fail</b>"}</td>{cells}'
            f'<td class="n">{used} of {len(one.exceptions)}{f", {late} not judged" if late else ""}</td>'
            f'<td>{esc(name)}</td></tr>')


def card(view: View, one: Invariant) -> str:
    pill = '<span class="pill">holds</span>' if one.holds else '<span class="pill bad">fails</span>'
    title = f': {esc(one.place.title)}' if one.place.title else ''
    square = classes(view, one)
    parts = [guards(view, one), exceptions(view, one), entries(view, one), square]
    columns = ''.join(f'<div>{part}</div>' for part in parts if part)
    style = 'card' if view.is_small else 'card lazy'
    return f'''<article class="{style}" id="invariant-{one.number}" aria-labelledby="invariant-{one.number}-title">
<h3 id="invariant-{one.number}-title">Invariant {one.number}: {esc(one.template)}{title} {pill}
<span class="soft">{at_line(one.place)}</span></h3>
{reasons_above(one)}<p>{esc(template_words(one.template, one.own))}</p>
{offending(view, one)}<p>{denied_words(view, one)}</p>
<div class="two">{columns}</div></article>
'''


def reasons_above(one: Invariant) -> str:
    """Returns the reason and the comment above the invariant."""
    why = f'<p class="why">{esc(one.place.why)}</p>' if one.place.why else ''
    comment = f'<p class="comment">{esc(one.place.comment)} <span class="soft">(comment in the file)</span></p>' \
        if one.place.comment else ''
    return why + comment


def denied_words(view: View, one: Invariant) -> str:
    pairs, denied = len(view.network.flows), len(one.denied)
    share = f', {100 * denied / pairs:.0f} %' if pairs else ''
    asked = 'none of them is asked for' if not one.denied_asked else \
        f'{counted(len(one.denied_asked), "flow")} of them {verb(len(one.denied_asked), "is", "are")} asked for'
    return f'It denies {denied:,} of {counted(pairs, "flow")}{share}; {asked}.'


def offending(view: View, one: Invariant) -> str:
    parts = []
    if not one.holds:
        number = len(one.offending)
        sentence = 'Without this flow it holds' if number == 1 else \
            f'Without these {number:,} flows it holds, and with any one of them it fails'
        parts.append(f'<div class="offend"><h4>It fails on the flows that are asked for</h4>'
                     f'<p>A minimal offending set. {sentence}: {view.few_flows(one.offending, 60)}.</p></div>')
    if one.denied_asked and set(one.denied_asked) != set(one.offending):
        parts.append(f'<p>Flows that are asked for and that it denies: {view.few_flows(one.denied_asked, 40)}.</p>')
    chains = [(flow, sets[one.number]) for flow, sets in view.report.reasons.items() if one.number in sets]
    if chains:
        listed = ''.join(f'<li>{view.arrow(flow)}, on {view.few_flows(flows, 20)}</li>' for flow, flows in chains[:40])
        parts.append(f'<p>It denies these flows together with others:</p><ul>{listed}</ul>')
    return ''.join(parts)


def guards(view: View, one: Invariant) -> str:
    rows = ''.join(guard_row(view, each) for each in one.guards[:MOST_ROWS])
    if not rows:
        return ''
    titles = ('What it guards: receivers', 'May enter', 'Enter today', 'May enter, not asked for')
    if one.strategy == 'information':
        titles = ('What it guards: knowledge of a sender', 'May flow to', 'Flows today', 'May flow, not asked for')
    return (f'<h4>{titles[0]}</h4>' + table(('Host', *titles[1:]), rows)
            + view.more(len(one.guards), MOST_ROWS, 'host'))


def guard_row(view: View, guard: Guard) -> str:
    used = view.some(guard.flows, 'none')
    if guard.answers:
        used += f' <span class="soft">and answers to</span> {view.some(guard.answers)}'
    known = {*guard.flows, *guard.answers}
    unused = [name for name in guard.may if name not in known]
    return (f'<tr><th scope="row">{view.link(guard.host)}</th><td class="n">{len(guard.may)}</td>'
            f'<td>{used}</td><td>{view.some(unused, "none", besides=0)}</td></tr>')


def exceptions(view: View, one: Invariant) -> str:
    notes = {entry.host: note(entry.place, with_title=True) for entry in one.entries}
    rows = ''.join(exception_row(view, each, notes.get(each.host, '')) for each in one.exceptions[:MOST_ROWS])
    late = ''
    if one.unjudged:
        late = f'<p class="soft">There was no time to judge {counted(one.unjudged, "part")} of entries.</p>'
    if not rows:
        return f'<h4>Exceptions {view.tag("copy")}</h4>{late}' if late else ''
    caption = 'Without an exception the invariant denies so many more flows, and no fewer.'
    return (f'<h4>Exceptions, and what uses them {view.tag("copy")}</h4>'
            + table(('Host', 'Exception', 'Flows it opens', 'Use today'), rows, caption)
            + view.more(len(one.exceptions), MOST_ROWS, 'exception') + late)


def exception_row(view: View, part: Exempt, above: str) -> str:
    if part.in_use is None:
        use = '<span class="soft">not judged</span>'
    elif not part.in_use:
        use = '<span class="unused">not in use</span>'
    else:
        said = [view.few_flows(part.flows, 8)] if part.flows else []
        said += [f'answers of {view.few_flows(part.answers, 8)}'] if part.answers else []
        use = f'<span class="used">in use</span> {"; ".join(said)}'
    return (f'<tr><th scope="row">{view.link(part.host)}</th><td class="wrap">{esc(part.part)}{above}</td>'
            f'<td class="n">{part.opens}</td><td>{use}</td></tr>')


def entries(view: View, one: Invariant) -> str:
    rows = ''.join(f'<tr><th scope="row">{view.link(each.host)}</th><td class="wrap">{esc(each.attribute)}'
                   f'{note(each.place, with_title=True)}</td><td class="soft">{at_line(each.place)}</td></tr>'
                   for each in one.entries)
    others = counted(len(one.default_hosts), 'other host')
    rows += (f'<tr><th scope="row" class="default">{others}</th><td class="default">{esc(one.default)} (default)</td>'
             '<td></td></tr>')
    listed = (f'<p><span class="default">Default, {esc(one.default)}:</span> '
              f'{view.some(one.default_hosts, besides=0)}</p>')
    return f'<h4>Entries {view.tag("page")}</h4>' + table(('Host', 'Attribute', 'Line'), rows) + listed


# From attribute to attribute.

def attributes_of(view: View, one: Invariant) -> list[str]:
    """Returns the attribute of each host."""
    known = {entry.host: entry.attribute for entry in one.entries}
    return [known.get(name, one.default) for name in view.names]


def classes(view: View, one: Invariant) -> str:
    """Returns a table from attribute to attribute, or nothing if there are too many."""
    attributes = attributes_of(view, one)
    order = list(dict.fromkeys([*(entry.attribute for entry in one.entries), *attributes]))
    if not 2 <= len(order) <= MOST_CLASSES or len(order) > .7 * view.size:
        return ''
    number = {words: place for place, words in enumerate(order)}
    of_host = [number[words] for words in attributes]
    cells = [[[0, 0, 0] for _ in order] for _ in order]
    for sender, states in enumerate(view.rows):
        line = cells[of_host[sender]]
        for receiver, state in enumerate(states):
            if sender != receiver:
                line[of_host[receiver]][0] += 1
                line[of_host[receiver]][2] += state in PERMITTED
    for sender_name, receiver_name in one.denied:
        cells[of_host[view.number[sender_name]]][of_host[view.number[receiver_name]]][1] += 1
    return square(order, cells) + between(view, attributes)


def between(view: View, attributes: list[str]) -> str:
    """Returns a table of the permitted flows between hosts of different attributes. A large network has none."""
    found: dict[tuple[str, str], list[str]] = {}
    for flow in view.network.of_state(PERMITTED) if view.is_small else ():
        pair = attributes[view.number[flow[0]]], attributes[view.number[flow[1]]]
        if pair[0] != pair[1]:
            found.setdefault(pair, []).append(f'{view.arrow(flow)} ({esc(view.services(flow))})')
    if not found:
        return ''
    rows = ''.join(f'<tr><td class="wrap">{esc(sender)}</td><td class="wrap">{esc(receiver)}</td>'
                   f'<td>{", ".join(flows)}</td></tr>' for (sender, receiver), flows in found.items())
    return ('<details><summary>Permitted flows between different attributes</summary>'
            + table(('From', 'To', 'Flows'), rows) + '</details>')


def square(order: list[str], cells: list[list[list[int]]]) -> str:
    names = [each if len(each) <= 26 else each[:24] + '..' for each in order]
    tops = ''.join(f'<th scope="col" title="{esc(full)}"><span>{esc(name)}</span></th>'
                   for name, full in zip(names, order))
    rows = ''
    for place, full in enumerate(order):
        line = ''.join(square_cell(full, other, *cell) for other, cell in zip(order, cells[place]))
        rows += f'<tr><th scope="row" title="{esc(full)}">{esc(names[place])}</th>{line}</tr>'
    return f'''<h4>From attribute to attribute</h4>
<table class="square"><caption>Senders are rows. &times;: the invariant denies all flows. A number: the permitted
flows.</caption><thead><tr><td></td>{tops}</tr></thead><tbody>{rows}</tbody></table>'''


def square_cell(sender: str, receiver: str, pairs: int, denied: int, used: int) -> str:
    style, text, said = 'c-part', str(used), f'{denied} of {counted(pairs, "flow")} denied, {used} permitted'
    if not pairs:
        style, text, said = 'c-none', '', 'no flow'
    elif denied == pairs:
        style, text, said = 'c-no', '&times;', f'{counted(pairs, "flow")} denied'
    elif not denied:
        style, said = 'c-use' if used else 'c-free', f'{used} of {counted(pairs, "flow")} permitted, none denied'
    return f'<td class="{style}" title="{esc(f"{sender} to {receiver}: {said}")}">{text}</td>'
