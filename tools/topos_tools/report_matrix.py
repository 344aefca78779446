"""The matrix of the page: rows open connections to columns, and the state of a flow has a shape and a colour."""
from .report_summary import changed_flows
from .report_view import View
from .report_words import COUNT_KEYS, DENIED, FORBIDDEN, GAP, PERMITTED, SELF, STATES, esc

SIDES = ((16, 34), (40, 24), (64, 18), (128, 13))  # the largest number of hosts, and the pixels of a cell
ROLES = ('cell', 'row', 'columnheader', 'rowheader', 'rowgroup', 'table')
ORDERS = {'file': 'as in the file', 'address': 'by address', 'flows': 'by flows: similar hosts together'}


def section(view: View) -> str:
    side = next((side for size, side in SIDES if view.size <= size), 10)
    size = ('' if view.size <= 40 else ' low') + ('' if view.is_small else ' large')
    options = ''.join(f'<option value="{key}">{words}</option>' for key, words in ORDERS.items())
    box = '<label><input type="checkbox" id="changed"> Changed flows alone</label>'
    changed = box if view.report.changes else ''
    return f'''<section id="matrix" aria-labelledby="matrix-title">
<h2 id="matrix-title">Who may open connections to whom {view.tag('fact')}</h2>
<p>A gap is a flow that nobody asks for and no invariant denies: if it is asked for, it passes.
<span class="nojs-only">The text of a cell is a letter or the number of an invariant, as in the legend.</span></p>
<ul class="legend" aria-label="Legend">{legend(view)}</ul>
<div class="tools js-only"><label>Order <select id="order">{options}</select></label>
<label>Senders <input type="search" id="senders" placeholder="part of a name"></label>
<label>Receivers <input type="search" id="receivers" placeholder="part of a name"></label>
<label>Size <input type="range" id="zoom" min="6" max="34" value="{side}"></label>{changed}
<span class="soft">A state of the legend, chosen, is shown alone. Arrow keys move from cell to cell.</span></div>
<div class="board{size}">
<div class="frame" tabindex="0" role="region" aria-label="Matrix of hosts">{grid(view, side)}</div>
<div class="panel" id="panel" role="status" aria-live="polite"><p class="soft js-only">Choose a cell: its services, the
invariants that deny it, and the flow back appear here.</p></div></div>
</section>'''


def legend(view: View) -> str:
    counts = view.report.counts()
    return ''.join(
        f'<li><button type="button" data-state="{state}" aria-pressed="false" disabled>'
        f'<i class="{state}" aria-hidden="true">{"3" if state == DENIED else ""}</i>'
        f'<span>{esc(words)} <b>{counts[COUNT_KEYS[state]]:,}</b> <span class="soft">'
        f'({"number of the first invariant" if state == DENIED else state})</span></span></button></li>'
        for state, words in STATES.items())


def printed_side(size: int) -> float:
    """Returns the pixels of a cell on A3: a page for the whole matrix if it is readable, else the width of a page."""
    fit = 680 / max(size, 1)
    return round(min(26, fit) if fit >= 7 else 1480 / (size + 9), 1)


def grid(view: View, side: int) -> str:
    # The script makes the cells of a large matrix row by row, where they are visible. As blocks its rows need roles.
    roles = {role: '' if view.is_small else f' role="{role}"' for role in ROLES}
    tops = ''.join(f'<th scope="col"{roles["columnheader"]} data-host="{number}"><span>{esc(name)}</span></th>'
                   for number, name in enumerate(view.names))
    rows = '\n'.join(row(view, number, roles) for number in range(view.size))
    view.styles.append(f'#cells {{ --c:{side}px;--print:{printed_side(view.size)}px }}')
    return f'''<table class="matrix"{roles['table']} id="cells">
<caption>Rows open connections to columns.</caption>
<thead{roles['rowgroup']}><tr{roles['row']}><th scope="col"{roles['columnheader']}>from / to</th>{tops}</tr></thead>
<tbody{roles['rowgroup']}>
{rows}
</tbody>
</table>'''


def row(view: View, sender: int, roles: dict[str, str]) -> str:
    """Returns the row of a sender: a cell for each receiver, or in a large matrix one cell with all letters."""
    head = f'<th scope="row"{roles["rowheader"]} data-host="{sender}">{esc(view.names[sender])}</th>'
    cells = cells_of(view, sender) if view.is_small else f'<td role="cell" class="line">{view.rows[sender]}</td>'
    return f'<tr{roles["row"]}>{head}{cells}</tr>'


def cells_of(view: View, sender: int) -> str:
    name, changed, cells = view.names[sender], changed_flows(view), ''
    for receiver, state in enumerate(view.rows[sender]):
        if state == SELF:
            cells += '<td class="s"></td>'
            continue
        flow = (name, view.names[receiver])
        text = view.network.denied_by(flow)[0] if state == DENIED else state
        style = f'{state} new' if flow in changed else state
        cells += f'<td class="{style}" tabindex="-1" title="{esc(cell_title(view, flow))}">{text}</td>'
    return cells


def cell_title(view: View, flow: tuple[str, str]) -> str:
    """Returns the words on a flow: its state, its services, and the invariants that deny it."""
    state = view.network.states[flow]
    denied = ', '.join(map(str, view.network.denied_by(flow)))
    more = {DENIED: f' by {denied}, {view.services(flow)}', GAP: '', FORBIDDEN: f' ({denied})'}
    title = view.report.source.page.flow(*flow).title if state in PERMITTED + DENIED else ''
    return (f'{flow[0]} → {flow[1]}: {STATES[state]}' + more.get(state, f', {view.services(flow)}')
            + (f'. {title}' if title else ''))
