"""The page of a report: one HTML text that loads nothing."""
import base64
import hashlib
import json
import os
from typing import Any

from . import report_graph, report_hosts, report_invariants, report_matrix, report_services, report_summary
from .report_model import Report
from .report_script import script_data
from .report_view import View, table
from .report_words import esc

HERE = os.path.dirname(os.path.realpath(__file__))
POLICY = ("default-src 'none'; style-src {style}; script-src {script}; img-src data:; base-uri 'none'; "
          "form-action 'none'")


def read_part(name: str) -> str:
    with open(os.path.join(HERE, name), encoding='utf-8') as file:
        return file.read()


def source(text: str) -> str:
    """Returns how a policy of contents names the text of an element: by its SHA-256."""
    return f"'sha256-{base64.b64encode(hashlib.sha256(text.encode()).digest()).decode()}'"


def script_json(value: object) -> str:
    """Returns JSON that cannot end a script element."""
    return json.dumps(value, separators=(',', ':')).replace('<', '\\u003c')


def head(view: View, title: str) -> str:
    """Returns the head of the page: the file, the date and the programs."""
    report = view.report
    answers = 'pass unless an invariant denies them' if report.source.table.get('answers', 'all') == 'all' else \
        'never pass (<code>answers = "none"</code>)'
    return f'''<header class="head">
<p class="kicker">Network policy, as topos-query answers it</p>
<h1>{esc(title)}</h1>
<dl class="facts">
<dt>Description</dt><dd>{esc(report.source.name)}, {len(report.source.data):,} bytes</dd>
<dt>SHA-256</dt><dd class="mono">{report.source.digest()}</dd>
<dt>Date</dt><dd>{esc(report.made)}</dd>
<dt>topos-query</dt><dd>{program_words(report.program)}</dd>
<dt>topos</dt><dd>{program_words(report.program['topos'])}</dd>
<dt>Answers</dt><dd>Answers of a flow {answers}.</dd>
</dl>
</header>'''


def program_words(program: dict[str, Any]) -> str:
    """Returns the digest of a program, and whether the list of proved programs has it."""
    listed = ('The list <code>topos.proved</code> beside the program lists this digest as proved. Who can write this '
              'folder can write the list.' if program['proved'] else
              'No list <code>topos.proved</code> beside the program has this digest: a trial build is not excluded.')
    return f'SHA-256 <span class="mono">{program["sha256"]}</span><br>{listed}'


def proved(view: View) -> str:
    """Returns the section on what the parts of the page rest on."""
    name = esc(view.report.source.name)
    lines = 'they are shown' if view.report.source.page.is_known else 'the two differ here, so none are shown'
    rows = f'''<tr><th scope="row">{view.tag('fact')}</th>
<td>The answer of <code>topos-query network</code> to this file: the state and the services of each flow, all invariants
that deny it, gaps, and the minimal offending sets.</td>
<td>Proved of a program that <code>./topos prove</code> builds. The head of the page says whether the program is
one.</td></tr>
<tr><th scope="row">{view.tag('copy')}</th>
<td>Answers of <code>topos-query</code> to copies of the file: without a part of an entry, for exceptions and the flows
that use them; with an invariant <code>noreach</code>, for what hosts reach over several flows.</td>
<td>Each answer is proved of its copy. The choice of the copies is only tested.</td></tr>
<tr><th scope="row">{view.tag('page')}</th>
<td>Counts, orders, groups, the graph, lines, titles and comments of the file, the words on templates, defaults, and the
points to check.</td>
<td>Only tested.</td></tr>'''
    return f'''<section id="proved" aria-labelledby="proved-title">
<h2 id="proved-title">What is proved</h2>
{table(('Mark', 'Meaning', 'Trust'), rows)}
{rules_words(view)}
<p>It is trusted that kernels and switches do what the definitions say, and that the description says what is meant.
Lines of the file are shown if the reader of this page finds the same hosts, flows, invariants and entries as topos:
{lines}.</p>
<p>The same answers on the command line: <code>topos policy {name}</code>, <code>topos check {name}</code>,
<code>topos-query network {name}</code>, <code>topos-why {name} FROM TO</code>. <code>topos-why</code> also lists the
changes after which a flow passes; <code>topos-rest {name}</code> lists the private addresses of no host.</p>
</section>'''


def rules_words(view: View) -> str:
    """Returns the paragraphs on the rules that are written from the description, and on what it does not cover."""
    name = esc(view.report.source.name)
    others = '' if any(host.rest for host in view.report.hosts) else ', and those from or to addresses of no host'
    return f'''<p>The rules that <code>topos repair iptables {name}</code> writes forward exactly the packets of the
permitted flows, and the answers that may pass. They drop every other packet: those of denied flows, of flows that are
not asked for, and between two addresses of one host{others}. This is proved of the program <code>topos</code>, if
<code>./topos prove</code> built it, and not of this page. Which rules a firewall has is not on this page:
<code>topos audit iptables {name} RULES</code> compares them.</p>
<p>Not covered: IPv6, translated addresses, rules for the firewall itself (<code>INPUT</code>, <code>OUTPUT</code>), and
packets that do not cross the firewall, as between machines of one segment.</p>'''


def page_text(report: Report) -> str:
    """Returns the page."""
    view = View(report)
    title = f'Network report: {report.source.name}'
    drawn, graph_section = report_graph.section(view)
    sections = {'summary': ('Summary', report_summary.section(view)),
                'changes': ('Changes', report_summary.changes(view)),
                'matrix': ('Matrix', report_matrix.section(view)), 'graph': ('Graph', graph_section),
                'services': ('Services', report_services.section(view)),
                'invariants': ('Invariants', report_invariants.section(view)),
                'hosts': ('Hosts', report_hosts.section(view)), 'proved': ('What is proved', proved(view))}
    shown = {name: each for name, each in sections.items() if each[1]}
    style, script = '\n'.join(['', read_part('report.css'), *view.styles, '']), f'\n{read_part("report.js")}'
    policy = POLICY.format(style=source(style), script=source(script))
    links = ''.join(f'<li><a href="#{name}">{words}</a></li>' for name, (words, _) in shown.items())
    return '\n'.join([
        '<!DOCTYPE html>', '<html lang="en">', '<head>', '<meta charset="utf-8">',
        '<meta name="viewport" content="width=device-width, initial-scale=1">',
        f'<meta http-equiv="Content-Security-Policy" content="{policy}">',
        f'<title>{esc(title)}</title>', f'<style>{style}</style>', '</head>', '<body>',
        '<a class="skip" href="#matrix">Skip to the matrix</a>', head(view, title),
        f'<nav aria-label="Sections"><ul>{links}</ul></nav>',
        '<main>', *(text for _, text in shown.values()), '</main>',
        '<footer>Written by topos-report. The page is one file and loads nothing.</footer>',
        f'<script type="application/json" id="data">{script_json(script_data(view, drawn))}</script>',
        f'<script>{script}</script>', '</body>', '</html>', ''])
