"""What the sections of the page share: links, lists of hosts and flows, and tables."""
import functools
from collections.abc import Iterable

from .page import Place
from .report_model import Flow, Report
from .report_words import DENIED, PERMITTED, counted, esc

MOST_LINKED = 64  # hosts up to which each name is a link and each flow a row
FEW = 12  # of a list in a sentence
TAGS = {'fact': 'answer of topos-query', 'copy': 'answers on changed copies', 'page': 'computed by this page'}


def table(heads: Iterable[str], rows: str, caption: str = '') -> str:
    """Returns a table of rows that are HTML."""
    tops = ''.join(f'<th scope="col">{head}</th>' for head in heads)
    above = f'<caption>{caption}</caption>' if caption else ''
    return f'<table class="list">{above}<thead><tr>{tops}</tr></thead><tbody>{rows}</tbody></table>'


def at_line(place: Place) -> str:
    return f'line {place.line}' if place.line else ''


def note(place: Place, with_title: bool = False) -> str:
    """Returns the reason that a comment gives, as a paragraph, and its title if asked for."""
    title = f'<b>{esc(place.title)}</b> ' if with_title and place.title else ''
    return f'<p class="why">{title}{esc(place.why)}</p>' if title or place.why else ''


class View:
    """A report with the lists and links that the sections need."""

    def __init__(self, report: Report) -> None:
        self.report, self.network = report, report.network
        self.names, self.number = report.network.names, report.network.number
        self.size = len(self.names)
        self.rows = report.network.rows
        self.columns = [''.join(column) for column in zip(*self.rows)]
        self.is_small = self.size <= MOST_LINKED
        self.styles: list[str] = []  # of single elements: an attribute would need a weaker policy of contents
        self.links = {name: f'<a href="#host-{esc(name)}">{esc(name)}</a>' if self.is_small else esc(name)
                      for name in self.names}

    def tag(self, kind: str) -> str:
        """Returns the mark that names the source of a part of the page."""
        words = 'proved answer' if kind == 'fact' and self.report.program['proved'] else TAGS[kind]
        return f'<a class="tag {kind}" href="#proved">{words}</a>'

    @functools.cached_property
    def places(self) -> dict[Flow, Place]:
        return {each.flow: each.place for each in self.report.flows}

    def link(self, name: str) -> str:
        """Returns a link to the section of a host; of a large network, or of another one, the name alone."""
        return self.links.get(name) or esc(name)

    def some(self, names: Iterable[str], nobody: str = 'no host', besides: int = 1) -> str:
        """Returns a list of hosts; a long one by those that are not in it. `besides`: how many cannot be in it."""
        found = list(names)
        if not found:
            return f'<span class="soft">{nobody}</span>'
        if besides and len(found) == self.size - besides and len(found) > 3:
            return 'all other hosts'
        if len(found) > 24 and len(found) > self.size * .75 and besides == 1:
            chosen = set(found)
            rest = ' '.join(self.link(each) for each in self.names if each not in chosen)
            return f'{len(found)}: all but {rest}'
        return ' '.join(self.link(each) for each in found)

    def few(self, names: Iterable[str], most: int = 24) -> str:
        found = list(names)
        more = f' <span class="soft">and {len(found) - most} more</span>' if len(found) > most else ''
        return self.some(found[:most], besides=0) + more

    def arrow(self, flow: Flow) -> str:
        return f'{self.link(flow[0])} &rarr; {self.link(flow[1])}'

    def few_flows(self, flows: Iterable[Flow], most: int = FEW) -> str:
        found = list(flows)
        said = ', '.join(self.arrow(each) for each in found[:most])
        return said + (f' and {len(found) - most:,} more' if len(found) > most else '')

    def invariant_link(self, number: int) -> str:
        invariant = self.report.invariants[number - 1]
        title = f' title="{esc(invariant.place.title)}"' if invariant.place.title else ''
        return f'<a href="#invariant-{number}"{title}>{number} {esc(invariant.template)}</a>'

    def services(self, flow: Flow) -> str:
        return ' '.join(self.network.services(flow)) or 'all traffic'

    def receivers(self, host: int, states: str) -> list[str]:
        """Returns the hosts to which the flow from a host has one of the states."""
        return [self.names[other] for other, state in enumerate(self.rows[host]) if state in states]

    def senders(self, host: int, states: str) -> list[str]:
        return [self.names[other] for other, state in enumerate(self.columns[host]) if state in states]

    def degree(self, host: int) -> int:
        return sum(self.rows[host].count(state) + self.columns[host].count(state) for state in PERMITTED)

    def denied_flows(self) -> list[Flow]:
        return self.network.of_state(DENIED)

    def more(self, number: int, most: int, noun: str) -> str:
        return f'<p>And {counted(number - most, noun)} more.</p>' if number > most else ''
