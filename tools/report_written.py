"""Reads a page that topos-report writes, as it is written."""
import html.parser

VOID = {'meta', 'input', 'br', 'link', 'img', 'hr'}
SHAPES = ('circle', 'path')


class Written(html.parser.HTMLParser):
    """The page as written: whether its elements close in order, its ids and links, cells and counts."""

    def __init__(self, text: str) -> None:
        super().__init__()
        self.open: list[str] = []
        self.faults: list[str] = []
        self.ids: list[str] = []
        self.links: list[str] = []
        self.rows: list[list[list[str]]] = []
        self.counts: dict[str, str] = {}
        self.counted, self.in_cells = '', False
        self.feed(text)
        self.close()
        self.faults += [f'{name} is not closed' for name in self.open]

    def handle_starttag(self, name: str, attrs: list[tuple[str, str | None]]) -> None:
        given = {key: value or '' for key, value in attrs}
        self.ids += [given['id']] if 'id' in given else []
        self.links += [given['href'][1:]] if given.get('href', '').startswith('#') else []
        if any(given.get(key, '').startswith(('http', '//', 'file')) for key in ('href', 'src')):
            self.faults.append(f'{name} loads {given}')
        self.counted = given.get('data-count', self.counted)
        self.in_cells |= given.get('id') == 'cells'
        if self.in_cells and name == 'tr':
            self.rows.append([])
        if self.in_cells and name == 'td':
            self.rows[-1].append([given['class'].split()[0], ''])
        if name not in VOID and not (self.get_starttag_text() or '').endswith('/>'):
            self.open.append(name)

    def handle_endtag(self, name: str) -> None:
        if name in VOID or (name in SHAPES and (not self.open or self.open[-1] != name)):
            return
        if not self.open or self.open.pop() != name:
            self.faults.append(f'</{name}> on line {self.getpos()[0]} closes another element')
        self.in_cells &= name != 'table'

    def handle_data(self, data: str) -> None:
        if self.counted:
            self.counts[self.counted] = data
            self.counted = ''
        if self.in_cells and self.open and self.open[-1] == 'td':
            self.rows[-1][-1][1] = data
