"""Lists the saved connections that the rules of a description would not let begin."""
import sys

from .cuts_judge import Cut, Judge, Judgement, without_ports
from .cuts_read import Connection, Saved, read_connections
from .import_sets import Numbers, intersection, joined, single
from .import_words import address
from .query import NO_FILE, USAGE, Programs, Stopped, Tool, data_text, need_words, plain, write_text
from .report_model import Source
from .report_words import counted, verb

SCHEMA = 'topos-cuts 1'
USAGE_TEXT = '''usage: topos-cuts [--program TOPOS] [--firewall ADDRESSES] [--all | --json] DESCRIPTION CONNECTIONS
           lists the connections of the file CONNECTIONS that the rules of DESCRIPTION would not let begin, by flow;
           its lines are those of `conntrack -L`, or have five fields: source, destination, protocol, source port and
           destination port; - is the standard input
       --firewall ADDRESSES   leaves out the connections of the firewall itself; with commas between addresses
       --all                  lists every service, and cuts no list
       --json                 writes the data
       exit status 0: the rules let all of them begin; 1: some are listed; 2: there is none to evaluate
       topos-query is the program in TOPOS_QUERY, else the one next to topos, else the one on the PATH
'''
FOUND, NO_CONNECTION = 1, 2
MOST_LINES = 20
BROADCAST = 0xffffffff


def read_saved(path: str) -> Saved:
    """Reads the file of connections."""
    try:
        with open(0 if path == '-' else path, encoding='utf-8', errors='replace') as file:
            saved = read_connections(file)
    except OSError:
        raise Stopped(f'cannot read {path}', NO_FILE) from None
    if saved.unread and not saved.connections:
        raise Stopped(f'{path}: line {saved.unread[0]} is no connection', NO_FILE)
    return saved


def own_addresses(given: str) -> Numbers:
    """Reads the addresses of the firewall."""
    found: list[tuple[int, int]] = [(BROADCAST, BROADCAST)]
    for word in given.split(',') if given else []:
        try:
            found += address(word.strip()) or ()
        except ValueError:
            raise Stopped(f'{word}: an address is required', USAGE) from None
    return joined(found)


def forwarded(saved: Saved, own: Numbers) -> list[Connection]:
    """Returns the connections that are not those of the firewall itself."""
    return [each for each in saved.connections
            if not any(intersection(single(end), own) for end in (each.sender, each.receiver))]


def note(path: str, saved: Saved) -> None:
    """Writes to the error stream which lines are no connections."""
    if saved.unread:
        count = len(saved.unread)
        lines = f'{counted(count, "line")} {verb(count, "is", "are")} no connection'
        sys.stderr.write(f'topos-cuts: note: {plain(path)}: {lines}, the first is line {saved.unread[0]}\n')
    if saved.other_family:
        sys.stderr.write(f'topos-cuts: note: {plain(path)}: {counted(saved.other_family, "line")} of IPv6 left out\n')


def listed(cuts: list[Cut], head: str, is_whole: bool) -> list[str]:
    """Returns a line for each flow, without services and cut if there are many."""
    if is_whole or len(cuts) <= MOST_LINES:
        return [f'{head}: {each.text()}' for each in cuts]
    brief = without_ports(cuts)
    more = [f'and {len(brief) - MOST_LINES} more (--all)'] if len(brief) > MOST_LINES else []
    return [f'{head}: {each.text()}' for each in brief[:MOST_LINES]] + more


def text_of(found: Judgement, is_whole: bool) -> str:
    lines = [f'a load would delete {counted(found.count(), "connection")}; {found.remain:,} remain',
             *listed(found.deleted, 'would be deleted', is_whole),
             *listed(found.silent, 'would get no answers', is_whole)]
    return '\n'.join(lines) + '\n'


def json_of(found: Judgement, saved: Saved) -> str:
    tree = {'schema': SCHEMA, 'deleted': [each.tree() for each in found.deleted], 'remain': found.remain,
            'without_answers': [each.tree() for each in found.silent], 'answers': saved.answers,
            'unread': saved.unread, 'other_family': saved.other_family}
    return data_text(tree)


def main(values: dict[str, str], options: set[str], words: list[str]) -> int:
    need_words(words, 2, 'a description and a file of connections are required')
    own = own_addresses(values.get('--firewall', ''))
    programs = Programs.find(values.get('--program'))
    source, saved = Source.read(programs, words[0]), read_saved(words[1])
    note(words[1], saved)
    connections = forwarded(saved, own)
    if not connections:
        raise Stopped(f'{words[1]}: no connection to evaluate', NO_CONNECTION)
    found = Judge(programs, source).judge(connections)
    write_text(None, json_of(found, saved) if '--json' in options else text_of(found, '--all' in options))
    return FOUND if found.deleted else 0


TOOL = Tool(SCHEMA, USAGE_TEXT, {'--program', '--firewall'}, {'--all', '--json'}, main)
