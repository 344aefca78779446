"""Explains why a flow is allowed, denied or without answers: by which invariants, on which flows, and what would have
to change."""
from __future__ import annotations

from .query import READS_ANSWERS, Programs, Stopped, Tool, data_text, lines_text, need_words, read_bytes, write_text

TYPE_CHECKING = False
if TYPE_CHECKING:
    from .why_network import Description, Flow, Table

USAGE_TEXT = '''usage: topos-why [--program TOPOS] [--json] FILE FROM TO
           why the flow between these two hosts is allowed, denied or without answers, and what would have to change
       topos-why [--program TOPOS] [--json] FILE --tcp
           the flows that carry TCP, or everything, and get no answers
       --json   prints the lines, and the answer of topos-query that they explain, as JSON
       topos-query is the program in TOPOS_QUERY, else the one next to topos, else the one on the PATH
'''
SCHEMA = 'topos-why 1'
NO_HOST = 5  # the status of `topos-query` for a name that no host has, and for a flow of a host to itself


def checked(description: Description, name: str) -> str:
    if name not in description.names:
        import difflib

        from .why_network import joined
        similar = difflib.get_close_matches(name, description.names)
        raise Stopped(f'no host has the name {name}' + (f': {joined(similar, "or")}?' if similar else ''))
    return name


def asked(description: Description, flow: Flow) -> Table | None:
    """Returns the answer on the flow between two names, or None if both name the same host."""
    try:
        return description.why(flow)
    except Stopped as stopped:
        if stopped.status != NO_HOST or len({checked(description, name) for name in flow}) > 1:
            raise
        return None


def answer(description: Description, words: list[str]) -> tuple[list[str], Table]:
    """Returns the lines of the answer, and the facts that they are about; without hosts those on TCP."""
    from .why_report import Report, silent, tcp_lines
    if not words:
        flows = description.network.flows
        return tcp_lines(description), {'tcp_without_answers': [
            {'flow': flow, 'services': flows[flow]['services'], 'by': by} for flow, by in silent(description)]}
    flow = tuple(word.encode(errors='replace').decode() for word in words)  # no name has the `?` of a wrong byte
    given = asked(description, flow)
    if given is None:
        said = f'{words[0]} is one host: what goes from one of its addresses to another is dropped, and is no flow.'
        return [said], {}
    return Report(description, flow, given).whole(), {'answer': given}


def main(values: dict[str, str], options: set[str], words: list[str]) -> int:
    if '--tcp' in options:
        need_words(words, 1, 'a file is required')
    else:
        need_words(words, 3, 'a file and two hosts are required')
    from .why_network import Description
    description = Description(Programs.find(values.get('--program')), read_bytes(words[0]))
    lines, facts = answer(description, words[1:])
    is_data = '--json' in options
    write_text(None, data_text({'schema': SCHEMA, 'lines': lines, **facts}) if is_data else lines_text(lines))
    return 0


TOOL = Tool(SCHEMA + READS_ANSWERS, USAGE_TEXT, {'--program'}, {'--tcp', '--json'}, main)
