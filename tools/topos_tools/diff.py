"""Lists for a reviewer the differences between two descriptions."""
from .diff_model import SCHEMA, read_difference
from .diff_text import View
from .diff_words import MOST_NAMES
from .query import READS_ANSWERS, USAGE, Programs, Stopped, Tool, data_text, need_words, write_text

USAGE_TEXT = '''usage: topos-diff [--program TOPOS] [--all] [--markdown | --json] OLD NEW
           lists the differences between the descriptions OLD and NEW, the most important first
       --all        cuts no list
       --markdown   writes Markdown, for the description of a merge request
       --json       writes the data
       exit status 0: no invariant fails or is weaker, no gap is new, and no flow is wider; 1: one does or is,
       or it is not known; 2: a description is refused
       topos-query is the program in TOPOS_QUERY, else the one next to topos, else the one on the PATH
'''


def main(values: dict[str, str], options: set[str], words: list[str]) -> int:
    need_words(words, 2, 'two descriptions are required')
    if options >= {'--json', '--markdown'}:
        raise Stopped('--json and --markdown exclude each other', USAGE)
    most = MOST_NAMES if options.isdisjoint({'--all', '--json'}) else None
    difference = read_difference(Programs.find(values.get('--program')), words[0], words[1], most)
    view = View(difference, '--all' in options)
    if '--json' in options:
        write_text(None, data_text(difference.tree()))
    else:
        write_text(None, view.markdown() if '--markdown' in options else view.text())
    if difference.stopped:
        raise difference.stopped
    return difference.status()


TOOL = Tool(SCHEMA + READS_ANSWERS, USAGE_TEXT, {'--program'}, {'--all', '--markdown', '--json'}, main)
