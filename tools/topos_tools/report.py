"""Writes a report of a description: an HTML page, or data for other programs."""
from .query import (READS_ANSWERS, REFUSED, USAGE, Programs, Stopped, Tool, data_text, keep_inputs, need_words,
                    write_text)
from .report_changes import changes_between
from .report_exceptions import read_exceptions
from .report_export import csv_text, dot_text
from .report_model import SCHEMA, Report, read_reasons, read_report, read_source
from .report_orders import set_orders
from .report_page import page_text
from .report_steps import read_steps

USAGE_TEXT = '''usage: topos-report [--program TOPOS] [--against OLD] [--seconds N] [-o OUT.html] FILE
           writes a page on the description: matrix, graph, invariants, hosts
       topos-report [..] --json FILE
           writes the data of the page as JSON
       topos-report [..] --csv FILE
           writes a line for each flow
       topos-report [..] --dot FILE
           writes a graph for Graphviz
       --against OLD   marks what changed since the description OLD
       --seconds N     time for questions on reasons, steps and exceptions (1)
       -o OUT          the file that is written, else the output
       topos-query is the program in TOPOS_QUERY, else the one next to topos, else the one on the PATH
'''
MOST_DIGITS = 9  # of a number of seconds
FORMS = ('--json', '--csv', '--dot')


def made_report(programs: Programs, path: str, against: str | None, seconds: float) -> Report:
    """Returns the report, with the reasons, steps and exceptions for which the time suffices."""
    report = read_report(programs, path)
    set_orders(report)
    if against is not None:
        report.changes = changes_between(read_source(programs, against, REFUSED), report.source)
    read_reasons(programs, report, seconds / 4)
    read_steps(programs, report, seconds / 4)
    read_exceptions(programs, report, seconds)
    return report


def text_of_form(report: Report, form: str | None) -> str:
    if form == '--json':
        return data_text(report.tree())
    if form == '--csv':
        return csv_text(report)
    return dot_text(report) if form == '--dot' else page_text(report)


def main(values: dict[str, str], options: set[str], words: list[str]) -> int:
    need_words(words, 1, 'a file is required')
    forms = options.intersection(FORMS)
    if len(forms) > 1:
        raise Stopped(f'{" and ".join(sorted(forms))} exclude each other', USAGE)
    seconds = values.get('--seconds', '1')
    if not seconds.isdecimal() or len(seconds) > MOST_DIGITS:
        raise Stopped(f'{seconds}: a number of seconds is required', USAGE)
    keep_inputs([values.get('-o')], [words[0], values.get('--against')])
    needed = 0 if forms & {'--csv', '--dot'} else int(seconds)
    report = made_report(Programs.find(values.get('--program')), words[0], values.get('--against'), needed)
    write_text(values.get('-o'), text_of_form(report, next(iter(forms), None)))
    return 0


TOOL = Tool(SCHEMA + READS_ANSWERS, USAGE_TEXT, {'--program', '--against', '--seconds', '-o'}, {*FORMS}, main)
