"""Writes rules that `topos` reads from what `iptables-save` prints."""
import sys

from .import_bounds import Bound
from .import_files import file_name, import_save, read_text
from .import_report import known, report
from .import_save import Save
from .import_text import Text
from .query import PROGRESS, TimedOut, Tool, keep_inputs, lines_text, need_words, plain, write_text

USAGE_TEXT = '''usage: topos-import [--interfaces FILE] [--sets FILE] [--syn] [--nft-list FILE] [--upper OUT]
                    [--lower OUT] RULES
           writes what iptables-save printed, RULES, as rules that topos reads
       --interfaces FILE   networks behind interfaces: lines IFACE NET .., IFACE rest and IFACE rp_filter N, or what
                           ip -4 route show table all, ip -4 rule and sysctl printed
       --sets FILE         what ipset save printed
       --nft-list FILE     what nft -t -d netlink list table ip filter printed
       --syn               assumes that a new TCP packet has SYN alone of FIN, SYN, RST and ACK
       --upper OUT         writes rules that forward at least what the box forwards
       --lower OUT         writes rules that forward at most what the box forwards
       without --upper and --lower the rules go to the output if nothing is in doubt
       the report on each line goes to the error stream
'''
DOUBT = 2
INPUTS = ('--interfaces', '--sets', '--nft-list')
MOST = {'upper': 'least', 'lower': 'most'}


def main(values: dict[str, str], options: set[str], words: list[str]) -> int:
    need_words(words, 1, 'a file of rules is wanted')
    keep_inputs(map(values.get, ('--upper', '--lower')), [words[0], *map(values.get, INPUTS)])
    PROGRESS.doing = f'reading {file_name(words[0])}'
    interfaces, sets, nft_list = map(values.get, INPUTS)
    told: list[str] = []
    try:
        save = import_save(read_text(words[0]), interfaces, sets, '--syn' in options, nft_list)
        told = report(save, file_name(words[0]))
        texts = bounds(save, words[0])
    except TimedOut as stopped:
        told += known(stopped.part, file_name(words[0])) if isinstance(stopped.part, Save) else []
        sys.stderr.write(lines_text(map(plain, told)))
        raise
    is_same = texts['upper'].chains == texts['lower'].chains
    told += [f'{bound}: {text.count} rules in {len(text.chains)} chains' for bound, text in texts.items()]
    told.append('upper and lower ' + ('differ' if not is_same else 'are the same' if save.is_checked else
                                      'are the same, if each rule is as printed'))
    sys.stderr.write(lines_text(map(plain, told)))
    for bound in ('upper', 'lower'):
        if '--' + bound in values:
            write_text(values['--' + bound], texts[bound].written(head(bound, MOST[bound], file_name(words[0]))))
    if '--upper' in values or '--lower' in values:
        return 0
    if not is_same or not save.is_checked:
        return DOUBT
    write_text(None, texts['upper'].written(head('exact', 'least and at most', file_name(words[0]))))
    return 0


def bounds(save: Save, path: str) -> dict[str, Text]:
    """Returns the texts of both bounds."""
    PROGRESS.doing = f'writing the bounds of {file_name(path)}'
    return {'upper': Bound(save, True).text, 'lower': Bound(save, False).text}


def head(bound: str, most: str, name: str) -> list[str]:
    return [f'topos-import {bound}: forwards at {most} what {name} forwards.',
            'For topos trace, audit and compare, not for loading: INPUT and OUTPUT are left out.']


TOOL = Tool('topos-import 1', USAGE_TEXT, {*INPUTS, '--upper', '--lower'}, {'--syn'}, main)
