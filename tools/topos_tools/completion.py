"""Completes the command lines of `topos` and the tools, from the usage that each command prints.

A usage has forms, as `topos trace iptables|openflow RULES EVENTS` or `topos-why [--program TOPOS] FILE FROM TO`. Words
in lower case denote themselves, HOST, FROM and TO for a host of the description that is named, N, SECONDS and
NAME for words that are not known, and other words in capital letters for files. `[--option VALUE]` may be left out.
"""
import os
import re
import subprocess
from collections.abc import Iterator
from dataclasses import dataclass

from .query import UNAVAILABLE, Stopped, find_program, find_query

SECONDS = 3  # for what a command is asked
FILES = '@files'  # denotes the files of the folder
HOSTS = {'HOST', 'FROM', 'TO', 'RECEIVER', 'SENDER'}
FREE = {'N', 'SECONDS', 'TIME', 'NAME', 'NETWORK'}  # what nothing is known of
OPTION = re.compile(r'(?<![\w-])(--?[a-z][a-z-]*)(?:[ =]([A-Z][A-Z.]*|[a-z]+(?:\|[a-z]+)+))?')


def printed(words: list[str]) -> str:
    """Returns what a command prints, or nothing if it does not run."""
    try:
        ended = subprocess.run(words, stdin=subprocess.DEVNULL, stdout=subprocess.PIPE, stderr=subprocess.STDOUT,
                               check=False, timeout=SECONDS)
    except (OSError, subprocess.TimeoutExpired):
        return ''
    return ended.stdout.decode(errors='replace')


@dataclass
class Usage:
    """The forms of a command, and for each option its value, or an empty text."""
    forms: list[list[str]]
    options: dict[str, str]

    @classmethod
    def read(cls, command: str, text: str) -> 'Usage':
        start = re.compile(rf'(?:usage:)? *{re.escape(command)} (.*)')
        forms: list[list[str]] = []
        options: dict[str, str] = {}
        for line in text.splitlines():
            found = start.match(line)
            said = (found[1] if found else line.strip()).split('  ')[0]
            if found:
                forms.append(re.sub(r'\[[^\]]*\]|\.\.', ' ', said).split())
                options |= {option: '' for option, _ in OPTION.findall(said)} | options
                said = ' '.join(re.findall(r'\[[^\]]*\]', said))
            if found or said.startswith('-'):
                options |= {option: value for option, value in OPTION.findall(said) if value or option not in options}
        return cls(forms, options)


def positions(usage: Usage, words: list[str]) -> list[str]:
    """Returns the words that are no options and no values of options."""
    found, is_value = [], False
    for word in words:
        if is_value:
            is_value = False
        elif word.startswith('-') and word != '-':
            is_value = bool(usage.options.get(word))
        else:
            found.append(word)
    return found


def expected(usage: Usage, words: list[str]) -> Iterator[str]:
    """Returns the word that each form has at the next place, if the words before are of the form."""
    before = positions(usage, words)
    for form in usage.forms:
        wanted = [word for word in form if word.startswith('-')]
        plain = [word for word in form if not word.startswith('-')]
        is_form = all(word.isupper() or given in word.split('|') for word, given in zip(plain, before))
        if is_form and len(before) < len(plain) and set(wanted) <= set(words):
            yield plain[len(before)]


def own_command(name: str) -> str | None:
    """Returns the path of a tool of this installation or repository: the file that is typed may be of anybody."""
    above = os.path.dirname(os.path.dirname(os.path.realpath(__file__)))
    base = os.path.dirname(above)
    folders = [os.path.join(os.path.dirname(base), 'bin')] if os.path.basename(above) == 'topos' else [
        above, os.path.join(base, 'load')]
    paths = (os.path.join(folder, name) for folder in folders)
    return next((path for path in paths if os.path.isfile(path) and os.access(path, os.X_OK)), None)


def usage_of(typed: str) -> Usage:
    """Asks a tool for its usage; the `topos` of a repository, which may build, is not run."""
    name = os.path.basename(typed)
    if name in ('topos', 'topos-query'):
        topos = find_program(None)
        command: str | None = topos if name == 'topos' else find_query(topos)
    else:
        command = own_command(name)
    return Usage.read(name, printed([command, '--help']) if command else '')


def hosts(words: list[str]) -> list[str]:
    """Returns the hosts of the first file among the words, in its order."""
    paths = (os.path.expanduser(re.sub(r'\\(.)', r'\1', word)) for word in words)  # as the command line has them
    path = next(filter(os.path.isfile, paths), None)
    lines = printed([find_program(None), 'policy', path]).splitlines() if path else []
    flows = [line.split(' ') for line in lines if ' -> ' in line]
    return list(dict.fromkeys(flow[0] for flow in flows))


def candidates(words: list[str], place: int) -> list[str]:
    """Returns the possible words at a position of a command line."""
    usage, before = usage_of(words[0]), words[1:place]
    current = words[place] if place < len(words) else ''
    if current.startswith('-'):
        return list(usage.options)
    last = usage.options.get(before[-1] if before else '')
    found: list[str] = []
    for word in [last] if last else dict.fromkeys(expected(usage, before)):
        if word in HOSTS:
            found += hosts(before)
        elif not word.isupper():
            found += word.split('|')
        elif word not in FREE:
            found.insert(0, FILES)
    return list(dict.fromkeys(found))


def main(given: list[str]) -> int:
    place, words = int(given[0]), given[1:]
    current = words[place] if place < len(words) else ''
    try:
        found = candidates(words, place)
    except Stopped:
        return UNAVAILABLE
    for word in found:
        if word == FILES or word.startswith(current):
            print(word)
    return 0
