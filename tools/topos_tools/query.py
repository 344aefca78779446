"""Finds `topos` and `topos-query`, and asks them about a description.

A description is sent to the standard input of a program: a changed copy needs no file. If a program refuses its input,
the tool ends with the same line and the same status. `Tool` is the frame of every tool.

Every tool imports this module at its start, so it imports little, and other modules only where they are used.
"""
from __future__ import annotations

import itertools
import json
import os
import resource
import signal
import stat
import sys

from .limits import OPTION, OPTION_TEXT, Budget, Progress, limit_memory, seconds_of

TYPE_CHECKING = False  # as typing.TYPE_CHECKING, without the import
if TYPE_CHECKING:
    from collections.abc import Callable, Iterable, Iterator, Mapping, Sequence
    from typing import Any, BinaryIO, NoReturn

    Work = Callable[[dict[str, str], set[str], list[str]], int]

if sys.version_info < (3, 11):
    sys.stderr.write(f'{os.path.basename(sys.argv[0])}: Python 3.11 or newer is needed, for tomllib\n')
    sys.exit(69)

USAGE, NO_REFUSAL, UNAVAILABLE = 64, 65, 69  # exit statuses of sysexits.h, in addition to those of the programs
NO_FILE, NO_OUTPUT = 6, 7  # statuses that `topos` uses for the same causes
REFUSED = 3  # the status of the programs for a description that they refuse
DIFFERS = 2  # the status of `topos-query` for an answer that lists differences
LONGEST = 1_048_576  # bytes of a description
VERSION = 1  # of the answers of `topos-query`
READS_ANSWERS = f', reads answers of topos-query in version {VERSION}'  # of the version of a tool
NOTHING: dict[int, str] = {}


class Stopped(Exception):
    """A line for the error stream, and the exit status."""

    def __init__(self, line: str, status: int = UNAVAILABLE) -> None:
        super().__init__(line)
        self.status = status


class TimedOut(Stopped):
    """The time limit is reached."""
    part: object = None  # what a tool has read until then


BUDGET, PROGRESS = Budget(TimedOut), Progress()


def find_program(given: str | None) -> str:
    """Returns the path of `topos`: as given, by TOPOS, next to the tool, built in the repository, or on the PATH."""
    return _find(given or os.environ.get('TOPOS'), 'topos', _beside_tool(), 'name the program with --program')


def find_query(program: str) -> str:
    """Returns the path of `topos-query`: by TOPOS_QUERY, next to `topos`, or on the PATH."""
    return _find(os.environ.get('TOPOS_QUERY'), 'topos-query', [os.path.dirname(program)],
                 'name the program with TOPOS_QUERY')


def _beside_tool() -> list[str]:
    """Lists the folder of the running tool and the folder to which the repository builds."""
    package = os.path.dirname(os.path.realpath(__file__))
    repository = os.path.dirname(os.path.dirname(package))
    return [os.path.dirname(os.path.realpath(sys.argv[0])), os.path.join(repository, 'out')]


def _find(given: str | None, name: str, folders: Iterable[str], advice: str) -> str:
    candidates = [given] if given else [*(os.path.join(folder, name) for folder in folders), name]
    for candidate in candidates:
        for path in _paths(candidate):
            if os.access(path, os.X_OK) and not os.path.isdir(path):
                return path
    raise Stopped(f'{candidates[-1]} is missing here: {advice}')


def _paths(name: str) -> list[str]:
    """Lists the paths that a shell tries for a command."""
    if os.path.dirname(name):
        return [name]
    return [os.path.join(folder, name) for folder in os.environ.get('PATH', os.defpath).split(os.pathsep)]


class Answer(dict[str, 'Any']):
    """An answer of a program, which is no `topos-query` if the answer lacks a key that a tool reads."""

    def __init__(self, content: dict[str, Any], query: str) -> None:
        super().__init__(content)
        self.query = query

    def __missing__(self, key: str) -> NoReturn:
        raise answers_otherwise(self.query)


def answers_otherwise(query: str) -> Stopped:
    return Stopped(f'{query} is no topos-query: its answer cannot be read')


class Programs:
    """The two programs that a tool asks."""

    def __init__(self, topos: str, query: str) -> None:
        self.topos, self.query = topos, query

    @classmethod
    def find(cls, given: str | None) -> Programs:
        topos = find_program(given)
        return cls(topos, find_query(topos))

    def table(self, text: bytes) -> dict[str, Any]:
        """Returns the description as a table of version 2, for any version of TOML and of the format."""
        import tomllib
        return tomllib.loads(answered([self.topos, 'migrate', '/dev/stdin'], text))

    def ask(self, text: bytes, form: str, *names: str) -> dict[str, Any]:
        """Returns the answer of `topos-query` to a question on a description."""
        return self._read(Question([self.query, form, '/dev/stdin', *names], text))

    def ask_changes(self, old: bytes, new: bytes) -> dict[str, Any]:
        """Returns the answer of `topos-query changes` on two descriptions."""
        return self._read(Question([self.query, 'changes', '/dev/stdin'], old, new), (0, DIFFERS))

    def begin_flows(self, text: bytes, rules: bytes) -> Question:
        """Asks `topos-query flows` about a description and rules for iptables, and does not wait."""
        return Question([self.query, 'flows', 'iptables', '/dev/stdin'], text, rules)

    def flows_of(self, asked: Question) -> dict[str, Any]:
        return self._read(asked)

    def ask_flows(self, text: bytes, rules: bytes) -> dict[str, Any]:
        """Returns the answer of `topos-query flows` on a description and rules for iptables."""
        return self.flows_of(self.begin_flows(text, rules))

    def ask_if_accepted(self, text: bytes, form: str) -> dict[str, Any] | None:
        """Returns the answer, or None if the program refuses the description."""
        return self.ask_all([text], form)[0]

    def ask_all(self, texts: list[bytes], form: str) -> list[dict[str, Any] | None]:
        """Returns the answers for several descriptions, asked in parallel; None for one that the program refuses."""
        answers: list[dict[str, Any] | None] = []
        for wave in waves(texts):
            asked = [Question([self.query, form, '/dev/stdin'], text) for text in wave]
            answers += [self._read_if_accepted(each) for each in asked]
        return answers

    def rules(self, text: bytes) -> bytes:
        """Returns the rules of the permitted flows of a description."""
        return answered([self.topos, 'repair', 'iptables', '/dev/stdin'], text).encode()

    def trace(self, rules: bytes, events: str) -> list[str]:
        """Returns what rules do with each event: `forward`, `drop` or `forgotten`."""
        asked = Question([self.topos, 'trace', 'iptables', '/dev/stdin'], rules, events.encode())
        return [line.split()[1] for line in asked.answer().splitlines()]

    def _read(self, asked: Question, statuses: Sequence[int] = (0,)) -> dict[str, Any]:
        text = asked.answer(statuses)
        try:
            answer = Answer(json.loads(text), self.query)
        except (ValueError, TypeError):
            raise answers_otherwise(self.query) from None
        version = answer['version']
        if version != VERSION:
            raise Stopped(f'{self.query} answers in version {version} of its format: version {VERSION} is read')
        return answer

    def _read_if_accepted(self, asked: Question) -> dict[str, Any] | None:
        try:
            return self._read(asked)
        except Stopped as stopped:
            if stopped.status != REFUSED:
                raise
            return None


def waves(items: list[Any]) -> Iterator[list[Any]]:
    """Yields the items in lists. The items of a list are asked about in parallel."""
    size = os.cpu_count() or 1
    for start in range(0, len(items), size):
        yield items[start:start + size]


class Question:
    """A program that runs on texts: on its standard input, and on further files, whose paths follow its words.

    All are files in memory, as are its output and its errors: nothing has to be read while it runs.
    """

    def __init__(self, words: list[str], text: bytes, *others: bytes) -> None:
        given = _memory_file(text)
        self.output, self.errors = _memory_file(b''), _memory_file(b'')
        files = [_memory_file(other) for other in others]
        self.words = [*words, *(f'/dev/fd/{file.fileno()}' for file in files)]
        streams = enumerate((given, self.output, self.errors))
        with given:
            for file in files:
                os.set_inheritable(file.fileno(), True)
            self.process = _spawn(self.words, [(os.POSIX_SPAWN_DUP2, file.fileno(), place) for place, file in streams])
        self.is_running = True
        BUDGET.share(self.process)
        for file in files:
            file.close()

    def answer(self, statuses: Sequence[int] = (0,)) -> str:
        """Waits for the end, and returns the output; with another status, the first error line stops the tool."""
        try:
            _, ended = os.waitpid(self.process, 0)
            self.is_running = False
        except BaseException:  # raised by the handler of a signal
            self.end()
            raise
        status = os.waitstatus_to_exitcode(ended)
        BUDGET.check(status)
        with self.output as output, self.errors as errors:
            if status not in statuses:
                line = _content(errors).strip()
                raise Stopped(line or f'{" ".join(self.words[:2])} ends with status {status}', status)
            return _content(output)

    def end(self) -> None:
        """Ends the program if its answer was not waited for."""
        if self.is_running:
            self.is_running = False
            os.kill(self.process, signal.SIGKILL)
            os.waitpid(self.process, 0)


def _memory_file(text: bytes) -> BinaryIO:
    file = open(os.memfd_create('description'), 'w+b')
    file.write(text)
    file.seek(0)
    return file


def _content(file: BinaryIO) -> str:
    file.seek(0)
    return file.read().decode(errors='replace')


def _spawn(words: list[str], actions: list[tuple[int, int, int]]) -> int:
    """Starts a program without the memory limit of this process: it has its own limits."""
    soft, hard = resource.getrlimit(resource.RLIMIT_AS)
    try:
        resource.setrlimit(resource.RLIMIT_AS, (hard, hard))
        return os.posix_spawn(words[0], words, os.environ, file_actions=actions,
                              setsigdef=(signal.SIGPIPE, signal.SIGXFSZ))  # which Python ignores
    except OSError as error:
        raise Stopped(f'{words[0]} does not run: {error}') from None
    finally:
        resource.setrlimit(resource.RLIMIT_AS, (soft, hard))


def answered(words: list[str], text: bytes, statuses: Sequence[int] = (0,)) -> str:
    """Returns the output of a program for a text on its standard input."""
    return Question(words, text).answer(statuses)


def toml(value: Any, known: Mapping[int, str] = NOTHING) -> str:
    """Returns a value as a part of a TOML document; `known` has the texts of some tables, by their id()."""
    if isinstance(value, dict):
        return known.get(id(value)) or '{ ' + ', '.join(
            [f'{key} = {toml(inner, known)}' for key, inner in value.items()]) + ' }'
    if isinstance(value, list) and any(isinstance(inner, (dict, list)) for inner in value):
        return '[' + ', '.join([toml(inner, known) for inner in value]) + ']'
    return json.dumps(value)  # as in JSON


def line_of(key: str, value: Any, known: Mapping[int, str] = NOTHING) -> str:
    """Returns a key of a description with its value as a line."""
    return f'{key} = {toml(value, known)}'


def text_of(table: dict[str, Any]) -> bytes:
    """Returns a table as the text of a description."""
    return '\n'.join(itertools.starmap(line_of, table.items())).encode()


def read_bytes(path: str, longest: int = LONGEST) -> bytes:
    """Returns the bytes of a plain file, at most one more than the longest text that is read."""
    try:
        opened = os.open(path, os.O_RDONLY | os.O_NONBLOCK)
        with open(opened, 'rb') as file:
            if not stat.S_ISREG(os.fstat(opened).st_mode):
                raise Stopped(f'{path} is no plain file', NO_FILE)
            return file.read(longest + 1)
    except OSError:
        raise Stopped(f'cannot read {path}', NO_FILE) from None


def write_text(path: str | None, text: str) -> None:
    """Writes a text to a file, or to the output if no file is named."""
    data = text.encode(errors='replace')  # the name of a file may have other bytes than UTF-8
    if path is None:
        sys.stdout.buffer.write(data)
        return
    try:
        with open(path, 'wb') as file:
            file.write(data)
    except OSError:
        raise Stopped(f'cannot write {path}', NO_OUTPUT) from None


def keep_inputs(outputs: Iterable[str | None], inputs: Iterable[str | None]) -> None:
    """Refuses an output that would overwrite an input; the input `-` is the standard input."""
    read = {_plain_file(0 if path == '-' else path) for path in inputs if path is not None}
    for path in outputs:
        if path is not None and _plain_file(path) in read - {None}:
            raise Stopped(f'cannot write {path}: it is an input', NO_OUTPUT)


def _plain_file(path: str | int) -> tuple[int, int] | None:
    """Returns the device and the inode of a plain file, or None."""
    try:
        found = os.stat(path)
    except OSError:
        return None
    return (found.st_dev, found.st_ino) if stat.S_ISREG(found.st_mode) else None


def data_text(tree: dict[str, Any]) -> str:
    """Returns data as the text that a tool writes with --json."""
    return json.dumps(tree, indent=1) + '\n'


def plain(text: str) -> str:
    """Returns a text on one line, without codes for a terminal."""
    return ''.join(each if each.isprintable() else ' ' if each.isspace() else '?' for each in text)


def lines_text(lines: Iterable[str]) -> str:
    return ''.join(f'{line}\n' for line in lines)


def read_words(given: list[str], valued: set[str], plain: set[str]) -> tuple[dict[str, str], set[str], list[str]]:
    """Returns the values of the options with one, the options without, and the other words."""
    values: dict[str, str] = {}
    options: set[str] = set()
    others: list[str] = []
    words = list(given)
    while words:
        word = words.pop(0)
        if word == '--':
            return values, options, others + words
        if word in valued:
            if not words:
                raise Stopped(f'{word}: a value is missing', USAGE)
            values[word] = words.pop(0)
        elif word in plain:
            options.add(word)
        elif word.startswith('-') and word != '-':
            raise Stopped(f'{word}: no such option', USAGE)
        else:
            others.append(word)
    return values, options, others


def need_words(words: list[str], count: int, missing: str, most: int = 0) -> None:
    """Refuses fewer words than a count, which are then missing, and more than that, or than another count."""
    if len(words) < count:
        raise Stopped(missing, USAGE)
    for word in words[max(count, most):]:
        raise Stopped(f'{word}: unexpected argument', USAGE)


def allow(word: str) -> None:
    """Allows the processor time that --limit names."""
    seconds = seconds_of(word)
    if seconds is None:
        raise Stopped(f'{OPTION} {word}: no number of seconds', USAGE)
    BUDGET.seconds = seconds
    BUDGET.start()


def set_streams() -> None:
    """Opens closed streams, errors for nothing and the output so that it fails, and ends at an interrupt silently."""
    sys.stderr = sys.stderr or open(os.devnull, 'w', encoding='utf-8')
    sys.stdout = sys.stdout or open(os.open(os.devnull, os.O_RDONLY), 'w', encoding='utf-8')
    if signal.getsignal(signal.SIGINT) is signal.default_int_handler:
        signal.signal(signal.SIGINT, signal.SIG_DFL)


class Tool:
    """A tool: its version, which begins with its name, its usage, its options with a value and without, and its work.

    The work has the values of options, the options without a value and the other words, and returns the status.
    """

    def __init__(self, version: str, usage: str, valued: set[str], plain: set[str], work: Work) -> None:
        self.name, self.version, self.usage, self.work = version.split()[0], version, usage + OPTION_TEXT, work
        self.valued, self.plain = valued | {OPTION}, plain | {'--help', '--version'}

    def answer(self, given: list[str]) -> int:
        """Does what the words of a command line say, and returns the status."""
        values, options, words = read_words(given, self.valued, self.plain)
        if OPTION in values:
            allow(values.pop(OPTION))
        if options.isdisjoint({'--help', '--version'}):
            return self.work(values, options, words)
        write_text(None, self.usage if '--help' in options else self.version_line())
        return 0

    def version_line(self) -> str:
        """Returns the version of the tool, of topos, and of the answers that are read."""
        from .version import version
        own, comma, answers = self.version.partition(',')
        return f'{own} of topos {version()}{comma}{answers}\n'

    def run(self) -> None:
        """Runs the tool on the words of the command line, and ends the process with its status."""
        set_streams()
        try:
            limit_memory()
            BUDGET.start()
            PROGRESS.start(self.name)
            status = self.answer(sys.argv[1:])
            sys.stdout.flush()
            sys.exit(status)
        except (RecursionError, MemoryError):
            sys.stderr.write(f'{self.name}: the file is nested too deeply, or needs too much memory\n')
            sys.exit(UNAVAILABLE)
        except Stopped as stopped:
            line = '\n'.join(map(plain, str(stopped).split('\n')))  # the name of a file may have codes for a terminal
            sys.stderr.write((line if line.startswith('topos: ') else f'{self.name}: {line}') + '\n')
            if stopped.status == USAGE:
                sys.stderr.write(self.usage)
            sys.exit(stopped.status)
        except OSError as error:  # of the standard output
            os.dup2(os.open(os.devnull, os.O_WRONLY), sys.stdout.fileno())
            if not isinstance(error, BrokenPipeError):
                sys.stderr.write(f'{self.name}: the output cannot be written: {error.strerror}\n')
            sys.exit(NO_OUTPUT)
