"""Limits what a tool uses, and prints on a terminal what it does if it is slow.

The time is that of the processors, of the tool and of the programs that it asks: a busy machine ends no tool early.
"""
from __future__ import annotations

import os
import resource
import signal
import sys

TYPE_CHECKING = False  # as typing.TYPE_CHECKING, without the import
if TYPE_CHECKING:
    from typing import NoReturn

MEMORY = 2 << 30  # bytes that a tool may use
SECONDS = 600  # of processor time, without --limit
MOST_SECONDS = 1_000_000
GRACE = 60  # seconds of processor time to end in, behind the limit
OPTION = '--limit'
OPTION_TEXT = f'''       {OPTION} SECONDS   the processor time that this may take ({SECONDS})
'''
FIRST, NEXT = 1, 10  # seconds to the first and between the next lines of progress


def limit_memory() -> None:
    _, hard = resource.getrlimit(resource.RLIMIT_AS)
    most = MEMORY if hard == resource.RLIM_INFINITY else min(MEMORY, hard)
    resource.setrlimit(resource.RLIMIT_AS, (most, hard))


def seconds_of(word: str) -> int | None:
    """Returns the value of --limit, or None if it is no number of seconds."""
    is_number = word.isascii() and word.isdigit() and len(word) <= len(str(MOST_SECONDS))
    return int(word) if is_number and 0 < int(word) <= MOST_SECONDS else None


class Budget:
    """The processor time of a tool and of its programs. `error` is raised with a line if none is left."""

    def __init__(self, error: type[Exception]) -> None:
        self.error, self.seconds, self.current, self.end = error, SECONDS, SECONDS, float('inf')

    def start(self, seconds: int | None = None) -> None:
        """Allows some seconds from now on, else those of the tool."""
        self.current = seconds or self.seconds
        self.end = spent(resource.RUSAGE_SELF) + spent(resource.RUSAGE_CHILDREN) + self.current
        signal.signal(signal.SIGXCPU, self.stop)
        limit_own(self.current)

    def stop(self, *_: object) -> NoReturn:
        """Ends the work. The tool has some time to print what it knows."""
        signal.signal(signal.SIGXCPU, signal.SIG_DFL)
        limit_own(GRACE)
        raise self.error(f'this took longer than {self.current} seconds of processor time ({OPTION})')

    def share(self, process: int) -> None:
        """Limits a program that began to the time that is left."""
        _, hard = resource.getrlimit(resource.RLIMIT_CPU)
        try:
            resource.prlimit(process, resource.RLIMIT_CPU, (bounded(int(self.left()) + 1, hard), hard))
        except OSError:  # it has ended
            pass

    def check(self, status: int = 0) -> None:
        """Stops if no time is left behind a program that ended with a status."""
        if status == -signal.SIGXCPU or self.left() < 0:
            self.stop()

    def left(self) -> float:
        return max(-1.0, min(self.end - spent(resource.RUSAGE_SELF) - spent(resource.RUSAGE_CHILDREN), MOST_SECONDS))


def spent(whose: int) -> float:
    used = resource.getrusage(whose)
    return used.ru_utime + used.ru_stime


def limit_own(seconds: int) -> None:
    """Lets a signal come after some seconds of this process."""
    _, hard = resource.getrlimit(resource.RLIMIT_CPU)
    resource.setrlimit(resource.RLIMIT_CPU, (bounded(int(spent(resource.RUSAGE_SELF)) + seconds, hard), hard))


def bounded(seconds: int, hard: int) -> int:
    return seconds if hard == resource.RLIM_INFINITY else min(seconds, hard)


class Progress:
    """What a tool does: a line on a terminal a second after the start, and then from time to time."""

    def __init__(self) -> None:
        self.name, self.doing = '', 'asking topos and topos-query'

    def start(self, name: str) -> None:
        self.name = name
        if sys.stderr.isatty():
            signal.signal(signal.SIGALRM, self.tell)
            signal.setitimer(signal.ITIMER_REAL, FIRST, NEXT)

    def tell(self, *_: object) -> None:
        os.write(2, f'{self.name}: {self.doing} ..\n'.encode(errors='replace'))  # unbuffered: another line may be begun
