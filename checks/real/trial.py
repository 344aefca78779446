"""What checks/real/run tries: a description with its events, the program, and a tally of differences."""
import os
import re
import subprocess
import sys
from collections import Counter

from packets import Event, is_same

BROKEN, NOT_EMITTABLE = 2, 5


def write(path: str, text: str) -> None:
    with open(path, 'w', encoding='utf-8') as file:
        file.write(text)


class Case:
    """A description with its events, in a separate folder."""

    def __init__(self, folder: str, name: str, description: str, events: list[Event], skipped: Counter[str]) -> None:
        self.name, self.folder, self.skipped = name, os.path.join(folder, name), skipped
        os.mkdir(self.folder)
        self.version = 'of version 2' if re.search(r'^topos = 2', description, re.MULTILINE) else 'of version 1'
        self.has_own = bool(re.search(r'^template = "own-', description, re.MULTILINE))
        self.description, self.rules, self.told = (os.path.join(self.folder, each) for each in
                                                   ('description', 'rules', 'events'))
        write(self.description, description)
        self.keep([event for event in events if self.is_sent(event)])

    def is_sent(self, event: Event) -> bool:
        reason = event.why_not_sent()
        if reason:
            self.skipped[f'events, {reason}'] += 1
        return not reason

    def keep(self, events: list[Event]) -> None:
        self.events = events
        write(self.told, ''.join(event.text() + '\n' for event in events))


class Topos:
    def __init__(self, program: str) -> None:
        self.program = program

    def run(self, *words: str, given: str | None = None) -> subprocess.CompletedProcess[str]:
        return subprocess.run([self.program, *words], input=given, capture_output=True, text=True, timeout=60)

    def write(self, kind: str, case: Case) -> bool:
        """Writes the rules of the case to its file, and returns whether there are any."""
        ended = self.run('rules', kind, case.description)
        if ended.returncode == BROKEN:
            ended = self.run('repair', kind, case.description)
        if ended.returncode not in (0, NOT_EMITTABLE):
            sys.exit(f'run: {case.description}: {ended.returncode}: {ended.stderr}')
        write(case.rules, ended.stdout)
        return not ended.returncode

    def answer(self, *words: str) -> str:
        """Returns the output of a command that succeeds."""
        ended = self.run(*words)
        if ended.returncode:
            sys.exit(f'run: {" ".join(words)}: {ended.returncode}: {ended.stderr}')
        return ended.stdout

    def trace(self, kind: str, case: Case, text: str | None = None) -> list[str]:
        """Returns the traced word for each event, with the rules of the case or with those of a text."""
        ended = self.run('trace', kind, case.rules if text is None else '/dev/stdin', case.told, given=text)
        if ended.returncode:
            return [ended.stderr.strip()] * len(case.events)
        return [line.split()[1] for line in ended.stdout.splitlines()]

    def audit(self, kind: str, case: Case, path: str) -> subprocess.CompletedProcess[str] | None:
        """Returns how the audit of the rules in a file ends; None for a timeout."""
        try:
            return self.run('audit', kind, case.description, path)
        except subprocess.TimeoutExpired:
            return None


DESCRIBED = ('descriptions', 'of version 2', 'with templates of their own', 'packets', 'forwarded', 'forget events')


class Tally:
    """The inputs of a tool, counted, and the differences."""

    def __init__(self, tool: str, kinds: tuple[str, ...] = DESCRIBED) -> None:
        self.tool, self.kinds = tool, kinds
        self.counts: Counter[str] = Counter()
        self.differences: list[str] = []

    def differ(self, case: Case, line: str) -> None:
        self.counts['differences'] += 1
        self.differences.append(f'{self.tool}: {case.name}: {line}')

    def compare(self, case: Case, event: Event, number: int, traced: str, arrived: bool) -> None:
        if traced not in ('forward', 'drop'):
            self.differ(case, f'event {number + 1}: {event.text()}: {traced}')
        elif (traced == 'forward') != arrived:
            done = 'forwarded' if arrived else 'dropped'
            self.differ(case, f'event {number + 1}: {event.text()}: traced {traced}, {done}')
        self.counts['packets'] += 1
        self.counts['forwarded'] += arrived

    def tried(self, case: Case) -> None:
        self.counts.update(['descriptions', case.version, *['with templates of their own'] * case.has_own])

    def line(self) -> str:
        return f'{self.tool}: ' + ', '.join(f'{self.counts[kind]} {kind}' for kind in (*self.kinds, 'differences'))


def arrival(case: Case, tally: Tally, packet: bytes, arrived: list[bytes]) -> bool:
    """Whether the packet arrived, once and unchanged."""
    for came in arrived:
        if not is_same(packet, came):
            tally.differ(case, f'a packet arrives that was never sent: {came.hex()}')
    if len(arrived) > 1:
        tally.differ(case, f'a packet arrives {len(arrived)} times: {packet.hex()}')
    return bool(arrived)
