"""Refusals of flows for a switch, and of events."""
import re
from collections.abc import Iterable

from .where_lines import LineText, RefusedLine, Word


class FlowsText(LineText):
    what, section, question = 'rules', 'flows', ['trace', 'openflow', '/dev/stdin', '/dev/null']

    def parts(self, line: str) -> tuple[list[Word], str]:
        """Returns the fields of a line, and its action if it has one."""
        fields = [(found[0], found.start(), found.end()) for found in re.finditer(r'[^, \t]+', line)]
        for place, (word, start, _) in enumerate(fields):
            if word.startswith('actions='):
                return fields[:place], line[start:]
        return fields, ''


class EventsText(LineText):
    what, section, question, before = 'events', 'events', ['trace', 'iptables', '/dev/stdin'], (b'*filter\nCOMMIT\n',)
    is_free = False
    sample = 'packet 10.0.0.1 10.0.0.2 tcp 0 0'.split()

    def closings(self, line: RefusedLine, count: int) -> Iterable[str]:
        yield ' '.join(self.sample[count:])
