"""Damaged tables of nft: one element or rule of a table that topos wrote is changed at random."""
import ipaddress
import re
from random import Random

INTERVAL = re.compile(r'(?<=[ {])(\d[\d.]+)(?:/(\d+)|-(\d[\d.]+))?(?= : )')
ELEMENT = re.compile(r'(\d[\d./-]+ : (?:accept|drop|goto \w+)(?:, )?)')
PORTS = re.compile(r'(tcp|udp) ([sd])port (\d+)(?:-(\d+))?')
VERDICT = re.compile(r'\b(accept|drop|goto (\w+))')
ESTABLISHED = 'ct state established '


class TableDamage:
    """Random changes of a table. nft rejects some of them, as intervals that overlap."""

    def __init__(self, chance: Random, text: str) -> None:
        self.chance = chance
        self.lines = text.splitlines()
        self.places = [k for k, line in enumerate(self.lines) if line.startswith('\t\t') and ' hook ' not in line]

    def text(self) -> tuple[str, str]:
        """Returns the table with a change, and a description of the change."""
        while True:
            place = self.chance.choice(self.places)
            change = self.chance.choice([self.dropped, self.moved, self.without_element, *[self.readdressed] * 2,
                                         *[self.reported] * 2, self.restated, *[self.retargeted] * 2])
            lines = change(self.lines[place], place)
            if lines and lines != self.lines:
                return '\n'.join([*lines, '']), f'{change.__name__}: {self.lines[place].strip()}'

    def replaced(self, place: int, *lines: str) -> list[str]:
        return [*self.lines[:place], *lines, *self.lines[place + 1:]]

    def dropped(self, _: str, place: int) -> list[str]:
        return self.replaced(place)

    def moved(self, line: str, place: int) -> list[str] | None:
        """Exchanges a rule with the next one of its chain."""
        if place + 1 not in self.places:
            return None
        return [*self.lines[:place], self.lines[place + 1], line, *self.lines[place + 2:]]

    def without_element(self, line: str, place: int) -> list[str] | None:
        found = self.some(ELEMENT, line)
        if not found:
            return None
        return self.replaced(place, (line[:found.start()] + line[found.end():]).replace(',  }', ' }'))

    def readdressed(self, line: str, place: int) -> list[str] | None:
        """Moves an end of an interval by one address, or replaces a prefix by a half of it."""
        found = self.some(INTERVAL, line)
        if not found:
            return None
        first, length, last = found.groups()
        if length and int(length) < 32 and self.chance.random() < 0.5:
            changed = str(self.chance.choice(list(ipaddress.IPv4Network(f'{first}/{length}').subnets())))
        else:
            low, high = ends(first, length, last)
            low += self.chance.choice([-1, 0, 1])
            high += self.chance.choice([-1, 0, 1])
            if not 0 <= low <= high < 2 ** 32:
                return None
            changed = f'{ipaddress.IPv4Address(low)}' + ('' if low == high else f'-{ipaddress.IPv4Address(high)}')
        return self.replaced(place, line[:found.start()] + changed + line[found.end():])

    def reported(self, line: str, place: int) -> list[str] | None:
        """Adds or removes a port, or exchanges source and destination port."""
        found = self.some(PORTS, line)
        if not found:
            return None
        protocol, end, first, last = found.groups()
        low, high = int(first), int(last or first)
        how = self.chance.choice(['turned', 'low', 'high'])
        if how == 'turned':
            end = 's' if end == 'd' else 'd'
        elif how == 'low':
            low += self.chance.choice([-1, 1])
        else:
            high += self.chance.choice([-1, 1])
        if not 0 <= low <= high <= 65535:
            return None
        changed = f'{protocol} {end}port {low}' + ('' if low == high else f'-{high}')
        return self.replaced(place, line[:found.start()] + changed + line[found.end():])

    def restated(self, line: str, place: int) -> list[str] | None:
        """Adds or removes the match on the state."""
        if 'vmap' in line:
            return None
        rule = line.strip()
        changed = rule[len(ESTABLISHED):] if rule.startswith(ESTABLISHED) else ESTABLISHED + rule
        return self.replaced(place, f'\t\t{changed}')

    def retargeted(self, line: str, place: int) -> list[str] | None:
        """Replaces a verdict by another one, with a chain to which some rule leads."""
        found = self.some(VERDICT, line)
        if not found:
            return None
        targets = re.findall(r'goto \w+', line)
        changed = self.chance.choice(['accept', 'drop', *targets])
        return self.replaced(place, line[:found.start()] + changed + line[found.end():])

    def some(self, pattern: re.Pattern[str], line: str) -> re.Match[str] | None:
        found = list(pattern.finditer(line))
        return self.chance.choice(found) if found else None


def ends(first: str, length: str | None, last: str | None) -> tuple[int, int]:
    """Returns the first and the last address of an interval."""
    if length:
        prefix = ipaddress.IPv4Network(f'{first}/{length}')
        return int(prefix[0]), int(prefix[-1])
    return int(ipaddress.IPv4Address(first)), int(ipaddress.IPv4Address(last or first))
