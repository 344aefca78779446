"""Damaged iptables rule sets: one rule of a rule set that topos wrote is changed at random."""
import ipaddress
import re
from ipaddress import IPv4Network
from random import Random

PREFIX, PORTS, STATE = re.compile(r'( !)? -([sd]) (\S+)'), re.compile(r'( !)? --([sd])port (\S+)'), re.compile(
    r' -m conntrack (! )?--ctstate \w+')
OTHERWISE = {'ACCEPT': 'DROP', 'DROP': 'ACCEPT', 'REJECT': 'ACCEPT'}


class Damage:
    """Random changes of a rule set. A kernel accepts the rule set after each change."""

    def __init__(self, chance: Random, text: str) -> None:
        self.chance = chance
        lines = text.splitlines()
        self.head = [line for line in lines if not line.startswith('-A')][:-1]
        self.rules = [line for line in lines if line.startswith('-A')]

    def text(self) -> tuple[str, str]:
        """Returns the rule set with a change, and a description of the change."""
        while True:
            place = self.chance.randrange(len(self.rules))
            change = self.chance.choice([self.dropped, self.doubled, self.moved, self.readdressed, self.readdressed,
                                         self.reported, self.reported, self.restated, self.retargeted])
            rules = change(self.rules[place], place)
            if rules and rules != self.rules:
                return '\n'.join([*self.head, *rules, 'COMMIT', '']), f'{change.__name__}: {self.rules[place]}'

    def replaced(self, place: int, *rules: str) -> list[str]:
        return [*self.rules[:place], *rules, *self.rules[place + 1:]]

    def dropped(self, _: str, place: int) -> list[str]:
        return self.replaced(place)

    def doubled(self, rule: str, _: int) -> list[str]:
        return self.inserted(self.rules, rule)

    def moved(self, rule: str, place: int) -> list[str]:
        return self.inserted(self.replaced(place), rule)

    def inserted(self, rules: list[str], rule: str) -> list[str]:
        """Inserts the rule at a random position. Only the position in its chain has an effect."""
        place = self.chance.randint(0, len(rules))
        return [*rules[:place], rule, *rules[place:]]

    def readdressed(self, rule: str, place: int) -> list[str] | None:
        """Replaces a prefix by another one, or negates it."""
        found = self.some(PREFIX, rule)
        if not found:
            return None
        negated, end, prefix = found.groups()
        if self.chance.random() < 0.2:
            changed = f'{"" if negated else " !"} -{end} {prefix}'
        else:
            changed = f'{negated or ""} -{end} {self.near(ipaddress.IPv4Network(prefix))}'
        return self.replaced(place, rule[:found.start()] + changed + rule[found.end():])

    def near(self, prefix: IPv4Network) -> IPv4Network:
        """Returns a half of the prefix, the prefix of which it is a half, the other half, or one of another rule."""
        choices = [ipaddress.IPv4Network(found.group(3)) for line in self.rules for found in PREFIX.finditer(line)]
        if prefix.prefixlen < 32:
            choices += list(prefix.subnets()) * len(choices)
        if prefix.prefixlen > 1:
            whole = prefix.supernet()
            choices += [whole, *(each for each in whole.subnets() if each != prefix)] * len(choices)
        return self.chance.choice(choices)

    def reported(self, rule: str, place: int) -> list[str] | None:
        """Adds or removes a port, negates the range, or exchanges source and destination port."""
        found = self.some(PORTS, rule)
        if not found:
            return None
        negated, end, ports = found.groups()
        low, _, high = ports.partition(':')
        low, high = int(low), int(high or low)
        how = self.chance.choice(['negated', 'turned', 'low', 'high', 'low', 'high'])
        if how == 'negated':
            negated = None if negated else ' !'
        elif how == 'turned':
            end = 's' if end == 'd' else 'd'
        elif how == 'low':
            low += self.chance.choice([-1, 1])
        else:
            high += self.chance.choice([-1, 1])
        if not 0 <= low <= high <= 65535:
            return None
        changed = f'{negated or ""} --{end}port {low}' + ('' if low == high else f':{high}')
        return self.replaced(place, rule[:found.start()] + changed + rule[found.end():])

    def restated(self, rule: str, place: int) -> list[str]:
        """Replaces, removes or adds a match on the state."""
        state = self.chance.choice(['', ' -m conntrack --ctstate NEW', ' -m conntrack --ctstate ESTABLISHED',
                                    ' -m conntrack ! --ctstate ESTABLISHED', ' -m conntrack ! --ctstate NEW'])
        before, target = STATE.sub('', rule).split(' -j ')
        return self.replaced(place, f'{before}{state} -j {target}')

    def retargeted(self, rule: str, place: int) -> list[str] | None:
        before, target = rule.split(' -j ')
        return self.replaced(place, f'{before} -j {OTHERWISE[target]}') if target in OTHERWISE else None

    def some(self, pattern: re.Pattern[str], rule: str) -> re.Match[str] | None:
        found = list(pattern.finditer(rule))
        return self.chance.choice(found) if found else None
