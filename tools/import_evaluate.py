"""Evaluates the texts that topos-import writes, for import-test without a program."""
from collections.abc import Callable, Iterator

from topos_tools.import_sets import Numbers
from topos_tools.import_words import PROTOCOLS, address, ports

Packet = tuple[int, int, int, int, int, str]  # sender, receiver, protocol, ports, state
Condition = Callable[[Packet], bool]
PLACES = {'-s': 0, '-d': 1, '-p': 2, '--sport': 3, '--dport': 4}


def numbers_of(option: str, word: str) -> Numbers:
    if option == '-p':
        number = PROTOCOLS.get(word) or int(word)
        return ((number, number),)
    return (address(word) or ()) if option in ('-s', '-d') else ports(word, 'tcp')


def conditions(text: str) -> Iterator[Condition]:
    """Yields the conditions of a line."""
    words = text.split()
    while words:
        is_negated = words[0] == '!'
        option, word = words[is_negated], words[is_negated + 1]
        words = words[is_negated + 2:]
        if option == '--ctstate':
            yield is_state(word)
        elif option != '-m':
            yield is_within(PLACES[option], numbers_of(option, word), not is_negated)


def is_state(name: str) -> Condition:
    return lambda packet: packet[5] == name


def is_within(place: int, numbers: Numbers, is_wanted: bool) -> Condition:
    def holds(packet: Packet) -> bool:
        number = packet[:5][place]
        return any(low <= number <= high for low, high in numbers) is is_wanted
    return holds


class Evaluator:
    """The verdicts of a text of rules."""

    def __init__(self, text: str) -> None:
        self.policy, self.chains = 'DROP', dict[str, list[tuple[list[Condition], str]]]()
        for line in text.splitlines():
            if line.startswith(':FORWARD '):
                self.policy = line.split()[1]
            elif line.startswith('-A '):
                before, _, target = line[3:].rpartition(' -j ')
                chain, _, condition = before.partition(' ')
                condition = condition.partition('-m comment --comment')[0]
                self.chains.setdefault(chain, []).append((list(conditions(condition)), target))

    def walk(self, chain: str, packet: Packet) -> str:
        for wanted, target in self.chains.get(chain, ()):
            if all(condition(packet) for condition in wanted):
                found = target if target in ('ACCEPT', 'DROP', 'RETURN') else self.walk(target, packet)
                if found != 'RETURN' or target == 'RETURN':
                    return found
        return 'RETURN'

    def forwards(self, events: str) -> list[bool]:
        """Returns whether each packet is forwarded. One behind an answer that was forwarded is established."""
        passed: set[tuple[int, ...]] = set()
        found = []
        for line in events.splitlines():
            _, sender, receiver, name, *given = line.split()
            numbers = [(address(word) or ((0, 0),))[0][0] for word in (sender, receiver)]
            one, other = map(int, given)
            protocol = PROTOCOLS.get(name) or int(name)
            state = 'ESTABLISHED' if (numbers[1], numbers[0], protocol, other, one) in passed else 'NEW'
            verdict = self.walk('FORWARD', (numbers[0], numbers[1], protocol, one, other, state))
            is_forwarded = (self.policy if verdict == 'RETURN' else verdict) == 'ACCEPT'
            if is_forwarded:
                passed.add((*numbers, protocol, one, other))
            found.append(is_forwarded)
        return found
