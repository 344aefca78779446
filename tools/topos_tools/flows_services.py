"""Services as sets of numbers: 65,536 times the protocol, plus the destination port."""
import functools
from collections.abc import Sequence

from .import_sets import MOST_PORT, MOST_PROTOCOL, Numbers, complement, difference, intersection, is_subset, joined

PORTS = MOST_PORT + 1
MOST_SERVICE = (MOST_PROTOCOL + 1) * PORTS - 1
ALL_SERVICES: Numbers = ((0, MOST_SERVICE),)
TCP, UDP = 6, 17
NAMES = {TCP: 'tcp', UDP: 'udp', 1: 'icmp'}
OTHER_NAMES = {47: 'gre', 50: 'esp', 51: 'ah', 132: 'sctp'}
MOST_OF_FLOW = 16  # services of a flow in a description


def number_of(service: Sequence[int]) -> int:
    """Returns the number of a service of an answer: protocol and port."""
    return service[0] * PORTS + service[1]


def of_protocol(protocol: int) -> Numbers:
    return ((protocol * PORTS, protocol * PORTS + MOST_PORT),)


def of_word(word: str) -> Numbers:
    """Returns the numbers of a service as a description has it."""
    name, _, ports = word.partition('/')
    protocol = next(number for number, each in NAMES.items() if each == name)
    low, _, high = ports.partition('-')
    first, last = (int(low), int(high or low)) if ports else (0, MOST_PORT)
    return ((protocol * PORTS + first, protocol * PORTS + last),)


def of_list(words: str) -> Numbers:
    """Returns the numbers of services with commas between them. Fails with ValueError."""
    given = words.split(',') if words else []
    if not {word.partition('/')[0] for word in given} <= set(NAMES.values()):
        raise ValueError(words)
    return joined(each for word in given for each in of_word(word))


def of_words(words: list[str]) -> Numbers:
    """Returns the numbers of the services of a flow. No word means all services."""
    return joined(each for word in words for each in of_word(word)) or ALL_SERVICES


def covers(words: list[str], protocol: int) -> bool:
    """Whether the services of a flow have all ports of a protocol."""
    return is_subset(of_protocol(protocol), of_words(words))


def words_of_services(services: Numbers) -> list[str]:
    """Returns the services as words of a description. All services need no word."""
    words = []
    for protocol, name in NAMES.items() if services != ALL_SERVICES else ():
        for low, high in intersection(services, of_protocol(protocol)):
            first, last = low % PORTS, high % PORTS
            ports = f'{first}' if first == last else f'{first}-{last}'
            words.append(name if (first, last) == (0, MOST_PORT) else f'{name}/{ports}')
    return words


def other_words(services: Numbers) -> list[str]:
    """Returns words for the services that a description cannot have."""
    if services == ALL_SERVICES:
        return []
    named: Numbers = tuple(each for protocol in sorted(NAMES) for each in of_protocol(protocol))
    words = []
    for low, high in difference(services, named):
        first, last = low // PORTS, high // PORTS
        name = OTHER_NAMES.get(first, str(first)) if first == last else f'{first}-{last}'
        words.append(f'protocol {name}' if (low % PORTS, high % PORTS) == (0, MOST_PORT) else
                     f'protocol {name} of port {low % PORTS} to {high % PORTS}')
    return words


@functools.cache
def brief_services(services: Numbers) -> str:
    """Returns the services for a reader, or those that are missing if these are fewer."""
    missing = complement(services, MOST_SERVICE)
    words, others = (words_of_services(each) + other_words(each) for each in (services, missing))
    if missing and len(others) < len(words):
        return f'everything but {" ".join(others)}'
    return told_services(services)


def size(numbers: Numbers) -> int:
    """Returns how many services these are."""
    return sum(high - low + 1 for low, high in numbers)


def told_services(services: Numbers) -> str:
    """Returns the services for a reader."""
    return 'everything' if services == ALL_SERVICES else ' '.join(words_of_services(services) + other_words(services))
