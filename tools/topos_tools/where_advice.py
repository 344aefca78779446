"""Advice on a text that the program refuses, from where_advice.toml. The program is asked about it before it is shown.

Where only a person can decide what is meant, the text of an advice is not shown: it is an example, and if the program
accepts it, the sentence is shown.
"""
import contextlib
import difflib
import os
import re
import socket
import tomllib
from collections.abc import Callable, Iterable, Iterator
from ipaddress import IPv4Address, IPv4Network, summarize_address_range
from typing import Any

with open(os.path.join(os.path.dirname(__file__), 'where_advice.toml'), 'rb') as file:
    WORDS: dict[str, Any] = tomllib.load(file)
MANY = 16  # prefixes for a range of addresses
Accepts = Callable[[str], bool]  # whether the program accepts the place with another text


class Advice:
    """A pattern of a text, a sentence, and what replaces the text; it is an example unless `shown`.

    The advice is for a place where the program also accepts `kin`."""

    def __init__(self, pattern: str, said: str, put: str, example: str = '', kin: str = '') -> None:
        self.pattern, self.said, self.put = re.compile(pattern, re.ASCII), said, put
        self.shown, self.kin = not example, kin

    def puts(self, found: re.Match[str]) -> Iterable[str]:
        return PUTS[self.put](found) if self.put.startswith('@') else [found.expand(self.put)]

    def tried(self, text: str, accepts: Accepts) -> tuple[str, str] | None:
        """Returns the sentence and the accepted text, which is empty for an example, or None."""
        found = self.pattern.fullmatch(text)
        with contextlib.suppress(ValueError):
            for put in self.puts(found) if found else ():
                if found and put and put != text and accepts(put) and (not self.kin or accepts(found.expand(self.kin))):
                    group = found[1] if found.lastindex else ''
                    return self.said.replace('{}', group or text), put if self.shown else ''
        return None


class Remedy(Advice):
    """Advice on a part of a line, with a text to write, a part to leave out by hand, or a sentence alone."""

    def __init__(self, pattern: str, put: str, said: str = '', how: str = '') -> None:
        super().__init__(pattern, said, put, how if how == 'by hand' else '')
        self.is_alone = how == 'alone'

    def sentence(self, gone: str, put: str) -> str:
        gone, put = gone.strip(), put.strip()
        said = f'Leave out `{gone}`.' if not put else f'Write `{put}` in place of `{gone}`.'
        if '\n' in put:
            said = f'Write {", ".join(f"`{each}`" for each in put.splitlines())} in lines of their own.'
        if not self.shown:
            said = f'Without `{gone}` topos reads on.'
        return self.said if self.is_alone else f'{self.said} {said}'.strip()


class Greatest(Advice):
    """Finds the greatest number that the program accepts in the place of one of the text."""

    def tried(self, text: str, accepts: Accepts) -> tuple[str, str] | None:
        for found in self.pattern.finditer(text):
            def is_read(number: int, found: re.Match[str] = found) -> bool:
                return accepts(f'{text[:found.start()]}{number}{text[found.end():]}')
            some = 1, 0, int(found[0]) // 2
            low = next((number for number in some if number < int(found[0]) and is_read(number)), None)
            if low is not None:
                most = first_where(lambda number: not is_read(number), low + 1, int(found[0])) - 1
                return self.said.replace('{}', found[0]).replace('[]', str(most)), ''
        return None


def advice(*names: str) -> list[Advice]:
    """Returns the advice on words of these names."""
    return [each for name in names for row in WORDS['values'][name] for each in (
        advice(row[0][1:]) if len(row) == 1 else [Greatest(*row) if row[2] == '@greatest' else Advice(*row)])]


def explained(text: str, rows: Iterable[Advice], accepts: Accepts) -> tuple[str, str] | None:
    """Returns the sentence and the text of the first advice that the program bears out."""
    return next((told for told in (each.tried(text, accepts) for each in rows) if told), None)


# Texts that replace a match.

def prefixes(found: re.Match[str]) -> Iterator[str]:
    networks = summarize_address_range(IPv4Address(found[1]), IPv4Address(found[2]))
    told = [str(net) for net, _ in zip(networks, range(MANY + 1))]
    if len(told) <= MANY:
        yield ' '.join(told)


def prefix(found: re.Match[str]) -> Iterator[str]:
    """The address with the length of its mask, if the mask has all its bits at the front."""
    address, mask = without_zeros(found[1]), without_zeros(found[2])
    network = IPv4Network(f'{address}/{mask}', strict=False)
    if str(network.netmask) == mask:
        yield f'{address}/{network.prefixlen}'


def without_zeros(text: str) -> str:
    return re.sub(r'(?<![\w])0+(?=\d)', '', text)


def ports_of(found: re.Match[str]) -> Iterator[str]:
    """The ports that this machine knows by a name, with the protocol if one precedes the name or is needed."""
    for protocol in [found[1][:-1]] if found[1] else ['tcp', 'udp']:
        with contextlib.suppress(OSError):
            port = socket.getservbyname(found[2].lower(), protocol)
            yield from (f'{protocol}/{port}', str(port))


def protocol_of(found: re.Match[str]) -> Iterator[str]:
    with contextlib.suppress(OSError):
        yield str(socket.getprotobyname(found[0].lower()))


def each_port(found: re.Match[str]) -> Iterator[str]:
    """Rules for the ports that one rule lists."""
    for name in ('tcp', 'udp'):
        yield '\n'.join(f'-m {name} --{found[1]}port {port}' for port in found[2].split(','))


PUTS: dict[str, Callable[[re.Match[str]], Iterable[str]]] = {
    '@prefixes': prefixes, '@prefix': prefix, '@ports_of': ports_of, '@protocol_of': protocol_of,
    '@each_port': each_port, '@zeros': lambda found: [without_zeros(found[0])],
    '@lower': lambda found: [found[0].lower()], '@upper': lambda found: [found[0].upper()],
    '@small': lambda found: [found[0].lower().replace(' ', '')],
    '@each_service': lambda found: [
        ' '.join(f'{found[1]}/{without_zeros(port)}' for port in found[2].split(',') if port)]}


def near(word: str, words: Iterable[str]) -> str | None:
    """Returns the word that is like another one, but for the order of letters or a few of them.

    A number is like no word. A word that differs in digits only is another host, and not meant."""
    known = [other for other in dict.fromkeys(words)
             if other != word and not word.isdigit() and not differ_in_digits(word, other)]
    swapped = [other for other in known if sorted(other.lower()) == sorted(word.lower())]
    if swapped:
        return swapped[0]
    found = difflib.get_close_matches(word.lower(), [other.lower() for other in known], 1,
                                      0.6 if len(word) < 5 else 0.75)
    return next((other for other in known if other.lower() == found[0]), None) if found else None


def differ_in_digits(word: str, other: str) -> bool:
    """Whether two words have the same letters and signs, but other digits."""
    without = [re.sub('[0-9]', '', each.lower()) for each in (word, other)]
    digits = [re.sub('[^0-9]', '', each) for each in (word, other)]
    return without[0] == without[1] and digits[0] != digits[1]


def first_where(holds: Callable[[int], bool], low: int, high: int) -> int:
    """Returns the first number from `low` for which something holds that then holds for all, or `high`."""
    while low < high:
        middle = (low + high) // 2
        low, high = (low, middle) if holds(middle) else (middle + 1, high)
    return low
