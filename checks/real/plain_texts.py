"""Random rules texts: all options that topos reads, in every notation, and what iptables-restore may read otherwise."""
from __future__ import annotations

import random

from plain_reading import LINE_LIMIT

FORWARD = b'FORWARD'  # as long as the name that stands for it among the rules of other texts
BARE = bytes(set(range(1, 256)) - set(b' \t\n"'))
STATES = (b'NEW', b'ESTABLISHED', b'RELATED', b'INVALID', b'UNTRACKED')
PORTS = (b'22', b'0', b'65535', b'80:443', b'5:5', b':1023', b'1024:', b'0:65535', b'0:', b':65535', b'0:0', b'65535:')
PROTOCOLS = (b'icmp', b'tcp', b'udp', b'esp', b'ah', b'sctp', b'6', b'17', b'47', b'1', b'255')
REJECTS = (b'icmp-port-unreachable', b'icmp-net-unreachable', b'icmp-admin-prohibited')
STRANGE = (b'"', b'"', b'\\', b'\\"', b'\0', b'#', b' # ', b':', b'!', b' ! --dport 0: ', b'-A', b'\t', b'\r', b'""',
           b' -j ACCEPT ', b'\\\\', b'\x80')


class Texts:
    """A source of texts. Chains of a text have its number in their names, so that many texts fit into one table."""

    def __init__(self, seed: int) -> None:
        self.random = random.Random(seed)
        self.number = 0

    def chance(self, percent: float) -> bool:
        return self.random.random() * 100 < percent

    def blank(self) -> bytes:
        return self.random.choice((b'  ', b'\t', b' \t ', b'   ')) if self.chance(5) else b' '

    def joined(self, words: list[bytes]) -> bytes:
        line = words[0]
        for word in words[1:]:
            line += self.blank() + word
        return line + (self.blank() if self.chance(3) else b'')

    def pieces(self, alphabet: bytes, longest: int) -> bytes:
        text = bytes(self.random.choices(alphabet, k=self.random.randint(1, longest)))
        while self.chance(25):
            place = self.random.randint(0, len(text))
            text = text[:place] + self.random.choice(STRANGE[2:]) + text[place:]
        return text

    def string(self, longest: int) -> bytes:
        """A string as a token or in quotes, which now and then does not end where it should."""
        alphabet = BARE if self.chance(10) else b'abcxyz019-_.,:#!\\'
        if self.chance(50):
            return self.pieces(alphabet, longest).replace(b' ', b'_').replace(b'\t', b'_')
        inside = self.pieces(alphabet + b'  \t', longest)
        escaped = inside.replace(b'\\', b'\\\\').replace(b'"', b'\\"')
        return b'"' + (escaped if self.chance(70) else inside) + b'"'

    def address(self, option: bytes) -> list[bytes]:
        """An address or a prefix, negated or not. The nft back end refuses a negated one of length 0."""
        parts = b'.'.join(b'%d' % self.random.choice((0, 1, 10, 192, 255)) for _ in range(4))
        length = b'/%d' % self.random.choice((1, 8, 9, 24, 31, 32)) if self.chance(80) else b''
        negated = self.negated()
        return [*negated, option, parts + (length if negated or self.chance(90) else b'/0')]

    def negated(self, percent: float = 25) -> list[bytes]:
        return [b'!'] if self.chance(percent) else []

    def services(self) -> list[bytes]:
        protocol = self.random.choice(PROTOCOLS)
        module = {b'tcp': b'tcp', b'6': b'tcp', b'udp': b'udp', b'17': b'udp'}.get(protocol)
        words = self.negated(10) + [b'-p', protocol]
        if words[0] == b'!' or not module:
            return words
        words += [b'-m', module] * self.random.choice((1, 1, 1, 2))
        for option in (b'--sport', b'--dport'):
            if self.chance(50):
                words += [*self.negated(), option, self.random.choice(PORTS)]
        return words

    def states(self) -> list[bytes]:
        states = [self.random.choice(STATES) for _ in range(self.random.randint(1, 4))]
        if self.chance(40):
            return [b'-m', b'state', *self.negated(), b'--state', b','.join(states)]
        states += [b'SNAT', b'DNAT'][:self.random.randint(0, 2)]
        return [b'-m', b'conntrack', *self.negated(), b'--ctstate', b','.join(states)]

    def comment(self) -> list[bytes]:
        return [b'-m', b'comment', b'--comment', self.string(40)]

    def target(self, chains: list[bytes]) -> list[bytes]:
        kind = self.random.choice((b'ACCEPT', b'DROP', b'REJECT', b'RETURN', b'LOG', b'', b'jump'))
        if kind == b'jump':
            return [b'-j', self.random.choice(chains)] if chains else []
        words = [b'-j', kind] if kind else []
        if kind == b'REJECT' and self.chance(60):
            words += [b'--reject-with', self.random.choice(REJECTS)]
        if kind == b'LOG' and self.chance(60):
            words += [b'--log-prefix', self.string(20)]
        if kind == b'LOG' and self.chance(40):
            words += [b'--log-level', self.random.choice((b'4', b'info', b'"7"'))]
        return words

    def rule(self, chain: bytes, chains: list[bytes]) -> bytes:
        parts: list[list[bytes]] = []
        for option in (b'-s', b'-d'):
            parts += [self.address(option)] if self.chance(40) else []
        parts += [self.services()] if self.chance(60) else []
        parts += [self.states()] if self.chance(30) else []
        while self.chance(35):
            parts.append(self.comment())
        self.random.shuffle(parts)
        count = [b'[%d:%d]' % (self.random.randrange(10**6), self.random.randrange(10**9))] if self.chance(10) else []
        words = [*count, b'-A', chain, *(word for part in parts for word in part), *self.target(chains)]
        line = self.joined(words)
        return self.longer(line) if b' ' in line and self.chance(4) else line

    def longer(self, line: bytes) -> bytes:
        """The line with blanks or comments before some token, so that it ends or is cut near the limit."""
        place = self.random.choice([place for place, byte in enumerate(line) if byte == 32])
        cut = self.random.randint(place, len(line)) if self.chance(50) else len(line)
        missing = LINE_LIMIT - cut + self.random.choice((-1, 0, 0, 1, 2))
        if self.chance(50):
            return line[:place] + b' ' * missing + line[place:]
        filler = b' -m comment --comment "' + bytes(self.random.choices(b'ab c', k=200)) + b'"'
        whole = filler * (missing // len(filler))
        start = line.find(b'-A ' + FORWARD) + 3 + len(FORWARD)
        return line[:start] + whole + b' ' * (missing - len(whole)) + line[start:]

    def note(self) -> bytes:
        text = b'#' + self.pieces(BARE + b' "', 30).replace(b'\0', b'')
        if self.chance(10):
            text += b'x' * (LINE_LIMIT - len(text) + self.random.randint(-1, 2))
            text += self.random.choice((b'', b'-A ' + FORWARD))
        return text

    def strange(self, line: bytes) -> bytes:
        place = self.random.randint(0, len(line))
        return line[:place] + self.random.choice(STRANGE) + line[place:]

    def text(self) -> bytes:
        """A text that topos may read, with chains of its own."""
        self.number += 1
        chains = [b'c%07d%s' % (self.number, end) for end in (b'a', b'b"c"', b'd')[:self.random.randint(0, 3)]]
        if not self.chance(5):
            chains = [chain for chain in chains if b'"' not in chain]
        head = [b':' + FORWARD + b' ' + self.random.choice((b'DROP', b'ACCEPT [3:180]'))] if self.chance(98) else []
        lines = [b'*filter', b':INPUT ACCEPT [0:0]', *head, *(b':' + chain + b' - [0:0]' for chain in chains)]
        for _ in range(self.random.randint(1, 5)):
            chain = self.random.choice([FORWARD, *chains])
            later = chains[chains.index(chain) + 1:] if chain in chains else chains
            lines.append(self.rule(chain, later))
            lines += [self.note()] if self.chance(5) else []
        if self.chance(20):
            place = self.random.randrange(1 + len(head), len(lines))
            lines[place] = self.strange(lines[place])
        return b'\n'.join([*lines, b'COMMIT', b''])
