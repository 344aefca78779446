"""The machines of hosts, each a network namespace with tracked connections, and the wire between them.

A machine has one TUN interface. Packets from a raw socket of the machine traverse OUTPUT and leave by the interface.
Packets that are written to the interface traverse INPUT for any receiver, and the raw sockets of the machine receive
those that are accepted. The wire between the interfaces is this process: it carries every packet to the machine of its
receiver and enforces nothing. An IPv6 marker, which no rule matches, follows each packet. A packet that has not arrived
before the marker was dropped.

The kernel of a machine would answer by itself, with a TCP reset or an ICMP error. These packets do not have the mark of
the raw socket, and are dropped before they are tracked.
"""
import ctypes
import os
import select
import socket
from collections.abc import Iterator

from box import HOUR, MARKER, NEW_NETWORK, PATIENCE, Failed, forget, interface, run
from packets import BARE, ICMP, TCP, UDP, Event
from policy import Owners

MARK, SET_MARK = 1, 36
UNMARKED = f'*raw\n:OUTPUT ACCEPT [0:0]\n-A OUTPUT -m mark ! --mark {MARK} -j DROP\nCOMMIT\n'
OWN, FAR, MARKING = '2001:db8::2', '2001:db8::1', 253
LINKS = ('link set lo up', 'link set lan up', 'route add default dev lan', 'rule add pref 10 iif lan lookup 100',
         'route add local default dev lo table 100', f'-6 address add {OWN}/128 dev lan nodad',
         '-6 route add default dev lan')
SETTINGS = {
    'ipv4/conf/all/rp_filter': '0',
    'ipv4/conf/lan/rp_filter': '0',
    'ipv4/icmp_echo_ignore_all': '1',
    **{f'netfilter/nf_conntrack_{each}': HOUR for each in (
        'udp_timeout', 'udp_timeout_stream', 'icmp_timeout', 'generic_timeout', 'tcp_timeout_syn_sent',
        'tcp_timeout_syn_recv')},
}


class Machine:
    """A machine with chains of iptables. The process moves into the namespace of the machine in use."""
    dialect = 'iptables'

    def __init__(self, back_end: str) -> None:
        self.restore = f'iptables-{back_end}-restore'
        if library().unshare(NEW_NETWORK):
            raise Failed(f'no network namespace: {os.strerror(ctypes.get_errno())}')
        try:
            self.namespace = os.open('/proc/self/ns/net', os.O_RDONLY)
            self.wire = interface('lan')
            for words in LINKS:
                run(['ip', *words.split()])
            run([self.restore], UNMARKED)
            for name, value in SETTINGS.items():
                with open(f'/proc/sys/net/{name}', 'w', encoding='ascii') as file:
                    file.write(value)
            self.open_sockets()
        except OSError as fault:
            raise Failed(str(fault)) from fault

    def open_sockets(self) -> None:
        self.sender = socket.socket(socket.AF_INET, socket.SOCK_RAW, socket.IPPROTO_RAW)
        self.sender.setsockopt(socket.SOL_SOCKET, SET_MARK, MARK)
        self.marker = socket.socket(socket.AF_INET6, socket.SOCK_RAW, MARKING)
        self.receivers = [socket.socket(socket.AF_INET, socket.SOCK_RAW, each) for each in (ICMP, TCP, UDP, *BARE)]
        for each in self.receivers:
            each.setblocking(False)

    def enter(self) -> None:
        if library().setns(self.namespace, NEW_NETWORK):
            raise Failed(f'no way into a namespace: {os.strerror(ctypes.get_errno())}')

    def version(self) -> str:
        return run([self.restore, '--version']).strip()

    def load(self, text: str) -> None:
        self.enter()
        run([self.restore], text)
        run(['conntrack', '-F'])

    def lists(self, text: str) -> bool:
        """Whether the loaded rules are listed as this text. Chains are listed otherwise, and are not compared."""
        return True

    def forget(self, event: Event) -> None:
        self.enter()
        forget(event)

    def send(self, packet: bytes, receiver: str) -> list[bytes]:
        """Sends a packet from the machine, and returns the IPv4 packets on the wire."""
        try:
            self.sender.sendto(packet, (receiver, 0))
        except PermissionError:
            pass  # OUTPUT dropped it
        self.marker.sendto(b'', (FAR, 0))
        sent = []
        while True:
            await_one(self.wire)
            came = os.read(self.wire, 65536)
            if came[0] >> 4 == 4:
                sent.append(came)
            elif came[6] == MARKING:
                return sent

    def take(self, packet: bytes) -> list[bytes]:
        """Writes a packet to the interface, and returns the packets that the machine accepts."""
        os.write(self.wire, packet)
        os.write(self.wire, MARKER[:6] + bytes([MARKING]) + MARKER[7:])
        await_one(self.marker)
        self.marker.recv(65536)
        return [came for each in self.receivers for came in waiting(each)]


class TableMachine(Machine):
    """A machine with a table of nft."""
    dialect = 'nft'

    def __init__(self) -> None:
        super().__init__('nft')

    def version(self) -> str:
        return run(['nft', '--version']).strip()

    def load(self, text: str) -> None:
        self.enter()
        run(['nft', '-f', '-'], f'table ip topos\ndelete table ip topos\n{text}')
        run(['conntrack', '-F'])

    def lists(self, text: str) -> bool:
        self.enter()
        return run(['nft', 'list', 'table', 'ip', 'topos']) == text


def await_one(source: int | socket.socket) -> None:
    ready, _, _ = select.select([source], [], [], PATIENCE)
    if not ready:
        raise Failed('a machine does not pass on the IPv6 marker')


def waiting(receiver: socket.socket) -> Iterator[bytes]:
    while True:
        try:
            yield receiver.recv(65536)
        except BlockingIOError:
            return


def library() -> ctypes.CDLL:
    return ctypes.CDLL(None, use_errno=True)


class Machines:
    """A machine for each host of a description, reused for the next description."""

    def __init__(self, back_end: str, count: int) -> None:
        self.back_end = back_end
        self.all = [TableMachine() if back_end == 'table' else Machine(back_end) for _ in range(count)]
        self.dialect = self.all[0].dialect
        self.there: dict[int | None, Machine] = {}

    def version(self) -> str:
        return f'{self.all[0].version()}, {len(self.all)} machines'

    def load(self, texts: list[str | None]) -> None:
        """Loads the rules of each host in the order of the description; None for a host that enforces nothing."""
        self.there = {}
        for host, (machine, text) in enumerate(zip(self.all, texts)):
            if text:
                self.there[host] = machine
                machine.load(text)

    def are_listed(self, texts: list[str | None]) -> bool:
        """Whether each machine lists the text of its host."""
        return all(machine.lists(texts[host] or '') for host, machine in self.there.items() if host is not None)

    def enforce(self, ends: Owners) -> bool:
        """Whether one of the two hosts has a machine with rules."""
        return any(end in self.there for end in ends)

    def forget(self, event: Event) -> None:
        for machine in self.there.values():
            machine.forget(event)

    def pass_on(self, packet: bytes, event: Event, sender: int | None, receiver: int | None) -> list[bytes]:
        """Sends a packet between two hosts, and returns what arrives. An end without a machine enforces nothing."""
        carried = [packet]
        if sender in self.there:
            carried = self.there[sender].send(packet, event.destination)
        if receiver in self.there and receiver != sender:
            carried = [came for each in carried for came in self.there[receiver].take(each)]
        return carried
