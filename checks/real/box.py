"""A gateway: a network namespace that forwards from one interface to another one, with tracked connections. Its rules
are chains of iptables, or a table of nft.

Both are TUN interfaces: packets of any sender can be written to the first, and the packets that are read from the
second were forwarded. After each packet an IPv6 marker follows, which no rule matches. A packet that has not arrived
before the marker was dropped, so no timeout is needed.
"""
import ctypes
import fcntl
import os
import select
import socket
import struct
import subprocess
from collections.abc import Sequence

from packets import Event

NEW_NETWORK, SET_NAME, TUN, WITHOUT_HEAD = 0x40000000, 0x400454ca, 0x0001, 0x1000
MARKER = bytes.fromhex('600000000000' '3b40' + '20010db8' + '00' * 11 + '01' + '20010db8' + '00' * 11 + '02')
NETLINK_NETFILTER, DELETE_CONNECTIONS, REQUEST_AND_ACK = 12, 0x102, 5
PATIENCE = 5.0
CLOSED = '*filter\n:FORWARD DROP [0:0]\n-A FORWARD -m conntrack --ctstate ESTABLISHED -j DROP\nCOMMIT\n'
CLOSED_TABLE = ('table ip topos {\n\tchain forward {\n\t\ttype filter hook forward priority filter; policy drop;\n'
                '\t\tct state established drop\n\t}\n}\n')
HOUR = '3600'
SETTINGS = {
    'ipv4/ip_forward': '1',
    'ipv4/conf/all/rp_filter': '0',
    'ipv4/conf/in/rp_filter': '0',
    'ipv6/conf/all/forwarding': '1',
    'netfilter/nf_conntrack_udp_timeout': HOUR,
    'netfilter/nf_conntrack_udp_timeout_stream': HOUR,
    'netfilter/nf_conntrack_icmp_timeout': HOUR,
    'netfilter/nf_conntrack_generic_timeout': HOUR,
    'netfilter/nf_conntrack_tcp_timeout_syn_sent': HOUR,
    'netfilter/nf_conntrack_tcp_timeout_syn_recv': HOUR,
}


class Failed(Exception):
    """A tool failed, or is not installed."""


def run(words: list[str], given: str | None = None, also: Sequence[int] = ()) -> str:
    ended = subprocess.run(words, input=given, capture_output=True, text=True, timeout=60)
    if ended.returncode not in (0, *also):
        raise Failed(f"{' '.join(words)}: {ended.stderr.strip()}")
    return ended.stdout


class Box:
    """A gateway with chains of iptables. The process moves into the namespace of the newest gateway."""
    dialect = 'iptables'

    def __init__(self, back_end: str) -> None:
        self.restore, self.save = f'iptables-{back_end}-restore', f'iptables-{back_end}-save'
        if ctypes.CDLL(None, use_errno=True).unshare(NEW_NETWORK):
            raise Failed(f'no network namespace: {os.strerror(ctypes.get_errno())}')
        try:
            self.way_in, self.way_out = interface('in'), interface('out')
            for words in ('link set in up', 'link set out up', 'route add default dev out',
                          '-6 route add default dev out'):
                run(['ip', *words.split()])
            self.close()
            for name, value in SETTINGS.items():
                with open(f'/proc/sys/net/{name}', 'w', encoding='ascii') as file:
                    file.write(value)
            run(['conntrack', '-F'])
        except OSError as fault:
            raise Failed(str(fault)) from fault
        if self.send(b''):
            raise Failed('the gateway sends packets by itself')

    def close(self) -> None:
        """Loads rules that forward nothing, and track connections."""
        run([self.restore], CLOSED)

    def version(self) -> str:
        return run([self.restore, '--version']).strip()

    def load(self, text: str) -> None:
        run([self.restore], text)
        run(['conntrack', '-F'])

    def saved(self) -> str:
        return run([self.save, '-t', 'filter'])

    def send(self, packet: bytes) -> list[bytes]:
        """Sends a packet, and returns the IPv4 packets that are forwarded."""
        if packet:
            os.write(self.way_in, packet)
        os.write(self.way_in, MARKER)
        arrived: list[bytes] = []
        while True:
            ready, _, _ = select.select([self.way_out], [], [], PATIENCE)
            if not ready:
                raise Failed('the gateway does not forward the IPv6 marker')
            came = os.read(self.way_out, 65536)
            if came[8:40] == MARKER[8:40]:
                return arrived
            if came[0] >> 4 == 4:
                arrived.append(came)


class TableBox(Box):
    """A gateway with a table of nft, and no other rules."""
    dialect = 'nft'

    def __init__(self) -> None:
        super().__init__('nft')

    def close(self) -> None:
        run(['nft', '-f', '-'], CLOSED_TABLE)

    def version(self) -> str:
        return run(['nft', '--version']).strip()

    def load(self, text: str) -> None:
        run(['nft', '-f', '-'], f'delete table ip topos\n{text}')
        run(['conntrack', '-F'])

    def saved(self) -> str:
        return run(['nft', 'list', 'table', 'ip', 'topos'])


def forget(event: Event) -> None:
    """Removes the connection of a packet from the kernel's table, in both directions."""
    for one in (event, event.answer()):
        words = ['conntrack', '-D', '-p', str(one.protocol), '-s', one.source, '-d', one.destination]
        if one.protocol == 1:
            words += ['--icmp-type', '8', '--icmp-code', '0', '--icmp-id', str(one.ports[0])]
        elif one.protocol in (6, 17):
            words += ['--sport', str(one.ports[0]), '--dport', str(one.ports[1])]
        run(words, also=[1])  # 1: there was none


def empty_connections() -> None:
    """Empties the connection table of the network namespace of this process, as `conntrack -F`, without a process."""
    with socket.socket(socket.AF_NETLINK, socket.SOCK_RAW, NETLINK_NETFILTER) as netlink:
        netlink.send(struct.pack('=IHHIIBBH', 20, DELETE_CONNECTIONS, REQUEST_AND_ACK, 1, 0, 0, 0, 0))
        error, = struct.unpack_from('=i', netlink.recv(4096), 16)
    if error:
        raise Failed(f'the connection table is not emptied: {os.strerror(-error)}')


def interface(name: str) -> int:
    """Creates a TUN interface of this name, and returns the file for its packets."""
    opened = os.open('/dev/net/tun', os.O_RDWR)
    fcntl.ioctl(opened, SET_NAME, struct.pack('16sH22x', name.encode(), TUN | WITHOUT_HEAD))
    return opened
