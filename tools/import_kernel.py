"""A box of its own with an interface for each network, for import-test.

A packet goes into the interface that its sender is behind, and is read from the others. Behind it goes a marker of
IPv6, which no rule sees: once it is out, a packet that is not out was dropped.
"""
import ctypes
import os
import select
import shutil
import struct
import subprocess
import sys

from import_random import Packet
from topos_tools.import_sets import address_text, prefix_text, prefixes
from topos_tools.import_tables import Interfaces

sys.path.append(os.path.join(os.path.dirname(os.path.dirname(os.path.realpath(__file__))), 'checks', 'real'))
import box
import packets

TOOLS = ('ip', 'conntrack', 'iptables-nft-restore', 'iptables-legacy-restore')
SYN, SYN_ACK, ACK = 0x02, 0x12, 0x10
SETTINGS = {
    'ipv4/ip_forward': '1', 'ipv4/conf/all/rp_filter': '0', 'ipv4/conf/default/rp_filter': '0',
    'ipv4/conf/all/send_redirects': '0', 'ipv4/icmp_ratelimit': '0', 'ipv6/conf/all/forwarding': '1',
    'netfilter/nf_conntrack_tcp_be_liberal': '1', 'netfilter/nf_conntrack_tcp_loose': '1'}
# flags, type of ICMP, number and number of what is acknowledged: of a first packet, its answer, a later packet
PHASES = ((SYN, 8, 1000, 0), (SYN_ACK, 0, 5000, 1001), (ACK, 8, 1001, 5001))


class Kernel:
    """The process moves into the namespace of the box."""

    def __init__(self, interfaces: str) -> None:
        if ctypes.CDLL(None, use_errno=True).unshare(box.NEW_NETWORK):
            raise OSError(ctypes.get_errno(), 'no network namespace')
        processors = sorted(os.sched_getaffinity(0))
        os.sched_setaffinity(0, {processors[os.getpid() % len(processors)]})  # a packet and its marker stay in order
        self.behind, self.number = Interfaces(interfaces).networks, 0
        self.marks = box.interface('mark')
        self.files = {name: box.interface(name) for name in self.behind}
        box.run(['ip', 'link', 'set', 'lo', 'up'])  # without it the type of each address is BROADCAST
        for name, opened in {'mark': self.marks, **self.files}.items():
            os.set_blocking(opened, False)
            box.run(['ip', 'link', 'set', name, 'up'])
        box.run(['ip', '-6', 'route', 'add', 'default', 'dev', 'mark'])
        rest = max(self.behind, key=lambda name: sum(high - low for low, high in self.behind[name]))
        for name, networks in self.behind.items():
            shown = ['default'] if name == rest else [prefix_text(*each) for each in prefixes(networks)]
            for network in shown:
                box.run(['ip', 'route', 'add', network, 'dev', name])
        self.load('nft', '*filter\n:FORWARD ACCEPT [0:0]\n-A FORWARD -m conntrack --ctstate NEW -j ACCEPT\nCOMMIT\n')
        settings = {**SETTINGS, **{f'ipv4/conf/{name}/{key}': '0' for name in self.behind
                                   for key in ('rp_filter', 'send_redirects')}}
        for name, value in settings.items():
            with open(f'/proc/sys/net/{name}', 'w', encoding='ascii') as file:
                file.write(value)

    def add_sets(self, text: str) -> bool:
        """Adds the sets that `ipset save` printed. Returns whether the tool is here."""
        if not shutil.which('ipset'):
            return False
        subprocess.run(['ipset', 'restore'], input=text, text=True, check=True)
        return True

    def load(self, back_end: str, text: str) -> str | None:
        """Loads a text and forgets all connections. Returns what is saved, or None if the back end refuses the text."""
        ended = subprocess.run([f'iptables-{back_end}-restore'], input=text, capture_output=True, text=True,
                               check=False)
        if ended.returncode:
            return None
        box.run(['conntrack', '-F'])
        saved: str = box.run([f'iptables-{back_end}-save', '-t', 'filter'])
        return saved

    def clear(self, back_end: str) -> None:
        self.load(back_end, '*filter\n:FORWARD ACCEPT [0:0]\nCOMMIT\n')

    def sends(self, packet: Packet, phase: int, name: str = '') -> bool:
        """Whether a packet that goes in by an interface, else by that of its sender, comes out."""
        self.number = self.number % 65535 + 1
        sent = raw_packet(packet, phase, self.number)
        device = self.files[name] if name else self.device(packet[0])
        os.write(device, sent)
        os.write(device, box.MARKER)
        self.wait()
        return any([packets.is_same(sent, came) for opened in self.files.values() for came in read_all(opened)])

    def device(self, address: int) -> int:
        name = next(name for name, networks in self.behind.items()
                    if any(low <= address <= high for low, high in networks))
        opened: int = self.files[name]
        return opened

    def wait(self) -> None:
        while True:
            if not select.select([self.marks], [], [], box.PATIENCE)[0]:
                raise box.Failed('no packet of IPv6, which marks the end, comes out of the box')
            if any([came[8:40] == box.MARKER[8:40] for came in read_all(self.marks)]):
                return


def read_all(opened: int) -> list[bytes]:
    found = []
    while True:
        try:
            found.append(os.read(opened, 65536))
        except BlockingIOError:
            return [each for each in found if len(each) >= 20]


def raw_packet(packet: Packet, phase: int, number: int) -> bytes:
    """Returns the bytes of a packet in a phase of its connection."""
    sender, receiver, protocol, *_ = packet
    ports = packet[3], packet[4]
    event = packets.Event(False, address_text(sender), address_text(receiver), protocol, ports)
    flags, kind, sent, got = PHASES[phase]
    if protocol == packets.TCP:
        head = struct.pack('!HHIIBBHHH', *ports, sent, got, 0x50, flags, 8192, 0, 0)
        content = packets.with_sum(event, head, 16, b'')
    elif protocol == packets.UDP:
        content = packets.with_sum(event, struct.pack('!HHHH', *ports, 12, 0), 6, b'text')
    elif protocol == packets.ICMP:
        if (sender ^ receiver) >> 1 & 1:  # a query for the time, and its answer
            kind = {8: 13, 0: 14}[kind]
        body = struct.pack('!HH', 0, 1) + bytes(12)
        content = struct.pack('!BBH', kind, 0, packets.checksum(struct.pack('!BBH', kind, 0, 0) + body)) + body
    else:
        content = bytes(12)  # a match of a protocol drops a packet that lacks its header
    whole: bytes = packets.header(event, len(content), number) + content
    return whole


def why_not() -> str | None:
    """Returns why no kernel can be tried here, if none can."""
    if os.geteuid():
        return 'only root may make a network namespace'
    missing = [tool for tool in TOOLS if not any(os.access(os.path.join(folder, tool), os.X_OK)
                                                 for folder in os.get_exec_path())]
    if missing:
        return f'{missing[0]} is missing'
    made = subprocess.run(['unshare', '--net', 'true'], stderr=subprocess.DEVNULL, check=False)
    return 'this kernel has no namespaces' if made.returncode else None
