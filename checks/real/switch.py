"""A bridge of a separate Open vSwitch in a folder, without ports of the machine."""
from __future__ import annotations

import json
import os
import socket
import subprocess
import time

from box import Failed

SCHEMA = '/usr/share/openvswitch/vswitch.ovsschema'
ASKS = '0001080006040001' '020000000001' '0a000001' '000000000000' '0a000002'
MARKER = bytes.fromhex('ffffffffffff' '020000000001' '0806' + ASKS)
ETHERNET = bytes.fromhex('020000000002' '020000000001' '0800')
PATIENCE, AT_ONCE = 10.0, 30


class Switch:
    """The bridge `br0`: frames enter at `p1`, and forwarded frames leave at `p2`."""

    def __init__(self, folder: str) -> None:
        self.folder, self.read = folder, 0
        self.daemons: list[subprocess.Popen[bytes]] = []
        self.database, self.control = os.path.join(folder, 'db.sock'), os.path.join(folder, 'vswitchd.ctl')
        self.out = os.path.join(folder, 'p2.pcap')
        self.environment = {**os.environ, 'OVS_RUNDIR': folder, 'OVS_LOGDIR': folder, 'OVS_DBDIR': folder}

    def run(self, *words: str) -> str:
        try:
            ended = subprocess.run(words, capture_output=True, text=True, timeout=60, env=self.environment)
        except OSError as fault:
            raise Failed(str(fault)) from fault
        if ended.returncode:
            raise Failed(f"{' '.join(words)}: {ended.stderr.strip()}")
        return ended.stdout

    def __enter__(self) -> Switch:
        try:
            self.begin()
        except (Failed, OSError) as fault:
            self.__exit__()
            raise Failed(str(fault)) from fault
        return self

    def begin(self) -> None:
        store = os.path.join(self.folder, 'conf.db')
        self.run('ovsdb-tool', 'create', store, SCHEMA)
        self.start(['ovsdb-server', store, f'--remote=punix:{self.database}',
                    f'--unixctl={self.folder}/db.ctl'], self.database)
        self.configure('--no-wait', 'init')
        self.start(['ovs-vswitchd', f'unix:{self.database}', '--enable-dummy=override', '--disable-system',
                    f'--unixctl={self.control}'], self.control)
        self.configure('add-br', 'br0', '--', 'set', 'bridge', 'br0', 'datapath_type=dummy', 'fail_mode=secure')
        for port in ('p1', 'p2'):
            self.configure('add-port', 'br0', port, '--', 'set', 'interface', port, 'type=dummy')
        self.configure('set', 'interface', 'p2', f'options:tx_pcap={self.out}')

    def start(self, words: list[str], path: str) -> None:
        with open(os.path.join(self.folder, words[0] + '.log'), 'w', encoding='utf-8') as log:
            self.daemons.append(subprocess.Popen(words, stdout=log, stderr=log, env=self.environment))
        for _ in range(200):
            if os.path.exists(path):
                return
            time.sleep(0.05)
        raise Failed(f'{words[0]} does not start')

    def __exit__(self, *_: object) -> None:
        for daemon in reversed(self.daemons):
            daemon.terminate()
            daemon.wait()

    def configure(self, *words: str) -> None:
        self.run('ovs-vsctl', f'--db=unix:{self.database}', '--timeout=20', *words)

    def version(self) -> str:
        return self.run('ovs-vswitchd', '--version').splitlines()[0]

    def load(self, path: str) -> str:
        """Replaces all flows by those of a file, and returns the differences between the file and the loaded flows."""
        self.run('ovs-ofctl', '-O', 'OpenFlow14', '--bundle', 'replace-flows', 'br0', path)
        return self.run('ovs-ofctl', 'diff-flows', 'br0', path)

    def listed(self) -> str:
        lines = self.run('ovs-ofctl', '--no-stats', 'dump-flows', 'br0').splitlines(True)
        return ''.join(line for line in lines if 'actions=' in line)

    def forwards(self, frame: str) -> bool:
        """Whether the bridge would forward a frame with these fields."""
        told = self.run('ovs-appctl', '-t', self.control, 'ofproto/trace', 'br0', f'in_port=1,{frame}')
        return 'Datapath actions: drop' not in told

    def send(self, packets: list[bytes]) -> list[bytes]:
        """Sends packets, and returns those that are forwarded. An ARP frame, which the flows forward, marks the end."""
        arrived: list[bytes] = []
        with socket.socket(socket.AF_UNIX) as control:
            control.connect(self.control)
            for first in range(0, len(packets), AT_ONCE):
                for packet in packets[first:first + AT_ONCE]:
                    self.put(control, ETHERNET + packet)
                self.put(control, MARKER)
                arrived += self.until_marker()
        return arrived

    @staticmethod
    def put(control: socket.socket, frame: bytes) -> None:
        call = {'id': 0, 'method': 'netdev-dummy/receive', 'params': ['p1', frame.hex()]}
        control.sendall(json.dumps(call).encode())
        told = b''
        while True:
            more = control.recv(4096)
            if not more:
                raise Failed('the switch is gone')
            told += more
            try:
                answer = json.loads(told)
            except ValueError:
                continue
            if answer.get('error'):
                raise Failed(answer['error'])
            return

    def until_marker(self) -> list[bytes]:
        arrived: list[bytes] = []
        given_up = time.monotonic() + PATIENCE
        while time.monotonic() < given_up:
            frames = self.frames()
            arrived += frames
            if MARKER in [frame[:len(MARKER)] for frame in frames]:
                return [frame[14:] for frame in arrived if frame[12:14] == ETHERNET[12:14]]
            time.sleep(0.0005)
        raise Failed('no frame of ARP, which marks the end, comes out of the switch')

    def frames(self) -> list[bytes]:
        """Returns the frames that left since the last call; none while one is being written."""
        with open(self.out, 'rb') as file:
            content = file.read()
        frames, place = [], max(self.read, 24)
        while place + 16 <= len(content):
            end = place + 16 + int.from_bytes(content[place + 8:place + 12], 'little')
            if end > len(content):
                break
            frames.append(content[place + 16:end])
            place = end
        self.read = place
        return frames
