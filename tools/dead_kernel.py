"""Dead rules of random saves, judged by the counters of a kernel."""
import os
import re
import struct
import subprocess
import sys
from collections.abc import Callable

from dead_random import DOUBTS, PACKETS, DeadChance
from import_kernel import Kernel
from import_random import INTERFACES, Packet, answer
from topos_tools.flows_dead import dead_rules
from topos_tools.import_save import Save
from topos_tools.import_tables import Interfaces
from topos_tools.query import Programs

sys.path.append(os.path.join(os.path.dirname(os.path.dirname(os.path.realpath(__file__))), 'checks', 'real'))
import box
import packets

COUNTED = re.compile(r'\[(\d+):\d+\] (-A .*)')


def error_of(packet: Packet, number: int) -> bytes:
    """Returns an ICMP error from another machine on a packet, as its sender gets it."""
    sender, receiver, protocol, *ports = packet
    inner = struct.pack('!BBHHHBBHII', 0x45, 0, 28, number, 0, 60, protocol, 0, sender, receiver)
    inner += struct.pack('!HHI', *ports, 8)
    body = struct.pack('!BBHI', 3, 1, 0, 0) + inner
    body = body[:2] + struct.pack('!H', packets.checksum(body)) + body[4:]
    head = struct.pack('!BBHHHBBHII', 0x45, 0, 20 + len(body), number, 0, 64, 1, 0, receiver ^ 1, sender)
    return head[:10] + struct.pack('!H', packets.checksum(head)) + head[12:] + body


def counts_of(back_end: str, saved: str) -> dict[int, int]:
    """Returns the count of packets of each rule, by its line in the save."""
    ended = subprocess.run([f'iptables-{back_end}-save', '-c', '-t', 'filter'], capture_output=True, text=True,
                           check=True)
    counted = [found for line in ended.stdout.splitlines() if (found := COUNTED.fullmatch(line))]
    lines = [(number, line) for number, line in enumerate(saved.splitlines(), 1) if line.startswith('-A ')]
    if [found[2].split() for found in counted] != [line.split() for _, line in lines]:
        raise ValueError('other rules than those that were saved')
    return {number: int(found[1]) for (number, _), found in zip(lines, counted)}


def judge_counters(judge: Callable[[str, bool], None], programs: Programs, kernel: Kernel, count: int,
                   seed: int) -> None:
    """Compares dead rules with the counters of both back ends."""
    for back_end in ('nft', 'legacy'):
        known = tuple(each for each in DOUBTS if kernel.load(back_end, '*filter\n:FORWARD DROP [0:0]\n'
                                                             f'-A FORWARD {each} -j ACCEPT\nCOMMIT\n') is not None)
        totals = dict.fromkeys(('sets', 'rules', 'dead', 'met'), 0)
        for number in range(count):
            chance = DeadChance(f'counters {back_end} {seed} {number}')
            chance.known = known
            saved = kernel.load(back_end, chance.nested_save() if number % 2 else chance.save())
            if saved is None:
                continue
            save = Save(saved, Interfaces(INTERFACES), None, bool(number % 3))
            dead = {each.rule.line for each in dead_rules(programs, saved, save)}
            send_all(kernel, chance.packets(PACKETS))
            counts = counts_of(back_end, saved)
            wrong = {line for line in dead if counts.get(line)}
            judge(f'{back_end} {seed} {number}: packets of dead lines {wrong}:\n{saved}', not wrong)
            for name, part in zip(totals, (1, len(counts), len(dead), sum(map(bool, counts.values())))):
                totals[name] += part
        kernel.clear(back_end)
        print(f'dead rules by counters, {back_end}, {len(known)} of {len(DOUBTS)} matches: '
              + ', '.join(f'{value} {name}' for name, value in totals.items()))


def send_all(kernel: Kernel, drawn: list[Packet]) -> None:
    """Sends packets of all states: new ones, answers, later ones, errors on them and on others."""
    for number, packet in enumerate(drawn, 1):
        for phase in range(3):
            kernel.sends(answer(packet) if phase == 1 else packet, phase)
        for about in (packet, (*packet[:3], packet[3] ^ 1, packet[4])):
            os.write(kernel.device(packet[1]), error_of(about, number))
            os.write(kernel.device(packet[1]), box.MARKER)
            kernel.wait()
