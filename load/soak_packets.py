"""Sends packets through the firewall of load/soak --table, and compares what passes with what may pass.

    soak_packets.py FOLDER CLIENT SERVER

CLIENT and SERVER are processes in the network namespaces of the two machines. Every 30 ms, or slower on a busy machine,
a packet of UDP goes to each of `PORTS`. The file `allowed` of FOLDER has the ports that may pass at this time, and the
word `lost` if nothing has to pass. `ALWAYS` has to pass otherwise: every text accepts it. A violation is a line of the
file `passed`. The file `sample` has the number of the last round and the ports that passed in it.
"""
import ctypes
import os
import socket
import sys
import time

PORTS = [53, 514, 1000, 3000, 999]
ALWAYS = 2000
NAMESPACE_OF_NETWORK = 0x40000000


def enter(process: str) -> None:
    """Enters the network namespace of a process: sockets that are opened now belong to it."""
    with open(f'/proc/{process}/ns/net', 'rb') as namespace:
        if ctypes.CDLL(None, use_errno=True).setns(namespace.fileno(), NAMESPACE_OF_NETWORK) != 0:
            raise OSError(ctypes.get_errno(), 'setns')


def open_port(port: int) -> socket.socket:
    """Opens a socket of UDP that does not block."""
    one = socket.socket(socket.AF_INET, socket.SOCK_DGRAM)
    one.bind(('', port))
    one.setblocking(False)
    return one


def has_arrived(server: socket.socket, line: bytes) -> bool:
    """Whether a line is among those that a socket has received. It drops those of earlier rounds."""
    try:
        while True:
            if server.recv(100) == line:
                return True
    except (BlockingIOError, TimeoutError):
        return False


def send_round(client: socket.socket, servers: dict[int, socket.socket], number: int, limit: float) -> list[int]:
    """Sends a packet to each port, `ALWAYS` last, and returns the ports where it arrived.

    One processor keeps the order. It waits for the last packet up to a limit, in seconds.
    """
    line = b'round %d' % number
    for port in [*PORTS, ALWAYS]:
        client.sendto(line, ('10.0.2.10', port))
    servers[ALWAYS].settimeout(limit)
    last = [ALWAYS] if has_arrived(servers[ALWAYS], line) else []
    return [port for port in PORTS if has_arrived(servers[port], line)] + last


def read_allowed(folder: str) -> set[str]:
    """Reads what may pass."""
    with open(f'{folder}/allowed', encoding='ascii') as file:
        return set(file.read().split())


def fault_of(passed: list[int], allowed: set[str]) -> str:
    """Returns what is wrong with a round, or an empty string."""
    wrong = [str(port) for port in passed if port != ALWAYS and str(port) not in allowed]
    if wrong:
        return f'{" ".join(wrong)} passed, allowed were {" ".join(sorted(allowed))}'
    return '' if ALWAYS in passed or 'lost' in allowed else 'a packet that every text accepts was lost'


def main() -> None:
    """Goes on until it is killed."""
    folder, client_process, server_process = sys.argv[1:]
    os.sched_setaffinity(0, [min(os.sched_getaffinity(0))])
    enter(server_process)
    servers = {port: open_port(port) for port in [*PORTS, ALWAYS]}
    enter(client_process)
    client = open_port(4000)
    number = 0
    while True:
        began = time.process_time()
        number += 1
        before = read_allowed(folder)
        passed = send_round(client, servers, number, 0.3 if 'lost' in before else 20)
        fault = fault_of(passed, before | read_allowed(folder))
        if fault:
            with open(f'{folder}/passed', 'a', encoding='ascii') as file:
                print(f'round {number}: {fault}', file=file)
        with open(f'{folder}/sample.new', 'w', encoding='ascii') as file:
            print(number, *passed, file=file)
        os.rename(f'{folder}/sample.new', f'{folder}/sample')
        time.sleep(max(0.03, 50 * (time.process_time() - began)))


main()
