"""The machines around the pair of firewalls of checks/pair.

    pair_talk.py serve FOLDER            TCP 80 pushes a line each 0.1 s; counts what arrives elsewhere
    pair_talk.py download FOLDER NAME    connects to TCP 80, sends nothing, and counts the lines in the file NAME
    pair_talk.py talk FOLDER NAME        the same, and sends a line each 0.1 s
    pair_talk.py flood FOLDER            sends UDP to port 999 and TCP SYN to port 81, and counts them in `sent`

The server is 10.0.2.10. Each goes on until it is killed. `denied` and `denied.tcp` have the numbers of packets and
connections at ports that no rule allows.
"""
import os
import socket
import sys
import threading
import time

SERVER = '10.0.2.10'


def write(path: str, number: int) -> None:
    """Writes a number into a file, at once."""
    with open(f'{path}.new', 'w', encoding='ascii') as file:
        print(number, file=file)
    os.rename(f'{path}.new', path)


def push(connection: socket.socket) -> None:
    """Sends a line each 0.1 s."""
    try:
        while True:
            connection.sendall(b'line\n')
            time.sleep(0.1)
    except OSError:
        connection.close()


def hear_denied(folder: str) -> None:
    """Counts the packets at UDP 999 and the connections to TCP 81."""
    heard = 0
    denied = socket.socket(socket.AF_INET, socket.SOCK_DGRAM)
    denied.bind(('', 999))
    write(f'{folder}/denied', 0)
    while True:
        denied.recv(100)
        heard += 1
        write(f'{folder}/denied', heard)


def accept_denied(folder: str) -> None:
    """Counts the connections to TCP 81."""
    heard = 0
    denied = socket.create_server(('', 81))
    write(f'{folder}/denied.tcp', 0)
    while True:
        denied.accept()
        heard += 1
        write(f'{folder}/denied.tcp', heard)


def serve(folder: str) -> None:
    """Accepts connections to TCP 80, and pushes lines."""
    for job in (hear_denied, accept_denied):
        threading.Thread(target=job, args=(folder,), daemon=True).start()
    listening = socket.create_server(('', 80))
    write(f'{folder}/serving', 1)
    while True:
        threading.Thread(target=push, args=(listening.accept()[0],), daemon=True).start()


def download(path: str, is_talking: bool) -> None:
    """Counts the bytes of a connection."""
    heard = 0
    connection = socket.create_connection((SERVER, 80), timeout=20)
    connection.settimeout(None)
    if is_talking:
        threading.Thread(target=push, args=(connection,), daemon=True).start()
    while data := connection.recv(65536):
        heard += len(data)
        write(path, heard)


def flood(folder: str) -> None:
    """Sends packets that are not allowed."""
    sent = 0
    datagrams = socket.socket(socket.AF_INET, socket.SOCK_DGRAM)
    while True:
        for _ in range(20):
            datagrams.sendto(b'line', (SERVER, 999))
        attempt = socket.socket()
        attempt.setblocking(False)
        attempt.connect_ex((SERVER, 81))
        time.sleep(0.01)
        attempt.close()
        sent += 21
        write(f'{folder}/sent', sent)


def main() -> None:
    """Runs the part of the first argument."""
    part, folder, *name = sys.argv[1:]
    if part == 'serve':
        serve(folder)
    elif part == 'flood':
        flood(folder)
    else:
        download(f'{folder}/{name[0]}', part == 'talk')


main()
