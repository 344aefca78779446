"""The inputs from which both scripts start, and a run of a program."""
import os
import resource
import subprocess
from collections.abc import Sequence
from typing import NamedTuple

REPOSITORY = os.path.dirname(os.path.dirname(os.path.dirname(os.path.abspath(__file__))))
EXAMPLES = os.path.join(REPOSITORY, 'examples')
TIME_LIMIT = 10.0
DESCRIPTION_COMMANDS = (['check'], ['policy'], ['rules', 'iptables'], ['rules', 'openflow'],
                        ['repair', 'iptables'], ['repair', 'openflow'], ['migrate'])
SERVICES = b"""topos = 2
flow = [["web", "db", "tcp/5432", "icmp"], ["lan", "web", "tcp/80", "tcp/8000-8080", "udp"], ["web", "lan"],
        ["inet", "web", "tcp/443"], ["lan", "inet", "tcp", "udp/53"]]
host = [{ name = "web", at = ["10.0.0.2", "10.0.0.3"] }, { name = "db", at = ["10.0.0.1"] },
        { name = "lan", at = ["10.1.0.0/16"] }, { name = "inet", rest = true }]
invariant = [{ template = "sink", assign = [{ host = "db", kind = "sink" }] }]
"""
# What a switch can enforce: no answers and no ranges.
PORTS = b"""topos = 2
answers = "none"
flow = [["web", "db", "tcp/5432", "icmp"], ["inet", "web", "tcp/443", "udp/443"], ["web", "inet", "udp/53"], \
["db", "web"]]
host = [{ name = "web", at = ["10.0.0.2", "10.0.0.3"] }, { name = "db", at = ["10.0.0.1"] }, \
{ name = "inet", rest = true }]
"""
# Custom templates of both strategies.
TABLES = b"""topos = 2
flow = [["web", "app", "tcp/9000"], ["app", "db", "tcp/5432"], ["inet", "web", "tcp/443"], ["db", "log", "udp/514"]]
host = [{ name = "web", at = ["10.0.0.2", "10.0.0.3"] }, { name = "app", at = ["10.0.1.0/28"] },
        { name = "db", at = ["10.0.0.1"] }, { name = "log", at = ["10.0.2.1"] }, { name = "inet", rest = true }]
[[template]]
name = "tiers"
strategy = "access"
kinds = ["front", "middle", "back", "other"]
default = "other"
deny = [["front", "back"], ["other", "back"], ["other", "middle"]]
[[template]]
name = "records"
strategy = "information"
kinds = ["keeps", "plain"]
default = "plain"
deny = [["keeps", "plain"]]
[[invariant]]
template = "tiers"
assign = [{ host = "web", kind = "front" }, { host = "app", kind = "middle" }, { host = "db", kind = "back" }]
[[invariant]]
template = "records"
assign = [{ host = "log", kind = "keeps" }]
"""
SERVICE_EVENTS = b"""packet 10.0.0.2 10.0.0.1 tcp 40000 5432
packet 10.0.0.2 10.0.0.1 tcp 40000 5433
packet 10.0.0.1 10.0.0.2 tcp 5432 40000
packet 10.0.0.1 10.0.0.2 tcp 5433 40000
packet 10.1.9.9 10.0.0.3 tcp 1024 8000
packet 10.0.0.3 10.1.9.9 tcp 8000 1024
forget 10.0.0.3 10.1.9.9 tcp 8000 1024
packet 192.0.2.1 10.0.0.3 tcp 1024 443
packet 192.0.2.1 10.0.0.3 udp 1024 443
packet 10.0.0.3 192.0.2.1 udp 1024 53
packet 10.0.0.2 10.0.0.1 icmp 7 7
"""
USAGE = b'usage: topos check FILE\n'


class Ended(NamedTuple):
    """How a run ended: a negative status is the number of a signal, None a timeout."""
    status: int | None
    out: bytes
    err: bytes


def bytes_of(*path: str) -> bytes:
    with open(os.path.join(*path), 'rb') as file:
        return file.read()


def examples(suffix: str) -> dict[str, bytes]:
    """Returns the files of `examples/` by name, the largest first."""
    names = [name for name in os.listdir(EXAMPLES) if name.endswith(suffix)]
    texts = {name: bytes_of(EXAMPLES, name) for name in sorted(names)}
    return dict(sorted(texts.items(), key=lambda pair: -len(pair[1])))


def write_files(folder: str, files: dict[str, bytes]) -> None:
    for name, text in files.items():
        with open(os.path.join(folder, name), 'wb') as file:
            file.write(text)


def run(program: str, words: Sequence[str | bytes], folder: str, environment: dict[str, str] | None = None) -> Ended:
    """Runs the program in the folder, for at most the time limit."""
    try:
        ran = subprocess.run([program, *words], cwd=folder, env=environment, stdin=subprocess.DEVNULL,
                             capture_output=True, timeout=TIME_LIMIT)
    except subprocess.TimeoutExpired as late:
        return Ended(None, late.stdout or b'', late.stderr or b'')
    return Ended(ran.returncode, ran.stdout, ran.stderr)


def most_memory() -> float:
    """Returns the maximum resident memory of the runs so far, in megabytes."""
    return resource.getrusage(resource.RUSAGE_CHILDREN).ru_maxrss / 1024


def texts(suffix: str) -> list[bytes]:
    """Returns the files of `examples/`, and the descriptions of version 2 of this module."""
    more = {'.toml': [SERVICES, PORTS, TABLES], '.events': [SERVICE_EVENTS]}
    return [*examples(suffix).values(), *more[suffix]]


def is_topos(program: str) -> bool:
    return os.access(program, os.X_OK) and run(program, [], '/').err.startswith(USAGE)


def knows_sample(program: str) -> bool:
    return run(program, ['sample', '1'], '/').status == 0
