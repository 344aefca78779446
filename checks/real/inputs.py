"""The inputs of checks/real/run: examples and random descriptions, with events."""
import os
import random
from collections.abc import Iterator
from typing import TypeAlias

from descriptions import Network, Traffic
from packets import Event
from trial import BROKEN, Topos, write

REPOSITORY = os.path.dirname(os.path.dirname(os.path.dirname(os.path.abspath(__file__))))
AUDITED_EVENTS = 200
MACHINES = 6
Input: TypeAlias = tuple[str, str, list[Event]]  # a name, a description and events


def examples(seed: str, count: int) -> Iterator[Input]:
    """Yields the examples, with their own events if there are any, and with random ones."""
    folder = os.path.join(REPOSITORY, 'examples')
    for name in sorted(name[:-len('.toml')] for name in os.listdir(folder) if name.endswith('.toml')):
        with open(os.path.join(folder, name + '.toml'), encoding='utf-8') as file:
            description = file.read()
        own = os.path.join(folder, name + '.events')
        if os.path.exists(own):
            with open(own, encoding='utf-8') as file:
                lines = [line for line in file if line.strip() and not line.strip().startswith('#')]
            yield name, description, [Event.read(line) for line in lines]
        traffic = Traffic(random.Random(f'{seed} {name}'), description)
        yield f'{name}-random', description, traffic.events(3 * count)


def random_ones(seed: str, descriptions: int, count: int) -> Iterator[Input]:
    """Yields one of version 1, then two of version 2, and so on."""
    for number in range(1, descriptions + 1):
        chance = random.Random(f'{seed} {number}')
        description = Network(chance, 1 if number % 3 == 1 else 2).text()
        yield f'random-{number}', description, Traffic(chance, description).events(count)


def random_machines(topos: Topos, folder: str, seed: str, descriptions: int, count: int) -> Iterator[Input]:
    """Yields descriptions of few hosts, without invariants if the listed flows break one."""
    path = os.path.join(folder, 'drawn')
    for number in range(1, descriptions + 1):
        chance = random.Random(f'{seed} local {number}')
        network = Network(chance, 1 if number % 3 == 1 else 2, MACHINES)
        write(path, network.text())
        if topos.run('rules', 'iptables', path).returncode == BROKEN:
            network.invariants = []
        yield f'machines-{number}', network.text(), Traffic(chance, network.text()).events(count)


def audited_ones(seed: str, audits: int) -> Iterator[Input]:
    """Yields descriptions of both versions, with events for damaged rules that are equivalent."""
    for number in range(1, audits + 1):
        chance = random.Random(f'{seed} audit {number}')
        description = Network(chance, 1 + number % 2).text()
        yield f'audit-{number}-{seed}', description, Traffic(chance, description).events(AUDITED_EVENTS)
