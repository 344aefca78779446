"""Which hosts reach which over several permitted flows, in their direction.

`topos-query` answers on a copy: the hosts, each with one address, the permitted flows, and a further host that has no
flow. In an invariant `noreach` of the copy this host alone denies a host, the target. A flow from it to a host is
denied if and only if the host is the target, or reaches the target. A copy has up to 16 of these invariants.
"""
import time
from typing import Any

from .query import Programs, text_of, waves
from .report_model import Network, Report
from .report_words import PERMITTED

TARGETS = 16  # invariants of a description
MOST_HOSTS = 256  # of a description


def copy_for(network: Network, probe: str, targets: list[str]) -> dict[str, Any]:
    """Returns the copy that asks which hosts reach the targets."""
    names = [*network.names, probe]
    def assign(target: str) -> list[dict[str, Any]]:
        return [{'host': name, 'deny': [target] if name == probe else []} for name in names]
    return {'topos': 2, 'flow': [list(flow) for flow in network.of_state(PERMITTED)],
            'host': [{'name': name, 'at': [f'10.0.{place >> 8}.{place & 255}']} for place, name in enumerate(names)],
            'invariant': [{'template': 'noreach', 'assign': assign(target)} for target in targets]}


def senders_of(answer: dict[str, Any], probe: str, targets: list[str]) -> dict[str, list[str]]:
    """Returns for each target the hosts that reach it."""
    found: dict[str, list[str]] = {target: [] for target in targets}
    for each in answer['flows']:
        sender, receiver = each['flow']
        for number in each['denied_by'] if sender == probe else []:
            if targets[number - 1] != receiver:
                found[targets[number - 1]].append(receiver)
    return found


def read_steps(programs: Programs, report: Report, seconds: float) -> None:
    """Sets which hosts reach each host, for as many hosts as the time allows."""
    network, size = report.network, len(report.network.names)
    if size >= MOST_HOSTS:
        return
    probe = next(name for name in map('probe-{}'.format, range(size + 1)) if name not in network.number)
    until, targets = time.monotonic() + seconds, network.names
    batches = [targets[start:start + TARGETS] for start in range(0, size, TARGETS)]
    for wave in waves(batches):
        if time.monotonic() > until:
            return
        texts = [text_of(copy_for(network, probe, batch)) for batch in wave]
        for batch, answer in zip(wave, programs.ask_all(texts, 'network'), strict=True):
            report.reached.update(senders_of(answer, probe, batch) if answer else {})
