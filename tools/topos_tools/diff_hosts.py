"""The hosts that come, go, change their names or their addresses."""
from collections.abc import Iterator
from dataclasses import dataclass

from .diff_words import few
from .flows_hosts import MOST_SHOWN, owned_addresses
from .import_sets import Numbers, difference, intersection, joined, prefix_text, prefixes
from .report_model import Network
from .why_network import joined as listed

NOBODY = 'no host'
Owned = dict[str, Numbers]


@dataclass
class HostChange:
    """A host, and the addresses that it gains or loses, with the hosts that had them or have them."""
    host: str
    change: str  # comes, goes, gains, loses, renamed
    addresses: str
    others: list[str]  # owners of these addresses in the other description; of `renamed` the new name

    def text(self, is_whole: bool) -> str:
        mark = {'comes': '+', 'goes': '-'}.get(self.change, '~')
        verb = {'comes': 'was', 'gains': 'was'}.get(self.change, 'now')
        if self.change == 'renamed':
            return f'~ host {self.host}: now {self.others[0]}'
        head = f'{self.host} {self.change}' if mark == '~' else f'{self.host}:'
        addresses = few(self.addresses.split(), None if is_whole else MOST_SHOWN)
        return f'{mark} host {head} {addresses}, {verb} {listed(self.others)}'


def told(numbers: Numbers) -> str:
    return ' '.join(prefix_text(*each).removesuffix('/32') for each in prefixes(numbers))


def owned_by(network: Network) -> Owned:
    """Returns the addresses of each host."""
    return owned_addresses({host['name']: host['at'] for host in network.hosts})


def owners(addresses: Numbers, owned: Owned) -> list[str]:
    """Returns the hosts that have some of the addresses, and `no host` if some have none."""
    found = [host for host, numbers in owned.items() if intersection(addresses, numbers)]
    everybody = joined(each for numbers in owned.values() for each in numbers)
    return found + ([NOBODY] if difference(addresses, everybody) else [])


def renamed(old: Owned, new: Owned) -> dict[str, str]:
    """Returns the new name of each old host that only has another name."""
    names = {numbers: host for host, numbers in new.items() if host not in old}
    return {host: names[numbers] for host, numbers in old.items() if host not in new and numbers in names}


def host_changes(old: Network, new: Network) -> list[HostChange]:
    """Lists the changes of hosts. Addresses that one host loses to another are listed once."""
    before, after = owned_by(old), owned_by(new)
    names = renamed(before, after)
    found = [HostChange(host, 'renamed', '', [name]) for host, name in names.items()]
    rest = {host['name'] for host in old.hosts if host['rest']} & {host['name'] for host in new.hosts if host['rest']}
    came = [host for host in after if host not in before and host not in names.values()]
    went = [host for host in before if host not in after and host not in names]
    for host in came:
        found.append(HostChange(host, 'comes', told(after[host]), owners(after[host], before)))
    for host in went:
        found.append(HostChange(host, 'goes', told(before[host]), owners(before[host], after)))
    for host in after:
        if host in before and host not in rest:
            found += _moved(host, before, after, _told_of(came, after), _told_of(went, before), rest)
    return found


def _told_of(hosts: list[str], owned: Owned) -> Numbers:
    """Returns the addresses in the lines of new or removed hosts."""
    return joined(each for host in hosts for each in owned[host])


def _moved(host: str, before: Owned, after: Owned, came: Numbers, went: Numbers, rest: set[str]
           ) -> Iterator[HostChange]:
    """Yields what a host gains, and what it loses to the rest host or to no host."""
    gains = difference(difference(after[host], before[host]), went)
    if gains:
        yield HostChange(host, 'gains', told(gains), owners(gains, before))
    loses = difference(difference(before[host], after[host]), came)
    for other, numbers in after.items() if loses else ():
        loses = loses if other in rest else difference(loses, numbers)
    if loses:
        yield HostChange(host, 'loses', told(loses), owners(loses, after))
