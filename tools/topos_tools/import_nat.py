"""The receivers that rules of the table nat write: only their connections have the state DNAT."""
from collections.abc import Iterable

from .import_sets import ALL_ADDRESSES, Numbers, joined
from .import_words import Refused, address, address_range, words_of

OPTIONS = {'DNAT': '--to-destination', 'NETMAP': '--to', 'TPROXY': ''}  # REDIRECT leads to the firewall itself


def written_receivers(rules: Iterable[tuple[str, str]]) -> Numbers:
    """Returns the receivers that rules may write, given as their targets and texts."""
    return joined(each for target, text in rules if target in OPTIONS for each in _receivers(OPTIONS[target], text))


def _receivers(option: str, text: str) -> Numbers:
    """Returns the receivers that a rule writes: all if its option is not read."""
    try:
        words = [word.text for word in words_of(text)]
        written = words[words.index(option) + 1].partition(':')[0]
        return (address_range(written) if '-' in written else address(written)) or ALL_ADDRESSES
    except (Refused, ValueError, IndexError):
        return ALL_ADDRESSES
