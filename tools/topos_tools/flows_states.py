"""Reads a save for packets of each state: new and established ones, and the states that the bounds leave out."""
import copy
from dataclasses import replace

from .import_options import TRACKED_STATES
from .import_pieces import ESTABLISHED, NEW
from .import_save import Given, Save, Tables
from .import_words import Word

STATE_OPTIONS = {'--state', '--ctstate'}
OF_TRACKED = {'--icmp-type', '--tcp-flags', '--syn'}  # read for new and established packets
UNKNOWN = Word('--unknown', False)  # in place of an option that is then in doubt
OTHER_STATES = (('RELATED', 'INVALID'), ('UNTRACKED', 'UNTRACKED'))


def readings(text: str, save: Save) -> list[Save]:
    """Returns the save as it is read for packets of all states, without an assumption on new TCP packets.

    The other states take the places of `NEW` and `ESTABLISHED`.
    """
    chains = Tables(text).filters[-1].chains
    own = read_again(chains, save, ()) if save.context.is_syn_first else save
    return [own, *(read_again(chains, save, states) for states in OTHER_STATES)]


def read_again(chains: dict[str, list[Given]], save: Save, states: tuple[str, ...]) -> Save:
    """Reads the rules of a save for other states. A rule without an option of states is read alike."""
    found = copy.copy(save)
    found.context, found.rules = replace(save.context, is_syn_first=False), {}
    of_states = {line for rules in chains.values() for line, _, words in rules if any(map(is_of_states, words))}
    if states:
        chains = {chain: [renamed(given, states) if given[0] in of_states else given for given in rules]
                  for chain, rules in chains.items()}
    found.read_rules(chains, {rule.line: rule for rule in save.all_rules() if rule.line not in of_states})
    return found


def is_of_states(word: Word) -> bool:
    return word.text in OF_TRACKED or word.text in STATE_OPTIONS


def renamed(given: Given, states: tuple[str, ...]) -> Given:
    """Returns a rule in which the states are named `NEW` and `ESTABLISHED`. Options of tracked packets are unknown."""
    line, text, words = given
    found = list(words)
    for place, word in enumerate(words):
        if word.text in OF_TRACKED:
            found[place] = UNKNOWN
        elif word.text in STATE_OPTIONS:
            rename_states(found, place, states)
    return line, text, found


def rename_states(words: list[Word], place: int, states: tuple[str, ...]) -> None:
    """Renames the states of an option, whose value may have a `!` before it."""
    value = place + 1 + (words[place + 1:place + 2] == [Word('!', False)])
    names = set(words[value].text.upper().split(',')) if value < len(words) else set()
    if not names <= TRACKED_STATES:
        words[place] = UNKNOWN
        return
    kept = [name for name, state in zip((NEW, ESTABLISHED), states) if state in names]
    words[value:value + 1] = [Word(','.join(kept or ['INVALID']), False)]
