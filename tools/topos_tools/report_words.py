"""The words of a report: states, templates, attributes, and the forms of names and numbers."""
import html
from typing import Any

ANSWERED, ONE_WAY, DENIED, GAP, FORBIDDEN, SELF = 'A', 'a', 'D', 'G', 'f', '-'
PERMITTED = ANSWERED + ONE_WAY
COUNT_KEYS = {ANSWERED: 'with_answers', ONE_WAY: 'without_answers', DENIED: 'denied', GAP: 'gaps',
              FORBIDDEN: 'forbidden'}
STATES = {
    ANSWERED: 'permitted with answers',
    ONE_WAY: 'permitted without answers',
    DENIED: 'asked for and denied',
    GAP: 'not asked for, and no invariant denies it (a gap)',
    FORBIDDEN: 'not asked for, and an invariant denies it',
}
SHORT = {ANSWERED: 'answered', ONE_WAY: 'unanswered', DENIED: 'denied', GAP: 'gap', FORBIDDEN: 'forbidden'}

# A sentence on each template, after docs/FORMATS.md.
TEMPLATES = {
    'blp': 'Secrecy by levels: information flows only to trusted hosts and to hosts of at least the level of the '
           'sender. Answers count as flows.',
    'tainting': 'Secrecy by labels: the receiver has every label that the sender has and does not untaint. '
                'Answers count as flows.',
    'sink': 'Hosts that only receive: nothing leaves a sink, and a pool sends to the pool and to sinks. '
            'Answers count as flows.',
    'gateway': 'Members are reached only through a gateway, and not by each other. An answer opens no connection.',
    'subnets': 'Networks that are closed to each other and joined by border hosts. An answer opens no connection.',
    'partners': 'Hosts that choose from whom they accept connections: a master from the listed hosts. '
                'An answer opens no connection.',
    'domains': 'A hierarchy: a host reaches its own domain and all below it. An answer opens no connection.',
    'dependability': 'Each host reaches, over any number of flows, at most as many others as its limit. '
                     'Answers count as flows.',
    'noninterference': 'No two interfering hosts are joined by flows, in any direction and over any hosts between '
                       'them. Answers count as flows.',
    'noreach': 'No host reaches, over any number of flows, a host that it denies. Answers count as flows.',
}

# The attribute of a host without an entry, as the table of docs/FORMATS.md names it.
DEFAULTS = {
    'blp': 'level 0, not trusted', 'tainting': 'no labels', 'sink': 'unassigned', 'gateway': 'unassigned',
    'subnets': 'unassigned', 'partners': 'dontcare', 'domains': 'unassigned',
    'dependability': 'limit 0: it may send to no host', 'noninterference': 'interfering', 'noreach': 'denies all hosts',
}


def template_words(name: str, own: dict[str, Any] | None) -> str:
    """Returns a sentence on a template, which may be a table of the description."""
    if own is None:
        return TEMPLATES.get(name, '')
    protects = ('a receiver from its senders. An answer opens no connection.' if own['strategy'] == 'access' else
                'the knowledge of a sender. Answers count as flows.')
    return (f'A template of one’s own: a table of {counted(len(own["kinds"]), "kind")} with '
            f'{counted(len(own["deny"]), "denied pair")}, which protects {protects}')


def attribute_words(entry: dict[str, Any]) -> str:
    """Returns the attribute of an entry as the file has it, without quotes, and the kind first."""
    said = [str(entry['kind'])] if 'kind' in entry else []
    for key, value in entry.items():
        if key in ('host', 'kind'):
            continue
        if isinstance(value, bool):
            said += [key] if value else []
        elif isinstance(value, list):
            said.append(f'{key} {" ".join(map(str, value)) or "nobody"}')
        else:
            said.append(f'{key} {value}')
    return ', '.join(said)


def esc(text: object) -> str:
    """Returns a text that is safe in HTML, in quotes too."""
    return html.escape(str(text), quote=True)


def counted(number: int, noun: str, nouns: str = '') -> str:
    """Returns a number with its noun."""
    return f'{number:,} {noun if number == 1 else nouns or noun + "s"}'


def verb(number: int, one: str, many: str) -> str:
    """Returns the form of a verb for a number of subjects."""
    return one if number == 1 else many
