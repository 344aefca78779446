"""Reports what became of each line of a save."""
import re
from collections.abc import Iterator

from .import_ipset import MOST_PIECES
from .import_nft import COMMAND
from .import_pieces import Action, Piece, Rule
from .import_save import OtherRule, Save
from .import_tables import NONE

IN_DOUBT = {
    Action.ACCEPT: 'taken in upper, left out in lower', Action.DROP: 'left out in upper, taken in lower',
    Action.UNKNOWN: 'ACCEPT in upper, DROP in lower'}
VERDICTS = {Action.ACCEPT, Action.DROP, Action.RETURN, Action.GOTO}
REWRITES = {
    **dict.fromkeys(('DNAT', 'REDIRECT', 'NETMAP', 'TPROXY', 'DNPT'), 'FORWARD sees the address behind it'),
    **dict.fromkeys(('SNAT', 'MASQUERADE', 'SNPT'), 'FORWARD sees the address before it'),
    **dict.fromkeys(('MARK', 'CONNMARK'), 'matches of marks are in doubt')}
STOPPING = {'DROP', 'REJECT', 'policy DROP', 'TARPIT', 'QUEUE', 'NFQUEUE', 'SYNPROXY'}
LONGEST = 110  # letters of a rule
SIZE = f'more than {MOST_PIECES} parts, or another number of src and dst'
SET = re.compile(r'set ([^-\s]\S*)')  # the name of a set in a doubt
MOST_COMPARED = 1000  # pieces of a chain, each with each


def report(save: Save, name: str) -> list[str]:
    """Returns the lines of the report."""
    rules = save.all_rules()
    idle, never, doubtful = kinds(rules)
    return [*first_lines(save, name), *left_lines(save), *doubtful_lines(save, doubtful), *never_lines(never),
            *idle_lines(idle), *related_lines(rules), *type_lines(rules), *shadowed_lines(save), *caveats(save),
            *list_lines(save)]


def known(save: Save, name: str) -> list[str]:
    """Returns the lines on the rules of a save that is not read to its end."""
    _, never, doubtful = kinds(save.all_rules())
    return ['not all rules are read: there are no bounds', *first_lines(save, name), *doubtful_lines(save, doubtful),
            *never_lines(never)]


def kinds(rules: list[Rule]) -> tuple[list[Rule], list[Rule], list[Rule]]:
    """Returns the rules that do nothing, those that no packet meets, and those in doubt."""
    idle = [rule for rule in rules if rule.action is Action.CONTINUE]
    never = [rule for rule in rules if rule.action is not Action.CONTINUE and not rule.pieces]
    doubtful = [rule for rule in rules if rule.action is not Action.CONTINUE and rule.pieces and rule.doubts()]
    return idle, never, doubtful


def first_lines(save: Save, name: str) -> Iterator[str]:
    rules = save.all_rules()
    counts = list(map(len, kinds(rules)))
    word = 'exact' if save.is_checked else 'as printed'
    yield (f'{name}: rules that FORWARD leads to: {word} {len(rules) - sum(counts)}, in doubt {counts[2]}, '
           f'never {counts[1]}, without effect {counts[0]}')
    if not save.is_checked:
        yield ('not called exact: iptables may print rules that nft made as other rules, and the bounds are for those '
               f'that it printed; --nft-list with the output of `{COMMAND}` decides')


def caveats(save: Save) -> list[str]:
    """Returns lines on what the bounds leave out: other tables, warnings of the save, and what routes leave open."""
    return [*other_lines(save), *save.notes, *route_lines(save)]


def shown(rule: Rule) -> str:
    return rule.text if len(rule.text) < LONGEST else rule.text[:LONGEST - 2] + '..'


def numbers_of(rules: list[Rule]) -> str:
    return ('lines ' if len(rules) > 1 else 'line ') + ' '.join(str(rule.line) for rule in rules)


def left_lines(save: Save) -> Iterator[str]:
    counts = ', '.join(f'{chain} ({count})' for chain, count in save.left.items() if count)
    if counts:
        yield f'not read, FORWARD does not lead there: {counts}'


def doubtful_lines(save: Save, rules: list[Rule]) -> Iterator[str]:
    for rule in rules:
        taken = IN_DOUBT.get(rule.action, 'both are possible')
        yield f'in doubt: line {rule.line}: {", ".join(rule.doubts())}: {taken}: {shown(rule)}'
    yield from remedies(save, rules)


def remedies(save: Save, rules: list[Rule]) -> Iterator[str]:
    """Yields lines on what would decide that is in doubt."""
    doubts = {doubt.removeprefix('! ') for rule in rules for doubt in rule.doubts()}
    unknown = sorted(doubt.split()[1] for doubt in doubts if doubt.startswith('interface '))
    if unknown:
        yield (f'not in the table of interfaces (--interfaces): {" ".join(unknown)}; a line `{unknown[0]} {NONE}` is '
               'for one that is gone')
    yield from set_lines(save, sorted({found[1] for found in map(SET.match, doubts) if found}))
    if not save.context.is_syn_first and any(doubt.startswith(('tcp-flags ', 'tcp --syn')) for doubt in doubts):
        yield ('TCP flags: --syn decides them for new packets, if the first packet of each connection has SYN alone of '
               'FIN, SYN, RST and ACK')


def set_lines(save: Save, names: list[str]) -> Iterator[str]:
    """Yields lines on the sets in doubt: why each is, and what would help."""
    missing = [name for name in names if name not in save.context.sets]
    if missing:
        yield f'sets that --sets (the output of `ipset save`) has not: {" ".join(missing)}'
    found = [f'{name} ({save.context.sets[name].cause or SIZE})' for name in names
             if name in save.context.sets]
    if found:
        yield f'sets that stay in doubt: {", ".join(found)}'


def never_lines(rules: list[Rule]) -> Iterator[str]:
    for rule in rules:
        yield f'never: line {rule.line}: {rule.never or "no packet meets all conditions"}: {shown(rule)}'


def idle_lines(rules: list[Rule]) -> Iterator[str]:
    for target in dict.fromkeys(rule.target for rule in rules):
        of_target = [rule for rule in rules if rule.target == target]
        yield f'without effect: {target or "no target"}: {numbers_of(of_target)}'


def related_lines(rules: list[Rule]) -> Iterator[str]:
    related = [rule for rule in rules if rule.pieces and any('RELATED' in word for word in rule.text.split())]
    if related:
        yield f'RELATED never matches, the other states do: {numbers_of(related)}'


def type_lines(rules: list[Rule]) -> Iterator[str]:
    typed = [rule for rule in rules if '--src-type' in rule.text.split()]
    if typed:
        yield f'no sender is taken for a broadcast address, as with rp_filter: {numbers_of(typed)}'


def shadowed_lines(save: Save) -> Iterator[str]:
    """Yields a line for each rule that rules above it in its chain leave no packet, in any state."""
    for rules in save.rules.values():
        above: list[tuple[Piece, int, frozenset[str]]] = []
        for rule in rules:
            if rule.action is Action.CONTINUE or not rule.pieces:
                continue
            if len(above) > MOST_COMPARED:
                yield f'not looked for below line {above[-1][1]}: rules that others shadow in its chain'
                break
            covering = [next((line for piece, line, others in above if rule.others <= others and piece.covers(part)),
                             None) for part in rule.pieces]
            if None not in covering:
                by = dict.fromkeys(line for line in covering if line)
                yield (f'shadowed: line {rule.line}: by {" ".join(map(str, by))}: {shown(rule)}: '
                       + '; '.join(f'line {each.line}: {shown(each)}' for each in rules if each.line in by))
            if rule.action in VERDICTS:
                others = frozenset() if rule.is_partial else rule.others
                above += [(piece, rule.line, others) for piece in rule.sure_pieces()]


def other_lines(save: Save) -> Iterator[str]:
    """Yields a line for each rule of another table that changes what the bounds say."""
    for each in save.others:
        effect = effect_of(each)
        if effect:
            yield f'table {each.table}, line {each.line}: {each.target} in {each.chain}: {effect}'


def effect_of(rule: OtherRule) -> str | None:
    if rule.target in STOPPING and rule.chain not in ('INPUT', 'OUTPUT'):
        return 'drops packets, so the box may forward less than lower'
    if rule.changes_tracking():
        return 'exempts packets from tracking, or puts them into a zone, so states are in doubt'
    return REWRITES.get(rule.target)


def route_lines(save: Save) -> Iterator[str]:
    if save.context.interfaces:
        yield from save.context.interfaces.notes()


def list_lines(save: Save) -> Iterator[str]:
    if not save.accepts_established():
        yield ('not all established packets are seen to be accepted: the bounds hold for each packet in its state, and '
               'for lists of packets only if each packet that passes as new passes as established')
