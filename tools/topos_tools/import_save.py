"""Reads what `iptables-save` prints. The table filter is translated, and the other tables are reported."""
import graphlib
import re
from dataclasses import dataclass, field, replace

from .import_nat import written_receivers
from .import_nft import is_of_nft, misread_lines
from .import_ipset import Set
from .import_options import Context, RuleReader
from .import_pieces import ESTABLISHED, NEW, Action, Piece, Rule
from .import_sets import ALL_ADDRESSES
from .import_table import SPELLINGS
from .import_tables import Interfaces
from .import_words import Refused, Word, words_of
from .query import PROGRESS, TimedOut

Given = tuple[int, str, list[Word]]  # number, text and words of a rule

BUILT_IN = ('INPUT', 'FORWARD', 'OUTPUT')
TARGET_FLAGS = ('-j', '--jump', '-g', '--goto')
COUNTS = re.compile(r'\[\d+:\d+\]')
CHANGED_SET = re.compile(r'--(?:add|del|map)-set (\S+)')
WARNING = re.compile("# (?:Warning|Table `([a-z]+)' (?:is|contains) incompatible)")
EACH = 1000  # lines between those that are shown
MISREAD = 'another rule than nft has'
MARK = '# topos-import '  # the head of a text that `topos-import` wrote


def words_at(number: int, line: str) -> list[Word]:
    """Returns the words of a rule, without the counts before it."""
    try:
        words = words_of(line)
    except Refused as refused:
        raise Refused(f'line {number}: {refused}') from None
    return words[1:] if words and COUNTS.fullmatch(words[0].text) else words


@dataclass
class OtherRule:
    """A rule, or a policy, of another table."""
    line: int
    table: str
    chain: str
    target: str
    text: str

    def changes_tracking(self) -> bool:
        """Whether packets are exempt from tracking, or tracked in a zone, in which their answers may not be."""
        return self.target == 'NOTRACK' or self.target == 'CT' and ('--notrack' in self.text or '--zone' in self.text)


@dataclass
class Filter:
    """The lines of a table filter."""
    policies: dict[str, str] = field(default_factory=lambda: dict.fromkeys(BUILT_IN, 'ACCEPT'))
    chains: dict[str, list[Given]] = field(default_factory=lambda: {each: [] for each in BUILT_IN})
    declared: set[str] = field(default_factory=set)


class Tables:
    """Reads the lines of a save by tables."""

    def __init__(self, text: str) -> None:
        self.others: list[OtherRule] = []
        self.names: set[str] = set()
        self.unread: set[str | None] = set()  # tables that iptables cannot list, or not whole
        self.notes: list[str] = []
        self.makers: set[bool] = set()  # whether the back end nft made the save, if it says so
        self.filters: list[Filter] = []
        self.table = ''
        for number, line in enumerate(text.split('\n'), 1):
            self.read_line(number, line.strip(' \t\r'))
        if self.table:
            raise Refused(f'the table {self.table} has no COMMIT: the text is cut off')
        if not self.filters:
            raise Refused('; '.join(['there is no table filter', *self.notes]))

    def read_line(self, number: int, line: str) -> None:
        if line.startswith('#'):
            self.read_remark(number, line)
        elif line.startswith('*'):
            self.begin_table(number, line[1:].strip())
        elif line == 'COMMIT':
            self.table = ''
        elif line and not self.table:
            raise Refused(f'line {number}: not in a table: {line[:100]!r}')
        elif line and self.table != 'filter':
            self.read_other(number, line)
        elif line.startswith(':'):
            self.read_chain(number, line[1:].split())
        elif line:
            self.read_filter(number, line)

    def read_remark(self, number: int, line: str) -> None:
        if 'ip6tables-save' in line:
            raise Refused(f'line {number}: rules for IPv6')
        is_made = is_of_nft(line)
        self.makers |= set() if is_made is None else {is_made}
        warning = WARNING.match(line)
        if warning:
            self.notes.append(f'line {number}: {line[2:]}')
            self.unread.add(warning[1])

    def begin_table(self, number: int, table: str) -> None:
        if self.table:
            raise Refused(f'line {number}: the table {self.table} has no COMMIT')
        self.table = table or '?'
        self.names.add(self.table)
        if table == 'filter':
            if self.filters:
                self.notes.append(f'line {number}: this table filter replaces the one above')
            self.filters.append(Filter())

    def read_other(self, number: int, line: str) -> None:
        if line.startswith(':'):
            words = line[1:].split()
            if words[1:2] == ['DROP']:
                self.others.append(OtherRule(number, self.table, words[0], 'policy DROP', line))
            return
        given = words_at(number, line)
        targets = [word.text for flag, word in zip(given, given[1:])
                   if not flag.is_quoted and flag.text in TARGET_FLAGS]
        if targets and len(given) > 1:
            self.others.append(OtherRule(number, self.table, given[1].text, targets[-1], line))

    def read_chain(self, number: int, words: list[str]) -> None:
        table = self.filters[-1]
        if len(words) < 2 or words[0] in table.declared:
            raise Refused(f'line {number}: a chain line without a policy, or for a chain that has one')
        name, policy = words[:2]
        table.declared.add(name)
        if name not in BUILT_IN:
            table.chains[name] = []
        elif policy in ('ACCEPT', 'DROP'):
            table.policies[name] = policy
        else:
            raise Refused(f'line {number}: the policy {policy}')

    def read_filter(self, number: int, line: str) -> None:
        table = self.filters[-1]
        words = words_at(number, line)
        if len(words) < 2 or SPELLINGS.get(words[0].text, words[0].text) != '-A':
            raise Refused(f'line {number}: no line of a save: {line[:100]!r}')
        if words[1].text not in table.chains:
            raise Refused(f'line {number}: no line above has the chain {words[1].text}')
        table.chains[words[1].text].append((number, line, words[2:]))


class Save:
    """A save: the rules of each chain that `FORWARD` leads to, in the order in which they are reached."""

    def __init__(self, text: str, interfaces: Interfaces | None = None, sets: dict[str, Set] | None = None,
                 is_syn_first: bool = False, nft_list: str | None = None) -> None:
        tables = Tables(text)
        self.others, self.notes, table = tables.others, tables.notes, tables.filters[-1]
        self.policy = table.policies['FORWARD']
        changed = set(CHANGED_SET.findall(text))
        written = written_receivers((each.target, each.text) for each in self.others if each.table == 'nat')
        self.context = Context(set(table.chains) - set(BUILT_IN), interfaces,
                               {name: replace(each, cause='a rule changes it') if name in changed else each
                                for name, each in (sets or {}).items()},
                               written if 'nat' in tables.names - tables.unread else ALL_ADDRESSES,
                               'raw' in tables.unread or any(each.changes_tracking() for each in self.others),
                               is_syn_first)
        self.is_checked = tables.makers == {False} or nft_list is not None  # whether each rule is as it is printed
        lines = {chain: [number for number, _, _ in rules] for chain, rules in table.chains.items()}
        self.misread = set(misread_lines(nft_list, lines) if nft_list is not None else ())
        self.rules: dict[str, list[Rule]] = {}
        try:
            self.read_rules(table.chains, {})
        except TimedOut as stopped:
            stopped.part = self
            raise
        self.left = {chain: len(rules) for chain, rules in table.chains.items() if chain not in self.rules}

    def read_rules(self, chains: dict[str, list[Given]], known: dict[int, Rule]) -> None:
        """Reads the rules of `FORWARD`, and of each chain that a rule leads to. Some are known by their lines."""
        waiting = ['FORWARD']
        while waiting:
            chain = waiting.pop()
            if chain in self.rules:
                continue
            rules: list[Rule] = []
            self.rules[chain] = rules
            for given in chains[chain]:
                if given[0] % EACH == 0:
                    PROGRESS.doing = f'reading line {given[0]}'
                rules.append(known.get(given[0]) or self.read_rule(given))
            waiting += reversed(self.targets(chain))

    def read_rule(self, given: Given) -> Rule:
        """Reads a rule. Nothing is known of one that iptables may have printed as another one."""
        rule = RuleReader(self.context, *given).read()
        if rule.line not in self.misread:
            return rule
        return Rule(rule.line, rule.text, [Piece(doubts=(MISREAD,))], Action.UNKNOWN, rule.target or 'none',
                    is_partial=True)

    def targets(self, chain: str) -> list[str]:
        """Lists the chains to which the rules of a chain lead, each once."""
        jumps = (Action.JUMP, Action.GOTO)
        return list(dict.fromkeys(rule.target for rule in self.rules[chain] if rule.action in jumps))

    def innermost_first(self) -> list[str]:
        """Lists the chains with each chain behind those that it leads to. Refuses a cycle."""
        try:
            return list(graphlib.TopologicalSorter({chain: self.targets(chain) for chain in self.rules}).static_order())
        except graphlib.CycleError as error:
            raise Refused('the chains form a cycle: ' + ' '.join(error.args[1])) from None

    def all_rules(self) -> list[Rule]:
        return sorted((rule for rules in self.rules.values() for rule in rules), key=lambda rule: rule.line)

    def accepts_established(self) -> bool:
        """Whether every established packet is seen to be accepted: no rule above may drop one, or return."""
        found: dict[str, Action | None] = {}
        for chain in self.innermost_first():
            found[chain] = self.action_on_established(chain, found)
        return (Action(self.policy) if found['FORWARD'] is Action.CONTINUE else found['FORWARD']) is Action.ACCEPT

    def action_on_established(self, chain: str, found: dict[str, Action | None]) -> Action | None:
        """Returns whether a chain accepts all established packets, or continues with those it does not accept."""
        may_return = False
        for rule in self.rules[chain]:
            if all(piece.states == {NEW} for piece in rule.pieces):
                continue
            action = found[rule.target] if rule.action is Action.JUMP else rule.action
            is_of_all = any(piece.covers(ALL_ESTABLISHED) for piece in rule.sure_pieces())
            if action is Action.ACCEPT and is_of_all and not may_return:
                return Action.ACCEPT
            if action is Action.RETURN and chain != 'FORWARD':
                may_return = True
            elif action not in (Action.ACCEPT, Action.CONTINUE):
                return None
        return Action.CONTINUE


ALL_ESTABLISHED = Piece(states=frozenset({ESTABLISHED}))
