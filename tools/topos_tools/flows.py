"""Lists the flows that the rules of a firewall let pass between the hosts of a description."""
from dataclasses import dataclass, field

from .flows_against import Differences, permitted
from .flows_answer import Flows, encoded, flows_of, is_imported, source_of, texts_of
from .flows_dead import DeadRule, Search
from .flows_groups import Groups
from .flows_hosts import interfaces_of_hosts, owned_addresses, parts_of_hosts, proposal
from .flows_list import Listing
from .flows_rules import Rules
from .flows_services import of_list
from .import_files import file_name, import_save, read_text
from .import_report import caveats, remedies, shown
from .import_save import Save
from .import_sets import Numbers
from .query import (PROGRESS, READS_ANSWERS, USAGE, Programs, Stopped, TimedOut, Tool, data_text, keep_inputs,
                    lines_text, need_words, plain, read_bytes, write_text)

USAGE_TEXT = '''usage: topos-flows [--program TOPOS] [..] DESCRIPTION RULES
           lists the flows that RULES, of iptables-save or topos-import, let pass between the hosts of DESCRIPTION, by
           the rules that let them pass, and the rules that no packet meets
       topos-flows --list [--program TOPOS] [..] DESCRIPTION RULES
           lists these flows for a description, each with the lines that let it pass
       topos-flows --against [--program TOPOS] [..] DESCRIPTION RULES
           lists what RULES let pass and DESCRIPTION does not permit, and the other way round
       topos-flows --hosts --interfaces FILE [..] RULES
           proposes hosts: the networks behind interfaces, and the addresses that rules single out
       --interfaces FILE, --sets FILE, --nft-list FILE, --syn   as of topos-import
       --json OUT          writes both lists as JSON too
       --in-part           with --list: lists services that pass in part as flows, too
       --omit SERVICES     leaves services out, as icmp,udp/123, except where all services pass
       --lower             lists what surely passes, in place of what may pass
       the program topos-query is that of TOPOS_QUERY, else the one beside topos, else that of the path
'''
INPUTS = ('--interfaces', '--sets', '--nft-list')
VALUED = {'--program', *INPUTS, '--json', '--omit'}
PLAIN = {'--against', '--hosts', '--in-part', '--list', '--lower', '--syn'}
DIFFERS = 2
NO_SAVE = 'dead rules are looked for in a save alone, and not in a text of topos-import'
MISPRINTED = ('all this is of the rules that iptables printed: it may print rules that nft made as other rules '
              '(--nft-list decides)')


def read_save(text: str, values: dict[str, str], options: set[str]) -> Save | None:
    """Returns the save, or None for a text that `topos-import` wrote."""
    if is_imported(text):
        return None
    interfaces, sets, nft_list = map(values.get, INPUTS)
    return import_save(text, interfaces, sets, '--syn' in options, nft_list)


def propose(rules: str, values: dict[str, str], options: set[str]) -> int:
    if '--interfaces' not in values:
        raise Stopped('--hosts: --interfaces is wanted', USAGE)
    save = read_save(read_text(rules), values, options)
    if save is None or save.context.interfaces is None:
        raise Stopped('--hosts: rules of iptables-save are wanted', USAGE)
    write_text(None, proposal(save, save.context.interfaces))
    return 0


def omitted_services(values: dict[str, str]) -> Numbers:
    try:
        return of_list(values.get('--omit', ''))
    except ValueError:
        raise Stopped(f'--omit: no list of services: {values["--omit"]}', USAGE) from None


def notes_on(save: Save, owned: dict[str, Numbers]) -> list[str]:
    """Returns lines on hosts that rules split, on missing files, and on what the bounds leave out."""
    told = [*remedies(save, save.all_rules()), *caveats(save)]
    unsure = [] if save.is_checked else [MISPRINTED]
    return [*unsure, *parts_of_hosts(save, owned), *map(plain, told)]


@dataclass
class Answers:
    """What topos-query answers on both bounds and on dead rules, as far as it is known when the time is over."""
    upper: Flows
    lower: Flows
    dead: list[DeadRule] = field(default_factory=list)
    stopped: TimedOut | None = None
    missing: str = ''  # what is not known

    def notes(self) -> list[str]:
        return [f'not known, since {self.stopped}: {self.missing}'] if self.stopped else []


def ask_all(programs: Programs, description: bytes, text: str, save: Save | None, omitted: Numbers) -> Answers:
    """Asks about both bounds and about dead rules at once. Without the lower bound everything is in doubt."""
    PROGRESS.doing = 'asking topos-query what both bounds let pass, and which rules no packet meets'
    texts = texts_of(text, save)
    asked, search = [programs.begin_flows(description, encoded(each)) for each in texts], None
    try:
        search = Search(programs, text, save) if save else None
        upper = flows_of(programs.flows_of(asked[0]), texts[0]).without(omitted)
        found = Answers(upper, Flows({}, '') if texts[1:] else upper, missing='what is in doubt, and dead rules')
        try:
            for each, bound in zip(asked[1:], texts[1:]):
                found.lower = flows_of(programs.flows_of(each), bound).without(omitted)
            found.missing = 'dead rules'
            found.dead = search.found() if search else []
        except TimedOut as stopped:
            found.stopped = stopped
        return found
    finally:
        for each in [*asked, *(search.asked if search else [])]:
            each.end()


def list_flows(words: list[str], values: dict[str, str], options: set[str]) -> int:
    programs, description, text = Programs.find(values.get('--program')), read_bytes(words[0]), read_text(words[1])
    hosts = {each['name']: each.get('at', []) for each in programs.table(description).get('host', [])}
    save, owned, omitted = read_save(text, values, options), owned_addresses(hosts), omitted_services(values)
    found = ask_all(programs, description, text, save, omitted)
    is_list = options.isdisjoint({'--against', '--lower'})
    if found.stopped and not (is_list and '--json' not in values):
        raise found.stopped
    listing = Listing(list(hosts), found.lower if '--lower' in options else found.upper, found.lower,
                      '--in-part' in options, interfaces_of_hosts(save, owned), found.dead)
    texts = {rule.line: shown(rule) for rule in save.all_rules()} if save else {}
    rules = Rules(file_name(words[1]), source_of(text) or file_name(words[1]), texts)
    if '--json' in values:
        write_text(values['--json'], data_text({**listing.tree(), 'by_rule': Groups(listing).tree()}))
    if '--against' in options:
        lines = Differences(listing, permitted(programs, description, omitted), omitted, owned).text(rules)
        write_text(None, lines_text(lines or ['equal']))
        return DIFFERS if lines else 0
    notes = [*found.notes(), *(notes_on(save, owned) if save else [NO_SAVE])]
    notes += [f'left out, except where all services pass: {values["--omit"]}'] if omitted else []
    form = listing.text if options & {'--list', '--in-part'} else Groups(listing).text
    write_text(None, form(rules, file_name(words[0]), notes))
    if found.stopped:
        raise found.stopped
    return 0


def main(values: dict[str, str], options: set[str], words: list[str]) -> int:
    if '--hosts' in options:
        need_words(words, 1, 'a file of rules is wanted')
        return propose(words[0], values, options)
    need_words(words, 2, 'a description and a file of rules are wanted')
    keep_inputs([values.get('--json')], [*words, *map(values.get, INPUTS)])
    return list_flows(words, values, options)


TOOL = Tool('topos-flows 1' + READS_ANSWERS, USAGE_TEXT, VALUED, PLAIN, main)
