"""Sentences on a flow: why it is allowed, denied or without answers, and what would have to change."""
from __future__ import annotations

from .why_changes import Changes, said_changed
from .why_network import ANSWERS, Description, counted, joined, say
from .why_reasons import noted, reason

TYPE_CHECKING = False
if TYPE_CHECKING:
    from collections.abc import Iterator

    from .page import Page
    from .why_network import Flow, Table, Thing
    from .why_reasons import Given


def said_services(services: list[str]) -> str:
    return 'as ' + joined(services) if services else 'whole: everything between the two'


def read_notes(description: Description) -> Page | None:
    """Returns the places of a description with the titles and the reasons from its comments, if it has such ones."""
    if b'topos: ' not in description.text:  # as every such comment has it
        return None
    from .page import read_page
    return read_page(description.text, description.table)


class Report:
    """The sentences on a flow, by its answer of `topos-query why`."""

    def __init__(self, description: Description, flow: Flow, answer: Table) -> None:
        self.description, self.flow, self.answer = description, flow, answer
        self.lines: list[str] = []
        self.notes = read_notes(description)
        self.is_asked = answer['asked']

    def say(self, line: str) -> None:
        self.lines.append(line)

    def whole(self) -> list[str]:
        self.say(f'{say(self.flow)} is {self.asking()}.')
        self.lines += noted(self.notes.flow(*self.flow)) if self.notes else []
        if self.answer['permitted']:
            self.allowed(self.description, self.answer)
        elif self.answer['denied_by']:
            self.denied()
        else:
            listed = self.description.listed(self.flow)
            self.allowed(listed, listed.why(self.flow))
            others = self.description.network.changed(listed.network, {self.flow})
            self.lines += [said_changed(listed.network, others).strip()] if others else []
        back = self.flow[::-1]
        if not self.answer['permitted'] and self.description.network.is_allowed((*back, ANSWERS)):
            self.say(f'Answers of {say(back)} pass all the same.')
        return self.lines

    def asking(self) -> str:
        services = self.answer['services']
        if self.is_asked and not services and self.description.flows is None:
            return 'asked for, as every flow is: the file has no key flow'
        return f'asked for, {said_services(services)}' if self.is_asked else 'not asked for'

    def denied(self) -> None:
        reasons = self.answer['denied_by']
        count = counted(len(reasons), 'invariant')
        self.say(f'It is denied by {count}:' if self.is_asked else
                 f'Beside the flows that are allowed it is denied by {count}:')
        self.explain(self.description, self.flow, reasons, 'allow it')

    def explain(self, description: Description, thing: Thing, reasons: list[Given], effect: str) -> None:
        """The reasons, and changes with which the thing is allowed."""
        flows = {tuple(flow) for given in reasons for flow in given['flows']} if thing[2:] else set()
        answers = {flow for flow in flows if not description.network.is_allowed(flow)}
        for given in reasons:
            first, *others = reason(description, given, answers)
            notes = noted(self.notes.invariant(given['invariant'])) if self.notes else []
            self.lines += [first, *notes, *others]
        is_listed = description is not self.description or self.is_asked
        told = Changes(description, thing, reasons, is_listed).told()
        if told:
            self.say(f'Changes that {effect}{"" if self.is_asked else ", if it is listed"}:')
            self.lines += told
        else:
            self.say(f'None of the changes that were tried would {effect}.')

    def allowed(self, description: Description, answer: Table) -> None:
        """Of a flow that is allowed in this description, which has it listed."""
        state = 'It is allowed, and its answers may' if self.is_asked else (
            'If it were listed it would be allowed, and its answers might')
        if answer['answered']:
            self.say(f'{state} pass.')
            return
        by_file = '' if description.has_answers() else ': the file says answers = "none"'
        self.say(f'{state} not pass{by_file}.')
        self.no_answers(description, answer)
        back = self.flow[::-1]
        if description.network.covers_answers(self.flow):
            self.say(f'{say(back)} is allowed by itself, and lets all of TCP pass.')
        elif description.network.carries_tcp(self.flow):
            self.say('Over TCP nothing works without answers.')

    def no_answers(self, description: Description, answer: Table) -> None:
        also, effect = '', 'let its answers pass'
        if not description.has_answers():
            description = description.copy(answers='all')
            answer = description.why(self.flow)
            if answer['answered']:
                self.say('With answers = "all" they would pass.')
                return
            also, effect = 'With answers = "all" they would not pass either. ', f'{effect} with answers = "all"'
        reasons = answer['answers_denied_by']
        self.say(f'{also}Answers count as flows, and are denied by {counted(len(reasons), "invariant")}:')
        self.explain(description, (*self.flow, ANSWERS), reasons, effect)


def silent(description: Description) -> Iterator[tuple[Flow, str]]:
    """The flows over which TCP is asked for and cannot work, and by what each gets no answers."""
    network = description.network
    for flow in network.allowed():
        answers = (*flow, ANSWERS)
        if network.carries_tcp(flow) and not network.is_allowed(answers) and not network.covers_answers(flow):
            yield flow, network.by(answers) if description.has_answers() else 'answers = "none"'


def tcp_lines(description: Description) -> list[str]:
    network = description.network
    return [f'{say(flow)} {" ".join(network.flows[flow]["services"]) or "everything"}: no answers, by {by}'
            for flow, by in silent(description)]
