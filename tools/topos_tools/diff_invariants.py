"""The invariants that come, go, or have other entries, and the tables of custom templates."""
from collections.abc import Iterator
from dataclasses import dataclass
from typing import Any

from .diff_words import few, invariant_name
from .report_changes import entries_of, matched, unordered
from .report_model import Source
from .report_words import attribute_words, counted

Table = dict[str, Any]


@dataclass
class InvariantChange:
    """An invariant, its numbers in both descriptions, and the changes of its entries."""
    name: str
    old: int | None
    new: int | None
    entries: list[str]

    def text(self) -> str:
        mark = '+' if self.old is None else '-' if self.new is None else '~'
        return f'{mark} invariant {self.name}: {"; ".join(self.entries)}'


def with_names(invariant: Table, names: dict[str, str]) -> Table:
    """Returns an invariant with the new names of hosts that are only renamed."""
    def named(value: Any) -> Any:
        if isinstance(value, list):
            return [named(each) for each in value]
        return names.get(value, value) if isinstance(value, str) else value
    entries = [{key: named(value) if key in ('host', 'from', 'deny') else value for key, value in entry.items()}
               for entry in invariant.get('assign', [])]
    return {**invariant, 'assign': entries}


def numbers_of(old: Source, new: Source, names: dict[str, str]) -> dict[int, int]:
    """Returns by the numbers of NEW those of the same invariants of OLD: equal, of one title, or of one template."""
    before = [with_names(each, names) for each in old.table.get('invariant', [])]
    after = new.table.get('invariant', [])
    found = matched(before, after)
    for key in (_title_of, _template_of):
        free = [number for number in range(1, len(before) + 1) if number not in found.values()]
        for number in range(1, len(after) + 1):
            wanted = key(new, number)
            same = next((each for each in free if wanted and key(old, each) == wanted), None)
            if number not in found and same is not None:
                free.remove(same)
                found[number] = same
    return found


def _title_of(source: Source, number: int) -> tuple[str, ...]:
    place = source.page.invariant(number)
    title = place.title or place.comment
    return (title, *_template_of(source, number)) if title else ()


def _template_of(source: Source, number: int) -> tuple[str, ...]:
    return (source.network.invariants[number - 1]['template'],)


def invariant_changes(old: Source, new: Source, names: dict[str, str], most: int | None) -> list[InvariantChange]:
    """Lists the invariants that differ, in the order of NEW, and then those that are gone."""
    same, found = numbers_of(old, new, names), []
    for number, table in enumerate(new.table.get('invariant', []), 1):
        if number not in same:
            found.append(InvariantChange(invariant_name(new, number), None, number, [_summary(table)]))
            continue
        before = with_names(old.table['invariant'][same[number] - 1], names)
        entries = list(_entry_changes(before, table, most))
        if entries:
            found.append(InvariantChange(invariant_name(new, number), same[number], number, entries))
    for number, table in enumerate(old.table.get('invariant', []), 1):
        if number not in same.values():
            found.append(InvariantChange(invariant_name(old, number), number, None, [_summary(table)]))
    return found


def _summary(table: Table) -> str:
    entries = len(table.get('assign', []))
    return f'{table["template"]} with {counted(entries, "entry", "entries")}'


def _entry_changes(before: Table, after: Table, most: int | None) -> Iterator[str]:
    """Yields the changes of an invariant: its template, entries that come and go, and their values."""
    if before['template'] != after['template']:
        yield f'template {after["template"]}, was {before["template"]}'
    old, new = entries_of(before), entries_of(after)
    for host in dict.fromkeys([*new, *old]):
        if host not in old:
            yield f'{host} is added ({attribute_words(new[host])})'
        elif host not in new:
            yield f'{host} is removed ({attribute_words(old[host])})'
        else:
            changed = ', '.join(
                _value_change(key, old[host].get(key), new[host].get(key), most)
                for key in dict.fromkeys([*new[host], *old[host]])
                if unordered(old[host].get(key)) != unordered(new[host].get(key)))
            if changed:
                yield f'{host}: {changed}'


def _value_change(key: str, before: Any, after: Any, most: int | None) -> str:
    """Returns the change of a value of an entry; nothing if only the order of a list differs."""
    if isinstance(before or after, list):
        more = [each for each in after or [] if each not in (before or [])]
        less = [each for each in before or [] if each not in (after or [])]
        changes = ('adds', more), ('loses', less)
        return ', '.join(f'{key} {verb} {few(words, most)}' for verb, words in changes if words)
    said = ['absent' if value is None else str(value).lower() if isinstance(value, bool) else str(value)
            for value in (after, before)]
    return f'{key} {said[0]}, was {said[1]}'


def setting_changes(old: Source, new: Source, most: int | None) -> Iterator[str]:
    """Yields the changes of custom templates and of the keys `answers` and `flow`."""
    for key, default in (('answers', 'all'), ('flow', '')):
        before, after = (each.table.get(key, default) for each in (old, new))
        if key == 'answers' and before != after:
            yield f'~ answers = "{after}", was "{before}"'
        if key == 'flow' and (key in old.table) != (key in new.table):
            yield '~ the key flow ' + ('is added' if key in new.table else 'is removed: every flow is asked for')
    tables = [{each['name']: each for each in source.table.get('template', [])} for source in (old, new)]
    for name in dict.fromkeys([*tables[1], *tables[0]]):
        if tables[0].get(name) != tables[1].get(name):
            yield _template_change(name, tables[0].get(name), tables[1].get(name), most)


def _template_change(name: str, before: Table | None, after: Table | None, most: int | None) -> str:
    if before is None or after is None:
        return f'{"+" if after else "-"} template {name}'
    changed = [_value_change(key, _words(before.get(key)), _words(after.get(key)), most)
               for key in dict.fromkeys([*after, *before]) if before.get(key) != after.get(key)]
    return f'~ template {name}: {", ".join(filter(None, changed)) or "in another order"}'


def _words(value: Any) -> Any:
    """Returns the pairs of a template as words."""
    if isinstance(value, list):
        return [' -> '.join(each) if isinstance(each, list) else each for each in value]
    return value
