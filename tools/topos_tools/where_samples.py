"""Sentences on refusals of descriptions, and samples of what a description may say, from where_advice.toml."""
from typing import Any

from .where_advice import WORDS

NAME, ADDRESS = '<name>', '<address>'  # for a new name and a new address
SAMPLES, TOLD = WORDS['samples'], WORDS['description']
TEMPLATES: list[str] = SAMPLES['templates']
TABLES: dict[str, list[dict[str, Any]]] = SAMPLES['tables']
TABLES['assign'][:0] = [{}, *({'kind': word} for word in SAMPLES['kinds'])]
A, ROWS = TOLD['a'], TOLD['rows']
GENERAL = {int(number): said for number, said in TOLD.items() if number.isdigit()}
PATHS = {6: ['topos'], 8: ['name'], 9: ['name'], 12: ['at', 'rest'], 13: ['rest'], 15: ['template'], 16: ['host']}


def values_of(key: str) -> list[Any]:
    """Returns the values of a key in all samples."""
    found = [table[key] for tables in TABLES.values() for table in tables if key in table]
    found += SAMPLES['values'].get(key, [])
    return [value for place, value in enumerate(found) if value not in found[:place]]


def known_keys() -> list[str]:
    """Returns the keys of all samples."""
    tables = [table for tables in TABLES.values() for table in tables]
    return list(dict.fromkeys([key for table in [*tables, SAMPLES['values']] for key in table]))
