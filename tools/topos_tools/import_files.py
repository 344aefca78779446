"""Reads the files of an import."""
import os

from .import_ipset import read_sets
from .import_save import Save
from .import_tables import Interfaces
from .import_words import Refused
from .query import NO_FILE, Stopped, plain

LONGEST_RULES = 67_108_864  # bytes of a text of rules that `topos` reads


def read_text(path: str) -> str:
    """Returns the text of a file, or of the standard input for `-`. Bytes that are no UTF-8 stay apart."""
    try:
        with open(0, 'rb', closefd=False) if path == '-' else open(path, 'rb') as file:
            data = file.read(LONGEST_RULES + 1)
    except OSError:
        raise Stopped(f'cannot read {path}', NO_FILE) from None
    if len(data) > LONGEST_RULES:
        raise Refused(f'{path} is longer than {LONGEST_RULES} bytes')
    return data.decode('utf-8', errors='surrogateescape')


def file_name(path: str) -> str:
    """Returns the name of a file for a line of a text."""
    return plain('the input' if path == '-' else os.path.basename(path))


def import_save(text: str, interfaces: str | None, sets: str | None, is_syn_first: bool,
                nft_list: str | None = None) -> Save:
    """Reads a save with the tables in the three files, if they are named."""
    return Save(text, Interfaces(read_text(interfaces)) if interfaces else None,
                read_sets(read_text(sets)) if sets else None, is_syn_first, read_text(nft_list) if nft_list else None)
