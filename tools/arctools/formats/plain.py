"""A plain list: on each line an offset and a length in bytes, with a space or a comma between, and `w` or `write` behind them for a write."""
import re

from ..access import Access
from ..command import Fault

NAMES_FILES = False
LINE = re.compile(r'(\d+)[ \t]*[, \t][ \t]*(\d+)(?:[ \t]*[, \t][ \t]*(r|w|read|write))?', re.IGNORECASE)


def accesses(lines, tally, name, options):
    for number, line in lines:
        text = line.strip()
        if not text or text.startswith('#'):
            continue
        found = LINE.fullmatch(text)
        if not found:
            raise Fault("here an offset and a length in bytes are wanted, as '8192 4096', and maybe 'read' or 'write'", name, number)
        is_write = (found[3] or 'r').lower().startswith('w')
        yield Access(number, is_write, 'list', int(found[1]), int(found[2]), None, 0)
