"""What blkparse prints of blktrace's traces, in its own default form:

      8,0    3        1     0.000000000   697  Q   R 223490 + 8 [sqlite3]

The device, the processor, the line's number, the time in seconds, the process, the action, what is done (R: read, W: write), the first
sector of 512 bytes, how many there are, and the process's name. A request comes by once for each action; one of them is taken."""
import re

from ..access import Access
from ..command import Fault

NAMES_FILES = False
LINE = re.compile(r'(\d+),(\d+)\s+(\d+)\s+(\d+)\s+(\d+\.\d+)\s+(\d+)\s+([A-Z]+|m)\s+(\S+)(?:\s+(.*))?')
SECTORS = re.compile(r'(\d+) \+ (\d+)(?:\s.*)?')
SUMMARY = re.compile(r'\s*(?:CPU\d+ \(.*\):|Total \(.*\):)')
SECTOR = 512


def accesses(lines, tally, name, options):
    for number, line in lines:
        text = line.strip()
        if not text:
            continue
        if SUMMARY.fullmatch(text):
            return
        found = LINE.fullmatch(text)
        if not found:
            raise Fault("here a line of blkparse is wanted, as '8,0 3 1 0.000000000 697 Q R 223490 + 8 [sqlite3]'", name, number)
        action, what = found[7], found[8]
        if action != options.action:
            continue
        if 'D' in what or not ('R' in what or 'W' in what):
            tally.add('discards' if 'D' in what else 'requests that neither read nor write')
            continue
        range_of = SECTORS.fullmatch(found[9] or '')
        if not range_of:
            tally.add('requests with no sectors')
            continue
        first, count = int(range_of[1]), int(range_of[2])
        time = float(found[5]) * 1000
        yield Access(number, 'W' in what, f'{found[1]},{found[2]}', first * SECTOR, count * SECTOR, time, int(found[6]))
