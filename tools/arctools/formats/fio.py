"""The logs that fio writes for write_iolog and reads for read_iolog, version 2 (FILE ACTION [OFFSET LENGTH]) and version 3 (a time in
front of each line)."""
import re

from ..access import Access
from ..command import Fault

NAMES_FILES = True
HEAD = re.compile(r'fio version (\d+) iolog')
OF_FILES = ('add', 'open', 'close')
OF_RANGES = ('read', 'write', 'trim')
OTHER = ('wait', 'sync', 'datasync', 'syncfs')


def accesses(lines, tally, name, options):
    version = None
    waited = 0.0
    for number, line in lines:
        if version is None:
            version = version_of(line, name, number)
            continue
        fields = line.split()
        if not fields:
            continue
        time = None
        if version == 3:
            time = amount(fields.pop(0), 'time', name, number) / 1000
        if len(fields) < 2:
            raise Fault('here a file and an action are wanted', name, number)
        file, action = fields[:2]
        if action == 'wait' and version == 2:
            waited += amount(fields[2] if len(fields) > 2 else '', 'time to wait', name, number) / 1000
        elif action in OF_RANGES:
            if len(fields) != 4:
                raise Fault(f"'{action}' wants an offset and a length behind it", name, number)
            offset, length = (amount(field, what, name, number) for field, what in zip(fields[2:], ('offset', 'length')))
            if action == 'trim':
                tally.add('trims', length)
            else:
                yield Access(number, action == 'write', file, offset, length, waited if time is None else time, 0)
        elif action in OTHER:
            tally.add(f"lines '{action}'")
        elif action not in OF_FILES:
            raise Fault(f"'{action}' is no action of an iolog", name, number)
    if version is None:
        raise Fault("the log is empty, and 'fio version 2 iolog' or 'fio version 3 iolog' is wanted", name)


def version_of(line, name, number):
    head = HEAD.fullmatch(line.strip())
    if not head:
        raise Fault("the log begins with 'fio version 2 iolog' or 'fio version 3 iolog', and this line doesn't", name, number)
    if head[1] not in ('2', '3'):
        raise Fault(f'this is version {head[1]} of an iolog, and only 2 and 3 are read here', name, number)
    return int(head[1])


def amount(field, what, name, number):
    if not (field.isascii() and field.isdigit()):
        raise Fault(f'the {what} is {field!r}, and a number is wanted', name, number)
    return int(field)
