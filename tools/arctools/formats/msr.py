"""The block traces of Microsoft Research Cambridge, as SNIA's IOTTA repository has them: CSV with the fields
Timestamp,Hostname,DiskNumber,Type,Offset,Size,ResponseTime. A timestamp is in steps of 100 ns."""
from ..access import Access
from ..command import Fault

NAMES_FILES = False
HEADER = 'timestamp,hostname,disknumber,type,offset,size'


def accesses(lines, tally, name, options):
    for number, line in lines:
        if not line.strip() or (number == 1 and line.lower().replace(' ', '').startswith(HEADER)):
            continue
        fields = [field.strip() for field in line.split(',')]
        if len(fields) != 7:
            raise Fault(f'here seven fields with commas between are wanted (Timestamp,Hostname,DiskNumber,Type,Offset,Size,ResponseTime), '
                        f'and there are {len(fields)}', name, number)
        stamp, host, disk, kind, offset, size = fields[:6]
        if kind.lower() not in ('read', 'write'):
            raise Fault(f'the type is {kind!r}, and Read or Write is wanted', name, number)
        for what, field in (('timestamp', stamp), ('offset', offset), ('size', size)):
            if not (field.isascii() and field.isdigit()):
                raise Fault(f'the {what} is {field!r}, and a number is wanted', name, number)
        yield Access(number, kind.lower() == 'write', f'{host}.{disk}', int(offset), int(size), int(stamp) / 10_000, 0)
