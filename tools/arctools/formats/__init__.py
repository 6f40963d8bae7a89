"""The formats of logs. Each module has `accesses(lines, tally, name, options)`: the accesses of numbered lines, and in `tally` what is none."""
from . import blkparse, fio, msr, plain, strace

FORMATS = {'strace': strace, 'fio': fio, 'blkparse': blkparse, 'msr': msr, 'list': plain}
