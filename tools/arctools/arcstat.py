"""tools/arcstat: a line of counts every so many reads, as arcstat of OpenZFS prints one every so many seconds."""
import argparse
import os

from . import report, sizes
from .command import Fault, end_with, program
from .replay import GHOST_MFU, GHOST_MRU, HIT_MFU, HIT_MRU, Replay
from .trace import arc_of

HELP = """\
a whole example:
  tools/import strace log --only '*.db' -o my
  tools/arcstat my.trace --every 1000

  read, hit, miss, miss%  the reads of this line, and how many of them were not cached
  mru, mfu                hits of recently and of frequently used blocks
  mrug, mfug              misses of blocks that were ghosts of the one or the other list
  arcsz, c, p             the bytes that are cached, that may be, and that are to be recently used ones, at the line's end

Each read of a trace is asked for, so there are no columns of prefetched reads: dmis would be miss. The last line is of the whole run."""

HEADS = ['upto', 'read', 'hit', 'miss', 'miss%', 'mru', 'mfu', 'mrug', 'mfug', 'arcsz', 'c', 'p']
WIDTHS = [9, 8, 8, 8, 6, 8, 8, 8, 8, 9, 9, 9]


def line_of(timeline, first, last):
    """The counts of the reads from `first` on that stand in front of `last`."""
    found = timeline.found[first:last]
    counts = [found.count(kind) for kind in (HIT_MRU, HIT_MFU, GHOST_MRU, GHOST_MFU)]
    reads, hits = last - first, counts[0] + counts[1]
    cached = sum(timeline.sizes[word][last - 1] for word in ('anon', 'mru', 'mfu'))
    amounts = [sizes.text(amount) for amount in (cached, timeline.c[last - 1], timeline.p[last - 1])]
    return [f'{reads:,}', f'{hits:,}', f'{reads - hits:,}', f'{(reads - hits) / reads:.1%}', *(f'{count:,}' for count in counts), *amounts]


def show(fields):
    print(' '.join(f'{field:>{width}}' for field, width in zip(fields, WIDTHS)))


def report_of(given):
    """The report that is given, or that of a run made now."""
    if given.report:
        return report.of_file(given.report)
    pool = given.pool or os.path.splitext(given.trace)[0] + '.pool'
    if not os.path.exists(pool):
        raise Fault(f'there is no pool {pool}; --pool names the file that the trace reads, --report a report that was kept')
    return report.of_run(given.trace, pool, program(given.program))


def add_source(parser):
    """The options of what is looked at, which `view` has too."""
    parser.add_argument('trace', metavar='TRACE', help='the trace; beside a report its arc line alone is read')
    parser.add_argument('--report', metavar='FILE', help='a report that `run --events` wrote, or - (else the program is run now)')
    parser.add_argument('--pool', metavar='FILE', help='the pool that the trace reads (NAME.pool beside NAME.trace)')
    parser.add_argument('--program', metavar='FILE', help='the program (crates/arc_tool/out/arc_tool, or what ARC_TOOL names)')


def run():
    parser = argparse.ArgumentParser(prog='arcstat', description='Tells what a run did every so many reads.', epilog=HELP,
                                     formatter_class=argparse.RawDescriptionHelpFormatter)
    add_source(parser)
    parser.add_argument('--every', type=int, metavar='N', help='a line for so many reads (a twentieth of them)')
    given = parser.parse_args()
    if given.every is not None and given.every < 1:
        parser.error('--every is from 1 on')
    timeline = Replay(arc_of(given.trace), report_of(given)).all
    every = given.every or max(1, -(-len(timeline) // 20))
    show(HEADS)
    for first in range(0, len(timeline), every):
        last = min(first + every, len(timeline))
        show([f'{last:,}', *line_of(timeline, first, last)])
    if len(timeline):
        show(['all', *line_of(timeline, 0, len(timeline))])
    else:
        print('the run has no reads')


def main():
    end_with(run)
