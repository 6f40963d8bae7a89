"""tools/curve: hits by cache size, ours beside LRU and Belady's optimal policy."""
import argparse
import collections
import concurrent.futures
import csv
import multiprocessing
import os
import shutil
import subprocess
import tempfile
from typing import NamedTuple

from . import plot, policies, sizes
from .command import Fault, Progress, end_with, program, say, whole
from .trace import Pages, Trace, counted_lines

SMALLEST, LARGEST = 4096, 1 << 32  # of a cache, in bytes
MOST_PAGES = 65_536
POLICIES = {'lru': ('LRU', policies.lru), 'belady': ('Belady', policies.belady)}

HELP = """\
a whole example:
  tools/import strace log --only '*.db' -o my
  tools/curve my.trace --svg my.svg --csv my.csv

The table has a line for each size: the hits of each cache, their part of all reads, and the bytes that ours has to read. The pool is the file
beside the trace, my.pool, where --pool names no other. A list of pages (a name that ends with .pages) is run by the published ARC, `paper C`,
whose sizes are counts of pages. Belady's policy knows what will be read: where all blocks have one size, no cache has more hits. All sizes are
run at the same time, on all processors. A size is that of all shards together; a trace of several callers gives other counts at each run."""


class Point(NamedTuple):
    """What one cache of one size does."""

    hits: int
    bytes_hit: int
    refused: int = 0


class Subject:
    """What is run at each size: the blocks that are read, in their order, and the lines that a run of the program is given."""

    def __init__(self, name, tool):
        self.name, self.tool = name, tool
        self.text = tempfile.NamedTemporaryFile('w', prefix='curve.', encoding='utf-8')

    def keep(self, lines):
        """Keeps the lines that all runs have in common, for each run to copy."""
        self.text.writelines(f'{line}\n' for line in lines)
        self.text.flush()

    def run(self, words, front=''):
        """Begins a run of the program on a first line and the lines that were kept."""
        source = tempfile.TemporaryFile()
        source.write(front.encode())
        with open(self.text.name, 'rb') as text:
            shutil.copyfileobj(text, source)
        source.seek(0)
        with source:
            return subprocess.Popen([self.tool, *words], stdin=source, stdout=subprocess.PIPE, stderr=subprocess.PIPE, text=True)

    def failed(self, size, command, told):
        return Fault(f'with a cache of {self.spelled(size)} the program ended with status {command.returncode}: {told.strip() or "it said nothing"}', self.name)

    def distinct(self):
        return set(self.reads)


class OfTrace(Subject):
    """A trace over its pool, run by `arc_tool POOL - run`."""

    ours, what = 'ours', 'cache'

    def __init__(self, name, pool, tool):
        super().__init__(name, tool)
        self.trace = Trace(name)
        self.reads, self.sizes = self.trace.reads, self.trace.sizes()
        self.pool = pool or os.path.splitext(name.removesuffix('.gz'))[0] + '.pool'
        if not os.path.exists(self.pool):
            raise Fault(f'there is no pool {self.pool}; --pool names the file that the trace reads')
        self.smallest, self.largest, self.step = SMALLEST * self.trace.shards, LARGEST, 512 * self.trace.shards
        lines = counted_lines(name)
        next(lines)
        self.keep(lines)
        if self.trace.arc[0] > 1:
            say('the trace has several callers: ours may count otherwise at another run, and the policies take its lines in their order')

    spelled = staticmethod(sizes.text)
    parse = staticmethod(sizes.parse)

    def told(self):
        total = sum(self.sizes[block] for block in self.distinct())
        return f'{self.name}: {len(self.reads):,} reads of {len(self.distinct()):,} blocks, {sizes.text(total)}'

    def point(self, size):
        """Runs the program with this capacity. Its replies are counted as they come, and compared with its own counts."""
        with self.run([self.pool, '-', 'run'], self.trace.arc_line(size // self.trace.shards) + '\n') as command:
            point, counted = self.counts(command.stdout)
            told = command.stderr.read()
        if command.returncode not in (0, 1) or counted is None:
            raise self.failed(size, command, told)
        if counted != point.hits:
            raise Fault(f'with a cache of {self.spelled(size)} the report counts {counted:,} hits, and its replies have {point.hits:,}', self.name)
        return point

    def counts(self, report):
        """What the replies of a report tell, and the hits that its count line has."""
        hits = bytes_hit = refused = 0
        counted = None
        due = zip(self.trace.reading, self.reads)
        operation, block = next(due, (None, None))
        for line in report:
            if line.startswith('count '):
                counted = int(line.split()[2])
            number, word, *rest = line.split(' ')
            if number != str(operation):
                continue
            if word == 'refused':
                refused += 1
            elif rest[0].rstrip() == 'hit':
                hits += 1
                bytes_hit += self.sizes[block]
            operation, block = next(due, (None, None))
        return Point(hits, bytes_hit, refused), counted


class OfPages(Subject):
    """A list of pages, run by `arc_tool - - paper C`."""

    ours, what = 'ARC', 'pages'

    def __init__(self, name, tool):
        super().__init__(name, tool)
        pages = Pages(name)
        self.reads, self.sizes = pages.reads, [1] * pages.pages
        self.smallest, self.largest, self.step = 1, MOST_PAGES, 1
        self.keep(counted_lines(name))

    @staticmethod
    def spelled(size):
        return f'{size:,}'

    @staticmethod
    def parse(text):
        return int(text) if text.isascii() and text.isdigit() else None

    def told(self):
        return f'{self.name}: {len(self.reads):,} requests of {len(self.sizes):,} pages'

    def point(self, size):
        with self.run(['-', '-', 'paper', str(size)]) as command:
            last = collections.deque(command.stdout, maxlen=2)
            told = command.stderr.read()
        if command.returncode != 0 or len(last) < 2:
            raise self.failed(size, command, told)
        hits = int(last[0].split()[-1])
        return Point(hits, hits)


# ---- the sizes

def sizes_of(subject, given):
    """The sizes that are asked for: a list, or a range; else those from which something is to be seen."""
    if given.sizes and '..' not in given.sizes:
        return sorted({checked(subject, text) for text in given.sizes.split(',')})
    if given.sizes:
        least, most = (checked(subject, text) for text in given.sizes.split('..', 1))
    else:
        blocks = [subject.sizes[block] for block in subject.distinct()]
        most = min(max(sum(blocks), subject.smallest), subject.largest)
        least = min(max(most // 64, max(blocks, default=1), subject.smallest), most)
    return round_sizes(least, most) if given.points is None else spread(least, most, given.points, subject)


def checked(subject, text):
    size = subject.parse(text)
    if size is None or not subject.smallest <= size <= subject.largest:
        raise Fault(f'--sizes: {text!r} is no size from {subject.spelled(subject.smallest)} to {subject.spelled(subject.largest)}')
    return size


def round_sizes(least, most):
    """Both ends, and between them each power of two and one and a half times it."""
    between = (part << power for power in range(33) for part in (2, 3))
    return sorted({least, most} | {size for size in between if least < size < most})


def spread(least, most, points, subject):
    """So many sizes from the least to the most, each the same times the one before, rounded to what the cache can have."""
    between = (least * (most / least) ** (i / max(points - 1, 1)) for i in range(points))
    rounded = {max(subject.smallest, round(size) // subject.step * subject.step) for size in between}
    return sorted(size for size in rounded | {most} if size <= subject.largest)


# ---- all runs

subject = None  # what the processes of `points` share, set before they are made


def point_of(job):
    policy, size = job
    return job, subject.point(size) if policy == 'ours' else Point(*POLICIES[policy][1](subject.reads, subject.sizes, size))


def points(chosen, jobs):
    """What each policy does at each size. The runs are spread over so many processes, the largest sizes first."""
    global subject
    subject = chosen[0]
    work = [(policy, size) for size in sorted(chosen[1], reverse=True) for policy in ['ours', *POLICIES]]
    progress = Progress(f'{len(work)} runs', len(work))
    found = {}
    with concurrent.futures.ProcessPoolExecutor(jobs, multiprocessing.get_context('fork')) as pool:
        try:
            for ended in concurrent.futures.as_completed([pool.submit(point_of, job) for job in work]):
                job, point = ended.result()
                found[job] = point
                progress.at(len(found))
        except BaseException:
            pool.shutdown(cancel_futures=True)
            raise
        finally:
            progress.end()
    return found


# ---- what is printed and written

def part(hits, reads):
    return hits / reads if reads else 0.0


def rows(subject, chosen, found):
    """A row for each policy and size: the size, the policy, hits, misses, their part, and the bytes of both."""
    total = sum(subject.sizes[block] for block in subject.reads)
    for size in chosen:
        for policy in ['ours', *POLICIES]:
            point = found[policy, size]
            reads = len(subject.reads) - point.refused
            yield size, policy, point.hits, reads - point.hits, part(point.hits, reads), point.bytes_hit, total - point.bytes_hit, point.refused


def print_table(subject, chosen, found):
    print(subject.told())
    of_bytes = isinstance(subject, OfTrace)
    heads = [subject.what, 'hits', 'misses', subject.ours, *(name for name, _ in POLICIES.values()), *(['hit', 'missed'] if of_bytes else [])]
    table = [heads]
    by_size = {}
    for row in rows(subject, chosen, found):
        by_size.setdefault(row[0], []).append(row)
    for size, (ours, *others) in by_size.items():
        line = [subject.spelled(size), f'{ours[2]:,}', f'{ours[3]:,}', *(f'{row[4]:.1%}' for row in [ours, *others])]
        table.append(line + ([sizes.text(ours[5]), sizes.text(ours[6])] if of_bytes else []))
    widths = [max(len(line[i]) for line in table) for i in range(len(heads))]
    for line in table:
        print('  '.join(f'{field:>{width}}' for field, width in zip(line, widths)))
    if refused := max(row[7] for lines in by_size.values() for row in lines):
        print(f'{refused:,} reads were refused, as the report tells; they are no hits and no misses')


def write_csv(name, subject, chosen, found):
    with whole(name) as out:
        table = csv.writer(out, lineterminator='\n')
        table.writerow(['size', 'policy', 'hits', 'misses', 'hit_ratio', 'bytes_hit', 'bytes_missed'] if isinstance(subject, OfTrace) else ['pages', 'policy', 'hits', 'misses', 'hit_ratio'])
        for row in rows(subject, chosen, found):
            size, policy, hits, misses, ratio, bytes_hit, bytes_missed, _ = row
            table.writerow([size, policy, hits, misses, f'{ratio:.6f}', *([bytes_hit, bytes_missed] if isinstance(subject, OfTrace) else [])])


def write_plot(name, subject, chosen, found):
    names = {'ours': subject.ours, **{policy: label for policy, (label, _) in POLICIES.items()}}
    series = {label: [] for label in names.values()}
    for size, policy, _, _, ratio, *_ in rows(subject, chosen, found):
        series[names[policy]].append((size, ratio))
    with whole(name) as out:
        out.write(plot.curve(series, subject.told(), 'size of the cache' if isinstance(subject, OfTrace) else 'pages in the cache', subject.spelled))


def options():
    parser = argparse.ArgumentParser(prog='curve', description='Tells the hits of a trace or a list of pages by the size of the cache.', epilog=HELP,
                                     formatter_class=argparse.RawDescriptionHelpFormatter)
    parser.add_argument('source', metavar='SOURCE', help='a trace, or a list of pages where its name ends with .pages or .pages.gz')
    parser.add_argument('--pool', metavar='FILE', help='the pool that the trace reads (NAME.pool beside NAME.trace)')
    parser.add_argument('--pages', action='store_true', help='the source is a list of pages, whatever its name')
    parser.add_argument('--sizes', metavar='SIZES', help='1M,2M,4M, or a range 1M..64M (from a 64th of what is read to all of it)')
    parser.add_argument('--points', type=int, metavar='N', help='so many sizes between the ends (powers of two, and one and a half times those)')
    parser.add_argument('--csv', metavar='FILE', help='writes a row for each policy and size')
    parser.add_argument('--svg', metavar='FILE', help='writes a picture')
    parser.add_argument('--jobs', type=int, default=os.cpu_count(), metavar='N', help='so many runs at a time (one for each processor)')
    parser.add_argument('--program', metavar='FILE', help='the program (crates/arc_tool/out/arc_tool, or what ARC_TOOL names)')
    return parser


def run():
    parser = options()
    given = parser.parse_args()
    if given.jobs < 1 or (given.points is not None and given.points < 1):
        parser.error('--points and --jobs are from 1 on')
    tool = program(given.program)
    is_pages = given.pages or given.source.removesuffix('.gz').endswith('.pages')
    chosen = OfPages(given.source, tool) if is_pages else OfTrace(given.source, given.pool, tool)
    all_sizes = sizes_of(chosen, given)
    found = points((chosen, all_sizes), given.jobs)
    print_table(chosen, all_sizes, found)
    if given.csv:
        write_csv(given.csv, chosen, all_sizes, found)
    if given.svg:
        write_plot(given.svg, chosen, all_sizes, found)


def main():
    end_with(run)
