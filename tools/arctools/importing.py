"""tools/import: a trace or a list of pages out of a log of reads."""
import argparse
import fnmatch
import functools
import hashlib
import itertools
import operator
import os

from . import layout, sizes
from .access import Tally
from .command import Fault, Progress, end_with, lines_of, say, whole
from .formats import FORMATS
from .layout import PATCH, PUT, READ, Layout, at_hand

HELP = """\
formats:
  strace     what strace writes: strace -f -e trace=desc,process -o LOG PROGRAM (-y, -t, -tt, -ttt, -r, -T and trace=desc alone will do too)
  fio        an iolog of fio, version 2 or 3 (write_iolog=LOG)
  blkparse   what blkparse prints; of each request the line with the action of --action is taken
  msr        the block traces of Microsoft Research Cambridge, CSV
  list       on each line an offset and a length in bytes, and maybe `read` or `write`

LOG may be compressed by gzip, and is the standard input at `-`.

a whole example:
  strace -f -e trace=desc,process -o log sqlite3 my.db 'select count(*) from t where b like "%x%"'
  tools/import strace log --only '*.db' -o my          writes my.trace and my.pool
  crates/arc_tool/out/arc_tool my.pool - run < my.trace
  tools/curve my.trace --svg my.svg                    hits by cache size
  tools/view my.trace -o my.html                       the run over time

and where nobody has the bytes:
  tools/import msr usr_0.csv.gz --zeros --block 16K -o usr     over a pool of zero bytes
  tools/import msr usr_0.csv.gz --pages --block 16K -o usr     writes usr.pages
  tools/curve usr.pages

A trace has at most 1,000,000 operations and 100,000 blocks, a list of pages 1,000,000 pages. A log that has more is refused with what
would fit: --first, --sample or larger blocks. Writes are counted and left out, or taken as reads of the same ranges by --writes as-reads.
With --writes put they stay writes: such a trace has get, put, patch and txg lines, which the program of today refuses with status 3. What
else can't be imported is counted too, and told at the end."""


def options():
    parser = argparse.ArgumentParser(prog='import', description='Makes a trace for `arc_tool POOL - run`, or a list of pages for `arc_tool - - paper C`, out of a log of reads.',
                                     epilog=HELP, formatter_class=argparse.RawDescriptionHelpFormatter)
    parser.add_argument('format', choices=FORMATS, help='what the log is, see below')
    parser.add_argument('log', metavar='LOG')
    parser.add_argument('-o', '--output', metavar='NAME', required=True, help='writes NAME.trace and NAME.pool, or NAME.pages')
    parser.add_argument('-b', '--block', type=size, default=4096, metavar='SIZE', help='the size of a block or page: a multiple of 512, at most 16M (4K)')
    parser.add_argument('--pages', action='store_true', help='a list of pages, for which no bytes are wanted')
    source = parser.add_mutually_exclusive_group()
    source.add_argument('--file', action='append', default=[], metavar='[NAME=]PATH',
                        help="where the bytes of the log's file NAME are; without NAME, of its only file. strace and fio name files themselves")
    source.add_argument('--zeros', action='store_true', help='over a pool of zero bytes, for logs whose files are not here')
    parser.add_argument('--in-place', action='store_true', help='the one file is the pool itself, and no pool is written')
    parser.add_argument('--only', action='append', default=[], metavar='PATTERN', help="only files whose name fits, as '*.db'; may be given again")
    parser.add_argument('--folder', metavar='FOLDER', help='where the program of a strace log was begun (here)')
    parser.add_argument('--action', default='Q', metavar='LETTER', help="which line of a request blkparse's log is read by: Q, D, C .. (Q, queued)")
    parser.add_argument('--writes', choices=('skip', 'as-reads', 'put'), default='skip',
                        help="writes are left out and counted, or taken as reads; `put` makes `get`, `put`, `patch` and `txg` lines, which the program does not run yet (skip)")
    parser.add_argument('--sync', type=count, default=5000, metavar='TICKS', help='with `--writes put`: a txg line once so many ticks have gone by, where something was written (5000)')
    parser.add_argument('--first', type=count, metavar='N', help='the first N operations alone')
    parser.add_argument('--sample', type=count, default=1, metavar='N', help='one block of N, with all its reads; a cache for it has an Nth of the size')
    parser.add_argument('--cache', type=size, metavar='SIZE', help='the cache that the trace asks for (a fourth of all its blocks)')
    parser.add_argument('--shards', type=count, default=1, metavar='N', help='its shards, 1 to 16 (1)')
    parser.add_argument('--callers', type=count, default=1, metavar='N', help="its callers, 1 to 16: the log's processes in turn (1)")
    parser.add_argument('--ticks', choices=('count', 'ms'), default='count', help="a read's tick: its number, or the log's time in milliseconds (count)")
    parser.add_argument('--mintime', type=int, metavar='TICKS', help="the trace's MINTIME (0; with --ticks ms 62, as in OpenZFS)")
    return parser


def size(text):
    found = sizes.parse(text)
    if found is None:
        raise argparse.ArgumentTypeError(f'{text!r} is no size; 4096, 4K and 1.5M are')
    return found


def count(text):
    if not (text.isascii() and text.isdigit()) or int(text) < 1:
        raise argparse.ArgumentTypeError(f'{text!r} is no number from 1 on')
    return int(text)


def checked(parser):
    """The options, with what argparse can't see."""
    given = parser.parse_args()
    if given.block % 512 or not 512 <= given.block <= layout.LARGEST_BLOCK:
        parser.error(f'a block has a multiple of 512 bytes, at most 16M; {given.block} is none')
    for name, least, most in (('shards', 1, 16), ('callers', 1, 16)):
        if not least <= getattr(given, name) <= most:
            parser.error(f'--{name} is from {least} to {most}')
    if given.cache is not None and not 4096 <= given.cache // given.shards or (given.cache or 0) > 1 << 32:
        parser.error('a cache has at least 4K for each shard, and at most 4G')
    if given.mintime is None:
        given.mintime = 62 if given.ticks == 'ms' else 0
    if not 0 <= given.mintime <= 1 << 32:
        parser.error('--mintime is from 0 to 4294967296')
    if given.in_place and (given.zeros or given.pages or given.writes == 'put'):
        parser.error('--in-place is for a file whose bytes are only read')
    if given.pages and given.writes == 'put':
        parser.error('a list of pages has no writes; --writes as-reads takes them as reads')
    return given


class Finder:
    """Says of each file that a log names where its bytes are."""

    def __init__(self, given):
        self.given = given
        self.named = dict(entry.split('=', 1) for entry in given.file if '=' in entry)
        self.only = [entry for entry in given.file if '=' not in entry]
        self.first = None
        if len(self.only) > 1:
            raise Fault('--file without a name was given twice: give NAME=PATH, since the log has several files')

    def __call__(self, name):
        given = self.given
        if given.zeros or given.pages:
            return None, None, None
        if name in self.named:
            return self.here(self.named[name])
        if self.only:
            if self.first not in (None, name):
                raise Fault(f'the log names several files, as {self.first} and {name}: give --file NAME=PATH for each, or --only')
            self.first = name
            return self.here(self.only[0])
        if FORMATS[given.format].NAMES_FILES:
            return (os.path.join(given.folder or '', name), *at_hand(os.path.join(given.folder or '', name)))
        raise Fault(f'the bytes of {name} are wanted: --file {name}=PATH says where they are, --zeros is for a pool of zero bytes, --pages for a list of pages')

    def here(self, path):
        size, missing = at_hand(path)
        if missing:
            raise Fault(f'{path}: the bytes of a file are wanted here, and it is one of those {missing}')
        return path, size, None


def is_wanted(given, name):
    return not given.only or any(fnmatch.fnmatch(name, pattern) or fnmatch.fnmatch(os.path.basename(name), pattern) for pattern in given.only)


def read_log(given, tally):
    """The layout of the log's reads."""
    limit = layout.MOST_OPERATIONS if given.pages else layout.MOST_BLOCKS
    laid = Layout(given.block, limit, tally, Finder(given), given.first, given.sample, given.sync if given.writes == 'put' else None)
    given.wanted = lambda name: is_wanted(given, name)
    callers, begin, tick = {}, None, 0
    for access in FORMATS[given.format].accesses(lines_of(given.log), tally, given.log, given):
        if not given.wanted(access.file):
            tally.add('accesses of files that --only leaves out', access.length)
            continue
        if access.is_write and given.writes == 'skip':
            tally.add('writes, which the program does not run yet', access.length)
            continue
        caller = callers.setdefault(access.who, len(callers) % given.callers)
        if given.ticks == 'ms':
            if access.time is None:
                raise Fault('--ticks ms wants a log that tells times, and this line tells none', given.log, access.line)
            begin = access.time if begin is None else begin
            tick = max(tick, int(access.time - begin))
        else:
            tick = laid.accesses + 1
        try:
            if not laid.take(access, tick, caller):
                break
        except ValueError as error:
            raise Fault(str(error), given.log, access.line) from error
    if laid.over:
        raise laid.over.fault(given.log)
    if laid.dirty:
        laid.settle(tick)
    return laid


# ---- what is written

def head(given, laid, what):
    """Comments that say where a source comes from."""
    yield f'# {what} by tools/import {given.format}: {len(laid.operations):,} {done(given)} of blocks of {given.block:,} bytes, {len(laid.places):,} different ones'
    for file in laid.files.values():
        if file.reads and not file.missing:
            yield f'# from byte {file.base:,} on: {printable(file.name)}'


def done(given):
    return 'operations' if given.writes == 'put' else 'reads'


def printable(name):
    return name.encode('unicode_escape').decode('ascii') if not name.isprintable() else name


def write_pages(given, laid):
    end = laid.lay_out(in_place=False)
    if end // given.block > layout.LARGEST_PAGE:
        raise Fault(f'the last page would be behind {layout.LARGEST_PAGE:,}, the largest that a list of pages has')
    name = f'{given.output}.pages'
    with whole(name) as out:
        out.writelines(f'{line}\n' for line in head(given, laid, 'pages'))
        bases = {file.number: file.base // given.block for file in laid.files.values()}
        out.writelines(f'{bases[laid.places[block][0].number] + laid.places[block][1]}\n' for _, block, *_ in laid.operations)
    return [name]


def capacity(given, laid):
    """The bytes that a shard caches: what is asked for, or a fourth of all blocks."""
    wanted = given.cache or -(-len(laid.places) // 4) * given.block
    return min(max(wanted // given.shards, 4096), (1 << 32) // given.shards)


def write_trace(given, laid):
    here = [file for file in laid.files.values() if file.reads and not file.missing]
    if given.in_place and len(here) > 1:
        raise Fault('--in-place is for one file, and the log has reads of ' + ', '.join(file.name for file in here[:5]))
    end = laid.lay_out(given.in_place)
    if end > layout.LONGEST_POOL:
        raise Fault(f'the pool would have {sizes.text(end)}, and the program takes one of {sizes.text(layout.LONGEST_POOL)} at most; --only leaves files out')
    names = [f'{given.output}.trace'] + ([] if given.in_place else [f'{given.output}.pool'])
    with whole(*names, mode='wb') as out:
        trace, pool = (out, None) if given.in_place else out
        lines = [*head(given, laid, 'a trace'), f'arc {given.callers} {given.shards} 256 1 {capacity(given, laid)} {given.mintime} 0', *block_lines(given, laid, pool)]
        trace.write('\n'.join(lines).encode('utf-8', 'surrogateescape') + b'\n')
        for start in range(0, len(laid.operations), 65_536):
            trace.write(''.join(operation_lines(given, laid, laid.operations[start:start + 65_536])).encode())
        if pool:
            # a sync puts each block that it writes behind all others
            pool.truncate(end + laid.synced * given.block)
    return names


def block_lines(given, laid, pool):
    """The lines of the blocks, in the order in which they are first read. Their bytes go into the pool, which is left empty between them."""
    lines = {}
    wanted = sorted((file.number, index, number) for number, (file, index) in enumerate(laid.places) if number not in laid.put_first)
    files = list(laid.files.values())
    progress = Progress('reading blocks', len(wanted))
    for number, group in itertools.groupby(wanted, key=operator.itemgetter(0)):
        file = files[number]
        with open(file.path or os.devnull, 'rb') as source:
            for _, index, block in group:
                at, length, digest = file.base + index * given.block, given.block, zeros_digest(given.block)
                if file.path:
                    bytes_of, length = block_bytes(source, index, given, file)
                    digest = hashlib.sha256(bytes_of).hexdigest()
                    if pool and bytes_of.strip(b'\0'):
                        pool.seek(at)
                        pool.write(bytes_of)
                lines[block] = f'block {at} {length} 1 {digest}'
                progress.at(len(lines))
    progress.end()
    declared = sorted(lines)
    yield from (lines[block] for block in declared)
    if given.writes == 'put':
        for number, block in enumerate(declared):
            file, index = laid.places[block]
            yield f'object {file.number} {index} {number}'


@functools.cache
def zeros_digest(size):
    return hashlib.sha256(bytes(size)).hexdigest()


def operation_lines(given, laid, operations):
    """The lines of operations. Where writes stay writes, files are objects, whose blocks are read by `get`."""
    for does, block, tick, caller, at in operations:
        if given.writes != 'put':
            yield f'read {caller} {tick} {block} 0 0\n'
            continue
        file, index = laid.places[block]
        if does == READ:
            yield f'get {caller} {tick} {file.number} {index} 0 0\n'
        elif does == PUT:
            yield f'put {caller} {tick} {file.number} {index} {given.block} 00\n'
        elif does == PATCH:
            yield f'patch {caller} {tick} {file.number} {index} {at} 00\n'
        else:
            yield f'txg {tick}\n'


def block_bytes(source, index, given, file):
    """A block of a file, filled up with zero bytes behind its end; in place it ends with the file, where that ends a block."""
    source.seek(index * given.block)
    found = source.read(given.block)
    if not given.in_place:
        return found.ljust(given.block, b'\0'), given.block
    if not found or len(found) % 512:
        raise Fault(f'{file.path} ends at byte {file.size:,}, inside a block of 512 bytes that is read, so it is no pool itself: leave --in-place out')
    return found, len(found)


# ---- what is told

def tell(given, laid, tally, names):
    block = sizes.text(given.block)
    say(f'{given.log}: {laid.accesses:,} accesses, {len(laid.operations):,} {done(given)} of blocks of {block}, {len(laid.places):,} different ones '
        f'({sizes.text(len(laid.places) * given.block)})')
    for file in sorted((file for file in laid.files.values() if file.reads), key=lambda file: -file.reads)[:10]:
        say(f'  {file.reads:>9,} of {printable(file.name)}, {sizes.text(file.bytes)}')
    if (more := sum(1 for file in laid.files.values() if file.reads) - 10) > 0:
        say(f'            of {more} more files')
    for reason, times, length in tally:
        say(f'  left out: {reason}: {times:,}' + (f', {sizes.text(length)}' if length else ''))
    if laid.cut:
        say(f'  left out: what follows the first {given.first:,} operations')
    say('wrote ' + ' and '.join(names))
    if not laid.operations:
        say('nothing of the log could be imported: there are no reads')


def run():
    given = checked(options())
    tally = Tally()
    laid = read_log(given, tally)
    names = write_pages(given, laid) if given.pages else write_trace(given, laid)
    tell(given, laid, tally, names)


def main():
    end_with(run)
