#!/usr/bin/env python3
"""Runs a table over the built program: .ci/program_table.py PROGRAM.

No contract speaks of `main`, so this table does: each row has the words, what the standard input and the standard output are, and
the exit status, the standard output and the standard error, line by line. Behind the rows it looks at what became of the files, at the
system calls that the program makes of its pool and of its cache device, also where one of them fails (where strace is installed), and at runs with ever less memory. It prints
what is wrong, and how many rows were right. What waits for lines that compare/undone.py names is told as not done yet.
"""
import hashlib
import os
import random
import re
import resource
import shutil
import signal
import subprocess
import sys
import tempfile

sys.dont_write_bytecode = True
sys.path.append(os.path.join(os.path.dirname(os.path.abspath(__file__)), '..', 'compare'))
import devices
import undone

ZEROS = '076a27c79e5ace2a3d47f9dd2e83e4ff6ea8872b3c2218f66c92b89b55f36560'  # of 512 zero bytes
LETTERS = '471be6558b665e4f6dd49f1184814d1491b0315d466beea768c153cc5500c836'  # of 512 bytes 0x61
ARC = 'arc 1 1 16 1 4096 0 0\n'
USAGE = 'arc_tool: usage: arc_tool POOL CACHE WORD..., where a file name may be -; arc_tool --help says more'
MISSING, FOLDER = 'there is none of this name', 'it is a directory'


def no_pool(name, why=MISSING):
    return f"arc_tool: the pool's file {name}: {why}"


def no_cache(name, why=MISSING):
    return f"arc_tool: the cache device's file {name}: {why}"


EMPTY = [
    'arc 1',
    'shard 0 c 4096 p 2048 anon 0 mru 0 mrug 0 mfu 0 mfug 0 l2 0',
    'count hit 0 miss 0 past 0 pool 0 l2 0 pass 0 set 0',
    'end 0',
]
TWO_BLOCKS = f'{ARC}block 0 512 1 {ZEROS}\nblock 512 512 1 {LETTERS}\nblock 0 1024 1 {ZEROS}\n'
READS = TWO_BLOCKS + 'read 0 1 1 510 2\nread 0 2 0 0 4\nread 0 3 2 0 0\nread 0 4 1 0 1\nread 0 5 1 512 1\n'
REPLIES = [
    f'0 ok pool {LETTERS} 6161',
    f'1 ok pool {ZEROS} 00000000',
    '2 refused digest 125f1a7c985aed7031e75b0bd5ade59d6089c08cdef939d7e3117bfb02d12af7',
    f'3 ok hit {LETTERS} 61',
    '4 refused window 513 512',
]
SUMS = [
    'shard 0 c 4096 p 2048 anon 0 mru 512 mrug 0 mfu 512 mfug 0 l2 0',
    'count hit 1 miss 3 past 0 pool 3 l2 0 pass 0 set 0',
    'end 1',
]
EVENTS = [
    'e 0 0 miss 0 512 512 1 1',
    f'e 0 1 arrive 0 512 512 1 {LETTERS} pool',
    'e 0 2 drop 0 512 512 1',
    'e 0 3 miss 0 0 512 1 2',
    f'e 0 4 arrive 0 0 512 1 {ZEROS} pool',
    'e 0 5 drop 0 0 512 1',
    'e 0 6 miss 0 0 1024 1 3',
    'e 0 7 fail 0 0 1024 1 pool',
    'e 0 8 hit 0 512 512 1 4',
    'e 0 9 drop 0 512 512 1',
]
# two callers, each on a block of its own shard; and sixteen, for each of which the pool is opened once more
TWO_CALLERS = f'arc 2 2 16 1 4096 0 0\nblock 0 512 1 {ZEROS}\nblock 1536 512 1 {ZEROS}\nread 1 1 1 0 1\nhold 0 1 0\ndrop 1 0\n'
TWO_REPORT = [
    'arc 1',
    f'0 ok pool {ZEROS} 00',
    '1 held pool',
    '2 refused hold 0',
    'e 0 0 miss 0 0 512 1 1',
    f'e 0 1 arrive 0 0 512 1 {ZEROS} pool',
    'e 0 2 drop 0 0 512 1',
    'e 1 0 miss 1 1536 512 1 1',
    f'e 1 1 arrive 1 1536 512 1 {ZEROS} pool',
    'e 1 2 drop 1 1536 512 1',
    'shard 0 c 4096 p 2048 anon 0 mru 512 mrug 0 mfu 0 mfug 0 l2 0',
    'shard 1 c 4096 p 2048 anon 0 mru 512 mrug 0 mfu 0 mfug 0 l2 0',
    'count hit 0 miss 2 past 0 pool 2 l2 0 pass 0 set 0',
    'end 1',
]
SIXTEEN = f'arc 16 1 16 1 4096 0 0\nblock 0 512 1 {ZEROS}\nread 15 1 0 0 1\n'
# bytes that no other file has, and four callers that read four blocks of them each
RANDOM = random.Random(1).randbytes(20480)
SPANS = [(1024 * i + 512 * (i % 2), 512 if i % 2 else 1536) for i in range(16)]
DIGESTS = [hashlib.sha256(RANDOM[at:at + size]).hexdigest() for at, size in SPANS]
FOUR_CALLERS = ''.join([
    'arc 4 1 16 1 65536 0 0\n',
    *(f'block {at} {size} 1 {digest}\n' for (at, size), digest in zip(SPANS, DIGESTS)),
    *(f'read {i % 4} {i} {i} {i} 16\n' for i in range(16)),
])
FOUR_REPORT = [
    'arc 1',
    *(f'{i} ok pool {DIGESTS[i]} {RANDOM[at + i:at + i + 16].hex()}' for i, (at, size) in enumerate(SPANS)),
    f'shard 0 c 65536 p 32768 anon 0 mru {sum(size for at, size in SPANS)} mrug 0 mfu 0 mfug 0 l2 0',
    'count hit 0 miss 16 past 0 pool 16 l2 0 pass 0 set 0',
    'end 0',
]
# the last block of the longest pool that there may be
FAR = f'{ARC}block {2 ** 40 - 512} 512 1 {LETTERS}\nread 0 1 0 0 2\n'
FAR_REPORT = [
    'arc 1',
    f'0 ok pool {LETTERS} 6161',
    'shard 0 c 4096 p 2048 anon 0 mru 512 mrug 0 mfu 0 mfug 0 l2 0',
    'count hit 0 miss 1 past 0 pool 1 l2 0 pass 0 set 0',
    'end 0',
]
HELP = '''\
Runs a trace of reads through a block cache over a pool, and reports what each read was answered.

Usage: arc_tool POOL CACHE WORD...

Arguments:
  <POOL>   The file or block device that blocks are read from, or - for an empty pool
  <CACHE>  The file or block device of the cache device, or - for none

Options:
  -h, --help     Print help
  -V, --version  Print version

Words:
  run                  Reads a trace from the standard input and runs it
  run --events         Reports each event of the cache too
  gen SEED BLOCKS OPS  Makes a trace of OPS reads over BLOCKS blocks of zero bytes
                       and runs it; SEED is below 2147483648, BLOCKS from 1 to
                       32768, OPS at most 1000000
  paper C              Reads page numbers from the standard input, one a line,
                       and tells which are hits of ARC for C pages; C is from
                       1 to 65536
  check                Reads a log of events from the standard input, as run
                       --events prints them behind an arc line, and tells
                       whether they may have happened

What was found goes to the standard output.

Exit status:
  0   Everything was done
  1   The trace was run, and some reply is a refusal
  2   A word behind the file names is wrong; its index from 0 is told
  3   The standard input holds no trace, no list of pages, or no log
  4   The standard input could not be read
  5   The standard output could not be written
  6   The pool could not be opened once more for each of several callers, or not
      be written in a sync
  7   There was too little memory
  8   The pool has too little room for what a sync has to write
  9   The file names are missing, or a word is not UTF-8
  10  An event of the log may not come where it stands
  11  The pool's file could not be opened, or is longer than 2^40 bytes
  12  The cache device's file could not be opened, or is longer than 2^32 bytes
'''.splitlines()
MISS = f'{ARC}e 0 0 miss 0 0 512 1 1\n'
LOG = f'{MISS}e 0 1 arrive 0 0 512 1 {ZEROS} pool\ne 0 2 drop 0 0 512 1\n'
LEGAL = ['check ok 3', 'shard 0 c 4096 p 2048 anon 0 mru 512 mrug 0 mfu 0 mfug 0 l2 0', 'end 0']
TOO_EARLY = f'{MISS}e 0 1 drop 0 0 512 1\n'
ILLEGAL = ['check bad 0 1', 'end 10']
MADE = [
    'arc 1',
    'shard 0 c 4096 p 2048 anon 0 mru 1536 mrug 0 mfu 1024 mfug 0 l2 0',
    'count hit 5 miss 5 past 0 pool 5 l2 0 pass 0 set 0',
    'end 0',
]

# name; words; standard input (a text, or a file by its name); exit status; lines of the standard output; of the standard error;
# and what is special of it: 'full', 'closed' or 'cut' for the standard output, which then takes no byte, isn't there or takes 100 bytes,
# 'poor' for little memory, 'few' for few open files, 'itself' for a pool that is the file of the program that runs
ROWS = [
    ('a real pool', ['pool', '-', 'run'], READS, 1, ['arc 1', *REPLIES, *SUMS], []),
    ('its events', ['pool', '-', 'run', '--events'], READS, 1, ['arc 1', *REPLIES, *EVENTS, *SUMS], []),
    ('two callers, two shards', ['zeros', '-', 'run', '--events'], TWO_CALLERS, 1, TWO_REPORT, []),
    ('four callers, a pool of random bytes', ['random', '-', 'run'], FOUR_CALLERS, 0, FOUR_REPORT, []),
    ('a pool named by a path', ['folder/../pool', '-', 'run'], READS, 1, ['arc 1', *REPLIES, *SUMS], []),
    ('a name that ends as that of no file', ['x-', '-', 'run'], READS, 1, ['arc 1', *REPLIES, *SUMS], []),
    ('the end of the longest pool', ['longest', '-', 'run'], FAR, 0, FAR_REPORT, []),
    ('a pool that is opened for some callers', ['zeros', '-', 'run'], SIXTEEN, 6, [*EMPTY[:3], 'end 6'], ['arc_tool: status 6'], 'few'),
    ('a caller too many', ['zeros', '-', 'run'], 'arc 17 1 16 1 4096 0 0\n', 3, [], ['arc_tool: status 3']),
    ('a shard too many', ['zeros', '-', 'run'], 'arc 1 17 16 1 4096 0 0\n', 3, [], ['arc_tool: status 3']),
    ('more than all shards may have', ['zeros', '-', 'run'], 'arc 1 2 16 1 2147483649 0 0\n', 3, [], ['arc_tool: status 3']),
    ('an empty trace', ['-', '-', 'run'], ARC, 0, EMPTY, []),
    ('an empty pool', ['-', '-', 'run'], f'{ARC}block 0 512 1 {ZEROS}\nread 0 1 0 0 0\n', 1,
     ['arc 1', '0 refused key range 512 0', *EMPTY[1:3], 'end 1'], []),
    ('a made trace', ['-', '-', 'gen', '1', '8', '10'], '', 0, MADE, []),
    ('a made trace leaves the pool alone', ['pool', '-', 'gen', '1', '8', '10'], READS, 0, MADE, []),
    ('pages', ['-', '-', 'paper', '2'], '1\n2\n1\n3\n2\n', 0,
     ['0 miss', '1 miss', '2 hit', '3 miss', '4 miss', 'paper c 2 p 1 t1 1 t2 1 b1 0 b2 1 hits 1', 'end 0'], []),
    ('no list of pages', ['-', '-', 'paper', '2'], '1 2\n', 3, [], ['arc_tool: status 3']),
    ('room for no page', ['-', '-', 'paper', '0'], '1\n', 2, [], ['arc_tool: word 1']),
    ('a log', ['-', '-', 'check'], LOG, 0, LEGAL, []),
    ('a log leaves the pool alone', ['pool', '-', 'check'], LOG, 0, LEGAL, []),
    ('a log of no event', ['-', '-', 'check'], ARC, 0, ['check ok 0', EMPTY[1], 'end 0'], []),
    ('a log that cannot be', ['-', '-', 'check'], TOO_EARLY, 10, ILLEGAL, []),
    ('a log whose first index is 1', ['-', '-', 'check'], f'{ARC}e 0 1 miss 0 0 512 1 1\n', 3, [], ['arc_tool: status 3']),
    ('a trace in the place of a log', ['-', '-', 'check'], READS, 3, [], ['arc_tool: status 3']),
    ('a log from a source that fails', ['-', '-', 'check'], 'folder', 4, [], ['arc_tool: status 4']),
    ('a verdict to a full output', ['-', '-', 'check'], LOG, 5, [], ['arc_tool: status 5'], 'full'),
    ('the other verdict to a full output', ['-', '-', 'check'], TOO_EARLY, 5, [], ['arc_tool: status 5'], 'full'),
    ('a verdict to an output that takes a part', ['-', '-', 'check'], LOG.replace('1 1 16', '1 2 16', 1), 5, ['check ok 3', *(LEGAL[1].replace('shard 0', f'shard {i}') for i in range(2))],
     ['arc_tool: status 5'], 'cut'),
    ('too little memory for a log', ['-', '-', 'check'], 'long', 7, [], ['arc_tool: status 7'], 'poor'),
    ('a word behind check', ['-', '-', 'check', 'x'], LOG, 2, [], ['arc_tool: word 1']),
    ('a missing pool of a log', ['nothing', '-', 'check'], LOG, 11, [], [no_pool('nothing')]),
    ('no word', ['pool', '-'], READS, 2, [], ['arc_tool: word 0']),
    ('a wrong word', ['pool', '-', 'run', '--event'], READS, 2, [], ['arc_tool: word 1']),
    ('a word too many', ['pool', '-', 'run', '--events', 'x'], READS, 2, [], ['arc_tool: word 2']),
    ('a seed out of range', ['-', '-', 'gen', '2147483648', '8', '10'], '', 2, [], ['arc_tool: word 1']),
    ('a made trace of a wrong length', ['-', '-', 'gen', '1', '8', 'x'], '', 2, [], ['arc_tool: word 3']),
    ('no trace', ['pool', '-', 'run'], 'arc 1 1 16 1 4095 0 0\n', 3, [], ['arc_tool: status 3']),
    ('an empty source', ['pool', '-', 'run'], '', 3, [], ['arc_tool: status 3']),
    ('a source that fails', ['pool', '-', 'run'], 'folder', 4, [], ['arc_tool: status 4']),
    ('a full output', ['pool', '-', 'run'], READS, 5, [], ['arc_tool: status 5'], 'full'),
    ('a closed output', ['pool', '-', 'run'], READS, 5, [], ['arc_tool: status 5'], 'closed'),
    ('an output that takes a part', ['pool', '-', 'run'], READS, 5, ['arc 1', *REPLIES], ['arc_tool: status 5'], 'cut'),
    ('too little memory', ['pool', '-', 'run'], 'long', 7, [], ['arc_tool: status 7'], 'poor'),
    ('no file name', [], READS, 9, [], [USAGE]),
    ('one file name', ['pool'], READS, 9, [], [USAGE]),
    ('a file name that is no text', [b'\xff', '-', 'run'], READS, 9, [], [USAGE]),
    ('a word that is no text', ['pool', '-', b'r\xffn'], READS, 9, [], [USAGE]),
    ('an unknown option', ['--halp', '-', 'run'], READS, 9, [], [USAGE]),
    ('an unknown letter', ['-x', '-', 'run'], READS, 9, [], [USAGE]),
    ('no pool and no second name', ['-'], READS, 9, [], [USAGE]),
    ('a missing pool', ['nothing', '-', 'run'], READS, 11, [], [no_pool('nothing')]),
    ('a folder for a pool', ['folder', '-', 'run'], READS, 11, [], [no_pool('folder', FOLDER)]),
    ('a missing pool of a made trace', ['nothing', '-', 'gen', '1', '8', '10'], '', 11, [], [no_pool('nothing')]),
    ('an empty name for the pool', ['', '-', 'run'], READS, 11, [], [no_pool('')]),
    ('a longer pool than there may be', ['longer', '-', 'run'], FAR, 11, [], [no_pool('longer', f'it is longer than {2 ** 40} bytes')]),
    ('a missing device', ['pool', 'nothing', 'run'], READS, 12, [], [no_cache('nothing')]),
    ('a folder for a device', ['pool', 'folder', 'run'], READS, 12, [], [no_cache('folder', FOLDER)]),
    ('one file for both', ['pool', 'pool', 'run'], READS, 1, ['arc 1', *REPLIES, *SUMS[:2], 'rebuilt 0 short', *SUMS[2:]], []),
    ('a file that is no device yet', ['pool', 'zeros', 'run'], READS, 1, ['arc 1', *REPLIES, *SUMS[:2], 'rebuilt 0 short', *SUMS[2:]], []),
    ('the longest device', ['pool', 'deep', 'run'], READS, 1, ['arc 1', *REPLIES, *SUMS[:2], 'rebuilt 0 header magic', *SUMS[2:]], []),
    ('a longer device than there may be', ['pool', 'deeper', 'run'], READS, 12, [], [no_cache('deeper', f'it is longer than {2 ** 32} bytes')]),
    ('a device and a bad trace', ['pool', 'zeros', 'run'], 'arc 1 1 16 1 4095 0 0\n', 3, [], ['arc_tool: status 3']),
    ('a device and a wrong word', ['pool', 'zeros', 'walk'], READS, 2, [], ['arc_tool: word 0']),
    ('a made trace leaves the device alone', ['-', 'zeros', 'gen', '1', '8', '10'], '', 0, MADE, []),
    ('a missing device of a made trace', ['-', 'nothing', 'gen', '1', '8', '10'], '', 12, [], [no_cache('nothing')]),
    ('an empty name for the device', ['pool', '', 'run'], READS, 12, [], [no_cache('')]),
    ('a device that ends as none', ['pool', 'x-', 'run'], READS, 1, ['arc 1', *REPLIES, *SUMS[:2], 'rebuilt 0 short', *SUMS[2:]], []),
    ('a device with a space', ['-', 'a b', 'run'], READS, 12, [], [no_cache('a b')]),
    ('no pool and no device', ['nothing', 'nothing', 'run'], READS, 11, [], [no_pool('nothing')]),
    ('the version', ['--version'], '', 0, ['arc_tool 0.1.0'], []),
    ('the help', ['--help'], '', 0, HELP, []),
    ('the help before a command', ['--help', 'run'], READS, 0, HELP, []),
    ('the help to a full output', ['--help'], '', 5, [], ['arc_tool: status 5'], 'full'),
]
# nine blocks of 512 bytes, which the pool of 4,096 has no room for; one caller puts them, or two do
PUTS = [f'put {{}} 1 7 {i} 512 61\n' for i in range(9)]
FULL = [*(f'{i} done' for i in range(9)), *EMPTY[1:3], 'end 8']
# rows of lines that the program may not do yet, in the same form; such a row is refused then
LATER = [
    ('a pool that has no room for a sync', ['zeros', '-', 'run'], ARC + ''.join(put.format(0) for put in PUTS) + 'txg 2\nput 0 3 7 0 512 61\n', 8, ['arc 1', *FULL], ['arc_tool: status 8']),
    ('the same for two callers', ['zeros', '-', 'run'], ARC.replace('1', '2', 1) + ''.join(put.format(i % 2) for i, put in enumerate(PUTS)) + 'txg 2\nput 0 3 7 0 512 61\n', 8,
     ['arc 1', *FULL], ['arc_tool: status 8']),
    ('the same to a full output', ['zeros', '-', 'run'], ARC + ''.join(put.format(0) for put in PUTS) + 'txg 2\n', 5, [], ['arc_tool: status 5'], 'full'),
    ('a feed of a file that is no device yet', ['pool', 'zeros', 'run'], f'{ARC}feed\n', 0, ['arc 1', '0 feed none', *EMPTY[1:3], 'rebuilt 0 short', 'end 0'], []),
    ('a feed that picks nothing', ['pool', 'deep', 'run'], f'{ARC}feed\n', 0,
     ['arc 1', '0 feed picked 0 bytes 0 written 0 cleared 0 ok', *EMPTY[1:3], 'rebuilt 0 header magic', 'end 0'], []),
]


def own_row(program):
    """A pool that is the file of the program that runs: the system refuses to open it to be written, so it is opened to be read."""
    with open(program, 'rb') as file:
        head = file.read(512)
    digest = hashlib.sha256(head).hexdigest()
    return ('a pool that can only be read', ['itself', '-', 'run'], f'{ARC}block 0 512 1 {digest}\nread 0 1 0 0 8\n', 0,
            ['arc 1', f'0 ok pool {digest} {head[:8].hex()}', *FAR_REPORT[2:]], [], 'itself')


def put_files(program):
    """The files that rows name: pools, a fed cache device, a folder, the program itself, and a trace of 60 MB."""
    contents = {'pool': bytes(512) + b'a' * 512, 'zeros': bytes(4096), 'kilobytes': bytes(5120), 'random': RANDOM, 'fed': devices.fed([bytes(512)] * 3)}
    contents['x-'] = contents['pool']
    for name, content in contents.items():
        with open(name, 'wb') as out:
            out.write(content)
    for name, length in ('deep', 2 ** 32), ('deeper', 2 ** 32 + 1):
        with open(name, 'wb') as out:
            out.truncate(length)
    for name, length in ('longest', 2 ** 40), ('longer', 2 ** 40 + 1):
        with open(name, 'wb') as out:
            out.truncate(length)
            # the last block is none that a place of fewer bits leads to
            out.seek(2 ** 40 - 512)
            out.write(b'a' * 512)
    os.mkdir('folder')
    shutil.copy(program, 'itself')
    with open('long', 'w') as out:
        out.write(ARC)
        out.writelines(['#' * 59 + '\n'] * 1_000_000)
    return contents


def source(given):
    """The standard input: a text, or a file or a folder by its name."""
    if given in ('folder', 'long'):
        return os.open(given, os.O_RDONLY)
    with open('source', 'w') as out:
        out.write(given)
    return os.open('source', os.O_RDONLY)


def run(program, words, given, special=None):
    """The exit status, and the lines of the standard output and of the standard error."""
    def prepare():
        if special == 'closed':
            os.close(1)
        if special == 'cut':
            signal.signal(signal.SIGXFSZ, signal.SIG_IGN)
            resource.setrlimit(resource.RLIMIT_FSIZE, (100, 100))
        if special == 'poor':
            resource.setrlimit(resource.RLIMIT_AS, (48 << 20, 48 << 20))
        if special == 'few':
            resource.setrlimit(resource.RLIMIT_NOFILE, (12, 12))
    if special == 'itself':
        program = os.path.abspath('itself')
    stdin = source(given)
    if special == 'cut':
        stdout = os.open('cut', os.O_WRONLY | os.O_CREAT | os.O_TRUNC)
    else:
        stdout = os.open('/dev/full', os.O_WRONLY) if special == 'full' else subprocess.PIPE
    ended = subprocess.run([program, *words], stdin=stdin, stdout=stdout, stderr=subprocess.PIPE, preexec_fn=prepare, timeout=60)
    os.close(stdin)
    told = ended.stdout or b''
    if stdout != subprocess.PIPE:
        os.close(stdout)
    if special == 'cut':
        with open('cut', 'rb') as file:
            told = file.read()
    return ended.returncode, told.decode().splitlines(), ended.stderr.decode().splitlines()


def wrong_rows(program):
    """Each row that is wrong, and how many rows there are."""
    rows = [*ROWS, own_row(program)]
    for name, words, given, *rest in LATER:
        rows.append((name, words, given, 3, [], ['arc_tool: status 3']) if undone.has_undone(given) else (name, words, given, *rest))
    wrong = []
    for name, words, given, status, output, errors, *special in rows:
        special = special[0] if special else None
        if special == 'cut':
            output = '\n'.join(output)[:100].splitlines()
        ours = run(program, words, given, special)
        if ours != (status, output, errors):
            wrong.append(f'{name}: {words} ended with {ours}, not with {(status, output, errors)}')
    return wrong, len(rows)


def changed_files(contents):
    """What became of the files, all of which are only read."""
    wrong = []
    for name, content in contents.items():
        with open(name, 'rb') as file:
            if file.read() != content:
                wrong.append(f'the file {name} was changed')
    for name in 'nothing', 'a b', '-', '--halp', '-x':
        if os.path.exists(name):
            wrong.append(f'a file {name} was made')
    return wrong


def has_strace():
    """Whether the system's calls can be looked at."""
    return shutil.which('strace') and subprocess.run(['strace', '-o', '/dev/null', 'true'], capture_output=True).returncode == 0


def wrong_opens(program):
    """What is wrong of how the pool's file is opened for four callers: that is done once to be read and written, and once more for each
    caller, under its own name, to be read alone, and it is neither made nor cut. Nothing else is opened to be written."""
    trace = ['strace', '-f', '-qq', '-o', 'calls', '-e', 'trace=open,openat,openat2,creat']
    ended = subprocess.run([*trace, program, 'random', '-', 'run'], input=FOUR_CALLERS.encode(), capture_output=True, timeout=60)
    with open('calls') as file:
        opened = re.findall(r'"(.*)", ([A-Z_|]+)', file.read())
    pool = [flags for name, flags in opened if name == 'random']
    others = [name for name, flags in opened if name != 'random' and re.search('O_WRONLY|O_RDWR|O_CREAT', flags)]
    wrong = []
    if ended.returncode != 0 or ended.stdout.decode().splitlines() != FOUR_REPORT:
        wrong.append(f'strace: the run ended with {ended}')
    how = ['O_RDWR', *['O_RDONLY'] * 4]
    if len(pool) != 5 or any(way not in flags or re.search('O_CREAT|O_TRUNC|O_APPEND', flags) for way, flags in zip(how, pool)):
        wrong.append(f'strace: the pool of four callers is opened so: {pool}')
    if others:
        wrong.append(f'strace: other files are opened to be written: {others}')
    return wrong


def wrong_reads(program):
    """What is wrong where the system does a read of the pool in parts, or not at all. One that a signal interrupts is made again, and one that
    gives less than was asked for is gone on with; where the file ends before that, or the read fails, that read alone is refused."""
    given = f'{ARC}block 0 512 1 {ZEROS}\nblock 512 512 1 {ZEROS}\nread 0 1 0 0 2\nread 0 2 1 0 2\n'
    told = [f'{i} ok pool {ZEROS} 0000' for i in range(2)]
    whole = 0, ['arc 1', *told, 'shard 0 c 4096 p 2048 anon 0 mru 1024 mrug 0 mfu 0 mfug 0 l2 0', 'count hit 0 miss 2 past 0 pool 2 l2 0 pass 0 set 0', 'end 0']
    refused = 1, ['arc 1', '0 refused pool', told[1], SUMS[0].replace('mfu 512', 'mfu 0'), 'count hit 0 miss 2 past 0 pool 2 l2 0 pass 0 set 0', 'end 1']
    trace = ['strace', '-qq', '-o', 'calls', '-P', 'zeros', '-e', 'trace=read']
    wrong = []
    # the bytes are zeros, so that 100 which were not read are right, and the 412 behind them have to be asked for
    for way, expected in ('error=EINTR', whole), ('retval=100', whole), ('retval=0', refused), ('error=EIO', refused):
        ended = subprocess.run([*trace, '-e', f'inject=read:{way}:when=1', program, 'zeros', '-', 'run'], input=given.encode(), capture_output=True, timeout=60)
        ours = ended.returncode, ended.stdout.decode().splitlines()
        with open('calls') as file:
            reads = file.read().count('INJECTED')
        if ours != expected or reads != 1:
            wrong.append(f'reads: where one is {way}, at {reads} places, the run ended with {ours}, not with {expected}')
    return wrong


def ended_where(program, calls, when, words, given):
    """How a run ends where one call of the system fails: of these kinds, on the last of the files that the words name."""
    trace = ['strace', '-qq', '-f', '-o', 'calls', '-P', words[1] if words[1] != '-' else words[0], '-e', f'trace={calls}', '-e', f'inject={calls}:error=EIO:when={when}']
    ended = subprocess.run([*trace, program, *words], input=given.encode(), capture_output=True, timeout=60)
    with open('calls') as file:
        return ended.returncode, ended.stdout.decode().splitlines(), file.read().count('INJECTED')


def wrong_pool_calls(program):
    """What is wrong where one of the reads of a pool fails, each in turn: that read alone is refused, and the cache goes on without its block."""
    digest = hashlib.sha256(bytes(1024)).hexdigest()
    given = ARC + ''.join(f'block {1024 * i} 1024 1 {digest}\n' for i in range(5)) + ''.join(f'read 0 {t} {x} 0 0\n' for t, x in enumerate((0, 1, 2, 3, 4, 0), 1))
    # hits, misses, reads of the pool; the target; bytes of MRU, of its ghosts, and of MFU
    table = [(0, 6, 6, 2048, 4096, 1024, 0), *[(1, 5, 5, 2048, 3072, 0, 1024)] * 3, (0, 6, 6, 3072, 3072, 0, 1024), (0, 6, 6, 3072, 3072, 1024, 0)]
    wrong = []
    for k, (hit, miss, pool, p, mru, mrug, mfu) in enumerate(table):
        reads = [f'{i} ok {"hit" if hit and i == 5 else "pool"} {digest} -' for i in range(6)]
        reads[k] = f'{k} refused pool'
        sums = [f'shard 0 c 4096 p {p} anon 0 mru {mru} mrug {mrug} mfu {mfu} mfug 0 l2 0', f'count hit {hit} miss {miss} past 0 pool {pool} l2 0 pass 0 set 0']
        ours = ended_where(program, 'read', k + 1, ['kilobytes', '-', 'run'], given)
        if ours != (1, ['arc 1', *reads, *sums, 'end 1'], 1):
            wrong.append(f'reads: where read {k} of the pool fails the run ended with {ours}')
    return wrong


def wrong_device_reads(program):
    """What is wrong where one of the reads of a cache device fails, each in turn: of its header, of its three log blocks, and of its three blocks. What the
    start found until then is known, and each block comes from the pool where the device doesn't give it."""
    given = ARC + ''.join(f'block {512 * i} 512 1 {ZEROS}\n' for i in range(3)) + ''.join(f'read 0 {i + 1} {i} 0 1\n' for i in range(3))
    wrong = []
    for k in range(7):
        found = [0, 0, 1, 2, 3, 3, 3][k]
        # the start goes from the newest block to the oldest
        known = range(3 - found, 3)
        served = ['l2' if i in known and k != 4 + i else 'pool' for i in range(3)]
        reads = [f'{i} ok {where} {ZEROS} 00' for i, where in enumerate(served)]
        sums = [f'shard 0 c 4096 p 2048 anon 0 mru {512 * (3 - found)} mrug 0 mfu {512 * found} mfug 0 l2 0',
                f'count hit 0 miss 3 past 0 pool {served.count("pool")} l2 {served.count("l2")} pass 0 set 0', f'rebuilt {found} {"device" if k < 4 else "zero"}']
        ours = ended_where(program, 'read', k + 1, ['zeros', 'fed', 'run'], given)
        if ours != (0, ['arc 1', *reads, *sums, 'end 0'], 1):
            wrong.append(f'reads: where read {k} of the device fails the run ended with {ours}')
    return wrong


def wrong_device_feeds(program):
    """What is wrong where one call of a cache device fails, each in turn, while a block is fed and read again: each read is answered all the same."""
    digest = hashlib.sha256(bytes(2048)).hexdigest()
    given = ARC + ''.join(f'block {2048 * i} 2048 1 {digest}\n' for i in range(4)) + 'read 0 1 0 0 0\nfeed\n' + ''.join(f'read 0 {t} {x} 0 0\n' for t, x in enumerate((1, 2, 3, 0), 2))
    if undone.has_undone(given):
        print('program: feeds where a call of the device fails are not done yet')
        return []
    wrong = []
    for calls in 'read', 'write', 'fsync', 'fdatasync':
        for k in range(1, 20):
            with open('blocks', 'wb') as out:
                out.truncate(8192)
            with open('device', 'wb') as out:
                out.truncate(devices.RING_END)
            status, lines, injected = ended_where(program, calls, k, ['blocks', 'device', 'run'], given)
            if not injected:
                break
            reads = [line for line in lines if ' ok ' in line and digest in line]
            if status != 0 or len(reads) != 5 or not any(line.startswith('1 feed picked ') for line in lines):
                wrong.append(f'feeds: where {calls} {k} of the device fails the run ended with {(status, lines)}')
    return wrong


def wrong_dbuf_reads(program):
    """What is wrong where the read of the pool for a dbuf fails: that line alone is refused, and the next one that asks for the block loads it."""
    blocks = [bytes(512), b'\1' * 512]
    zeros, ones, patched, new = (hashlib.sha256(body).hexdigest() for body in (*blocks, b'\x09' + bytes(511), b'\xab' * 512))
    given = f'''\
arc 1 1 16 1 4096 0 4096
block 0 512 1 {zeros}
block 512 512 1 {ones}
object 0 0 0
object 0 1 1
get 0 1 0 1 0 2
pin 0 2 0 0
patch 0 3 0 0 0 09
unpin 0 0 0
put 0 3 7 0 512 ab
txg 4
get 0 5 0 1 0 2
get 0 6 0 0 0 2
get 0 7 7 0 0 2
'''
    if undone.has_undone(given):
        print('program: dbufs whose read fails are not done yet')
        return []

    def load(offset, digest, t):
        return [f'miss 0 {offset} 512 1 {t}', f'arrive 0 {offset} 512 1 {digest} pool', f'hand 0 {offset} 512 1 2']

    def fail(offset, t):
        return [f'miss 0 {offset} 512 1 {t}', f'fail 0 {offset} 512 1 pool']

    told = ['got 512 0101', 'done', 'done', 'done', 'done', 'txg 1 blocks 2 bytes 1024', 'got 512 0101', 'got 512 0900', 'got 512 abab']
    written = ['release 2 0 512 1 sole', f'insert 2 1024 512 1 {patched} 4', f'insert 2 1536 512 1 {new} 4']
    dropped = [f'drop 2 {offset} 512 1' for offset in (1024, 512, 1536)]
    table = [
        ({0: 'refused pool'}, fail(512, 1) + load(0, zeros, 2) + written + load(512, ones, 5) + dropped),
        ({1: 'refused pool', 3: 'refused pin 0 0'}, load(512, ones, 1) + fail(0, 2) + load(0, zeros, 3) + written + dropped),
    ]
    wrong = []
    for k, (refused, events) in enumerate(table):
        with open('blocks', 'wb') as out:
            out.write(b''.join(blocks) + bytes(1024))
        ours = ended_where(program, 'read', k + 1, ['blocks', '-', 'run', '--events'], given)
        lines = ['arc 1', *(f'{i} {refused.get(i, words)}' for i, words in enumerate(told)), *(f'e 0 {i} {words}' for i, words in enumerate(events)),
                 EMPTY[1].replace('mru 0', 'mru 1536'), 'count hit 0 miss 3 past 0 pool 3 l2 0 pass 0 set 0', 'end 1']
        if ours != (1, lines, 1):
            wrong.append(f'dbufs: where read {k} of the pool fails the run ended with {ours}, not with {lines}')
    return wrong


def wrong_sync_writes(program):
    """What is wrong where one write of a sync fails, each in turn, for one caller and for two: the run stops before the sync's line, with the blocks before written."""
    wrong = []
    for callers in 1, 2:
        given = ARC.replace('1', str(callers), 1) + ''.join(f'put 0 1 7 {i} 512 61\n' for i in range(3)) + 'txg 2\nget 0 3 7 0 0 1\n'
        if undone.has_undone(given):
            print(f'program: syncs whose write fails are not done yet: {callers} callers')
            continue
        for k in range(1, 4):
            with open('blocks', 'wb') as out:
                out.truncate(4096)
            ours = ended_where(program, 'write', k, ['blocks', '-', 'run'], given)
            sums = [EMPTY[1].replace('mru 0', f'mru {512 * (k - 1)}'), EMPTY[2]]
            with open('blocks', 'rb') as file:
                pool = file.read()
            if ours != (6, ['arc 1', *(f'{i} done' for i in range(3)), *sums, 'end 6'], 1) or pool != (b'a' * 512 * (k - 1)).ljust(4096, b'\0'):
                wrong.append(f'syncs: where write {k} of the pool fails the run ended with {ours}')
    return wrong


def wrong_refusals(program):
    """What is wrong where memory is refused, at each place where it is asked for: then the status is 7. Each piece of memory is made a call
    of the system of its own, and all such calls from the n-th on are refused, for each n behind those of the loader."""
    environment = {**os.environ, 'GLIBC_TUNABLES': 'glibc.malloc.mmap_threshold=1'}
    trace = ['strace', '-qq', '-o', 'calls', '-e', 'trace=brk,mmap,openat', '-e', 'inject=brk:error=ENOMEM']
    wrong = []
    for words, given in (['--help'], b''), (['pool', '-', 'run'], TWO_BLOCKS.encode() + b'read 0 1 1 510 2\n'):
        def refused(*more):
            ended = subprocess.run([*trace, *more, program, *words], input=given, capture_output=True, env=environment, timeout=60)
            return ended.returncode, ended.stdout, ended.stderr
        ample = refused()
        with open('calls') as file:
            calls = file.read().split('"/dev/null"', 1)
        loaded, asked = (part.count('mmap(') for part in calls)
        told = {n: refused('-e', f'inject=mmap:error=ENOMEM:when={n}+') for n in range(loaded + 1, loaded + asked + 1)}
        short = 7, b'', b'arc_tool: status 7\n'
        if short not in told.values():
            wrong.append(f'memory: {words} are never short of it')
        wrong += [f'memory: {words} without piece {n} ended with {ours}' for n, ours in told.items() if ours not in (short, ample)]
    return wrong


def main():
    program = os.path.abspath(sys.argv[1])
    with tempfile.TemporaryDirectory(prefix='arc_tool.') as work:
        os.chdir(work)
        contents = put_files(program)
        wrong, rows = wrong_rows(program)
        others = changed_files(contents)
        if has_strace():
            others += wrong_opens(program) + wrong_reads(program) + wrong_refusals(program)
            others += wrong_pool_calls(program) + wrong_device_reads(program) + wrong_device_feeds(program) + wrong_dbuf_reads(program)
            others += wrong_sync_writes(program)
        else:
            print('program: there is no strace, so how the pool is opened and read, and where memory is refused, was not looked at')
        os.chdir('/')
    for line in wrong + others:
        print(line)
    waiting = [name for name, _, given, *_ in LATER if undone.has_undone(given)]
    if waiting:
        print(f'program: not done yet, and refused as they have to be: {len(waiting)} rows: {"; ".join(waiting)}')
    print(f'program: {rows - len(wrong)} rows right, {len(wrong)} wrong')
    sys.exit(len(wrong + others) > 0)


main()
