#!/usr/bin/env python3
"""Runs a table over the built arc_lint: .ci/lint_table.py ARC_LINT ARC_TOOL.

A row has what it shows, the words, the standard input, the exit status, and the lines of both outputs; of a text with a fault it has the line's
number, the kind and what is shown of the line. Each text of a trace, of pages or of a log is given to arc_tool too, which must refuse exactly those with a fault.
It prints each row that is wrong, and how many were right.
"""
import os
import signal
import resource
import subprocess
import sys
import tempfile

sys.dont_write_bytecode = True
import fault_rows

Z = '076a27c79e5ace2a3d47f9dd2e83e4ff6ea8872b3c2218f66c92b89b55f36560'  # of 512 zero bytes
ARC = 'arc 1 1 16 1 4096 0 0\n'
HEAD = f'{ARC}block 0 512 1 {Z}\n'
SIZES = 'callers 1 shards 1 buckets 16 cells 1 c 4096 mintime 0 dbufs 0 write_max 8388608 headroom 2'
LONGEST = 67_108_864
# what is wanted, by the kind
TRACE = {
    'First': 'The first line that counts is the arc line: arc and seven numbers.',
    'Word': 'There is one arc line, and any other line begins with another word that docs/FORMATS.md has.',
    'Shape': 'A line has the fields that its word wants, with one space between each two and none at its end.',
    'Number': 'A number is decimal with no sign and no leading zero, in the range of its field; a digest has 64 lower-case hexadecimal digits, a byte two.',
    'Order': "All l2, block and object lines stand in front of the operations, there is at most one l2 line, a line names a block that an earlier line declares, and no line maps an object's block that is mapped already.",
    'Count': 'A trace has at most 100,000 block lines, 100,000 object lines and 1,000,000 operations.',
    'Length': 'A trace has at most 67,108,864 bytes.',
}
PAGES = {
    'Shape': 'A line is one page number, with no space.',
    'Number': 'A page number is decimal with no sign and no leading zero, from 0 to 4,611,686,018,427,387,904.',
    'Count': 'A list has at most 1,000,000 pages.',
    'Length': 'A list of pages has at most 67,108,864 bytes.',
}
LOG = {
    'First': 'The first line that counts is the arc line: arc and seven numbers.',
    'Word': 'There is one arc line, and any other line is l2 and two numbers, or e, a shard, an index and the words of an event that docs/FORMATS.md has.',
    'Shape': 'A line has the fields that its words want, with one space between each two and none at its end.',
    'Number': "A number is decimal with no sign and no leading zero, in the range of its field; a key is that of a block; a digest has 64 lower-case hexadecimal digits; an event's last word is one that docs/FORMATS.md has.",
    'Order': 'An event is the next one of its shard or the first of a greater shard, its key is of that shard, and there is at most one l2 line, in front of all events.',
    'Count': 'A log has at most 1,000,000 events.',
    'Length': 'A log has at most 67,108,864 bytes.',
}
USAGE = 'arc_lint: usage: arc_lint [--pages | --log] < FILE; arc_lint --help says more'
NO_OUTPUT = 'arc_lint: the standard output could not be written'
HELP = '''\
Tells whether the standard input is a trace for arc_tool: what it declares, or its first line at fault.

Usage: arc_lint [--pages | --log] < FILE

Options:
      --pages    Reads a list of pages, as arc_tool's paper takes one, and no trace
      --log      Reads a log of events, as arc_tool's check takes one, and no trace
  -h, --help     Print help
  -V, --version  Print version

What the text declares stands behind 'ok'. Of a text with a fault three lines
are told: the first line at fault by its number, with the kind of its fault; the
line, cut to 200 bytes; and what is wanted there.

Exit status:
  0  The text is a trace, a list of pages, or a log of events
  2  A word is wrong
  3  The text has a fault, which was told
  4  The standard input could not be read
  5  The standard output could not be written
  7  There was too little memory
'''.splitlines()

# what it shows, the text, and what a trace declares or the line at fault, the kind and what is shown of the line
TRACES = [
    ('sizes alone', ARC, f'ok {SIZES} blocks 0 objects 0 operations 0'),
    ('an end without a newline', ARC[:-1], f'ok {SIZES} blocks 0 objects 0 operations 0'),
    ('comments and empty lines', f'# all\n\n{HEAD}#\nread 0 1 0 0 4\n\n', f'ok {SIZES} blocks 1 objects 0 operations 1'),
    ('each line', f'{HEAD}block 512 512 1 {Z}\nread 0 1 0 0 4\nhold 0 2 1\ndrop 0 1\n', f'ok {SIZES} blocks 2 objects 0 operations 3'),
    ('the largest numbers', 'arc 16 16 256 16 268435456 4294967296 4294967296\n',
     'ok callers 16 shards 16 buckets 256 cells 16 c 268435456 mintime 4294967296 dbufs 4294967296 write_max 8388608 headroom 2 blocks 0 objects 0 operations 0'),
    ('bounds', f'{ARC}l2 512 64\n', f'ok {SIZES[:SIZES.index("write_max")]}write_max 512 headroom 64 blocks 0 objects 0 operations 0'),
    ('bounds behind a block', f'{HEAD}l2 4294967296 1\nread 0 1 0 0 4\n',
     f'ok {SIZES[:SIZES.index("write_max")]}write_max 4294967296 headroom 1 blocks 1 objects 0 operations 1'),
    ('no byte', '', (1, 'First', '')),
    ('no line that counts', '# nothing\n\n', (1, 'First', '# nothing')),
    ('another first line', f'# a pool\nblock 0 512 1 {Z}\n{ARC}', (2, 'First', f'block 0 512 1 {Z}')),
    ('a space in front', f' {ARC}', (1, 'First', ' arc 1 1 16 1 4096 0 0')),
    ('no word', f'{HEAD}Read 0 1 0 0 4\n', (3, 'Word', 'Read 0 1 0 0 4')),
    ('a second arc line', f'{HEAD}{ARC}', (3, 'Word', ARC[:-1])),
    ('a tab', f'{HEAD}read\t0 1 0 0 4\n', (3, 'Word', r'read\x090 1 0 0 4')),
    ('too few fields', f'{HEAD}read 0 1 0 0\n', (3, 'Shape', 'read 0 1 0 0')),
    ('an empty field', f'{HEAD}read 0 1  0 4\n', (3, 'Shape', 'read 0 1  0 4')),
    ('a space at the end', 'arc 1 1 16 1 4096 0 0 \n', (1, 'Shape', 'arc 1 1 16 1 4096 0 0 ')),
    ('a zero in front', f'{HEAD}read 0 01 0 0 4\n', (3, 'Number', 'read 0 01 0 0 4')),
    ('a sign', f'{HEAD}read 0 +1 0 0 4\n', (3, 'Number', 'read 0 +1 0 0 4')),
    ('a caller too many', f'{HEAD}read 1 1 0 0 4\n', (3, 'Number', 'read 1 1 0 0 4')),
    ('a window too long', f'{HEAD}read 0 1 7 0 65\n', (3, 'Number', 'read 0 1 7 0 65')),
    ('too small a cache', 'arc 1 1 16 1 4095 0 0\n', (1, 'Number', 'arc 1 1 16 1 4095 0 0')),
    ('more than all shards may have', 'arc 1 2 16 1 2147483649 0 0', (1, 'Number', 'arc 1 2 16 1 2147483649 0 0')),
    ('a digest in upper case', f'{ARC}block 0 512 1 {Z.upper()}\n', (2, 'Number', f'block 0 512 1 {Z.upper()}')),
    ('lines that end by two characters', HEAD.replace('\n', '\r\n'), (1, 'Number', r'arc 1 1 16 1 4096 0 0\x0d')),
    ('a block that no line declares', f'{HEAD}read 0 1 7 0 64\n', (3, 'Order', 'read 0 1 7 0 64')),
    ('a block behind an operation', f'{HEAD}hold 0 1 0\nblock 0 512 1 {Z}\n', (4, 'Order', f'block 0 512 1 {Z}')),
    ('an object on a block that no line declares', f'{HEAD}object 7 0 1\nblock 512 512 1 {Z}\n', (3, 'Order', 'object 7 0 1')),
    ('bounds twice', f'{ARC}l2 8388608 2\nl2 8388608 2\n', (3, 'Order', 'l2 8388608 2')),
    ('bounds behind an operation', f'{HEAD}hold 0 1 0\nl2 8388608 2\n', (4, 'Order', 'l2 8388608 2')),
    ('bounds too small', f'{ARC}l2 511 2\n', (2, 'Number', 'l2 511 2')),
    ('too great a headroom', f'{ARC}l2 512 65\n', (2, 'Number', 'l2 512 65')),
    ('an object behind an operation', f'{HEAD}hold 0 1 0\nobject 7 0 0\n', (4, 'Order', 'object 7 0 0')),
    ("an object's block mapped twice", f'{HEAD}object 7 0 0\nobject 7 1 0\nobject 7 0 0\n', (5, 'Order', 'object 7 0 0')),
    ('the same, behind the numbers', f'{HEAD}object 7 0 0\nobject 7 0 4611686018427387905\n', (4, 'Number', 'object 7 0 4611686018427387905')),
    ('the first of two faults', f'{HEAD}read 0 1\nread 0 1 7 0 64\n', (3, 'Shape', 'read 0 1')),
    ('the last line, which has no newline', f'{HEAD}\n#\nhold 0', (5, 'Shape', 'hold 0')),
    ('a backslash and bytes of no text', HEAD.encode() + b'a\\b\x00\x7f\xc3\xa9~ \n', (3, 'Word', r'a\x5cb\x00\x7f\xc3\xa9~ ')),
    ('a line of 200 bytes', f'{HEAD}{"x" * 200}\n', (3, 'Word', 'x' * 200)),
    ('a line of 201 bytes', f'{HEAD}{"x" * 200}y\n', (3, 'Word', 'x' * 200)),
    ('all blocks', ARC + f'block 0 512 1 {Z}\n' * 100_000, f'ok {SIZES} blocks 100000 objects 0 operations 0'),
    ('a block too many', ARC + f'block 0 512 1 {Z}\n' * 100_001, (100_002, 'Count', f'block 0 512 1 {Z}')),
    ('an object line too many', HEAD + ''.join(f'object 7 {block} 0\n' for block in range(100_001)), (100_003, 'Count', 'object 7 100000 0')),
    ('all operations', HEAD + 'drop 0 0\n' * 1_000_000, f'ok {SIZES} blocks 1 objects 0 operations 1000000'),
    ('an operation too many', HEAD + 'drop 0 0\n' * 1_000_001, (1_000_003, 'Count', 'drop 0 0')),
    ('the longest text', HEAD + '#' * (LONGEST - len(HEAD)), f'ok {SIZES} blocks 1 objects 0 operations 0'),
    ('a byte too many', HEAD + '#' * (LONGEST + 1 - len(HEAD)), (3, 'Length', '#' * 200)),
    ('a byte too many behind another fault', 'x\n' * (LONGEST // 2) + 'y', (LONGEST // 2 + 1, 'Length', 'y')),
]
# traces with lines that arc_tool doesn't do yet, so it isn't asked
HERE = os.path.dirname(os.path.abspath(__file__))
PAGE = open(f'{HERE}/../docs/FORMATS.md').read()
AHEAD = [
    ('the line of every kind on the page of formats', PAGE.split('A line of every kind:\n\n    ')[1].split('\n\n')[0].replace('\n    ', '\n'),
     'ok callers 1 shards 1 buckets 16 cells 1 c 4096 mintime 0 dbufs 4096 write_max 1048576 headroom 2 blocks 1 objects 1 operations 11'),
    ('objects and blocks in any order', f'{HEAD}object 7 0 0\nblock 512 512 1 {Z}\nobject 7 1 1\nobject 8 0 0\n', f'ok {SIZES} blocks 2 objects 3 operations 0'),
    ('all mappings', HEAD + ''.join(f'object 7 {block} 0\n' for block in range(100_000)), f'ok {SIZES} blocks 1 objects 100000 operations 0'),
    ('operations on objects', f'{HEAD}object 7 0 0\nget 0 1 7 0 0 64\nput 0 2 7 0 512 ff\npatch 0 3 7 0 1 0a0b\npin 0 4 7 0\nunpin 0 7 0\nfeed\ntxg 5\ncap 8192\n',
     f'ok {SIZES} blocks 1 objects 1 operations 8'),
]
LISTS = [
    ('no page', '', 'ok pages 0'),
    ('pages', '# two\n7\n\n4611686018427387904', 'ok pages 2'),
    ('all pages', '1\n' * 1_000_000, 'ok pages 1000000'),
    ('two numbers', '1\n1 2\n', (2, 'Shape', '1 2')),
    ('a space', '1\n \n', (2, 'Shape', ' ')),
    ('no number', 'one\n', (1, 'Number', 'one')),
    ('a number too large', '0\n4611686018427387905\n', (2, 'Number', '4611686018427387905')),
    ('a page too many', '1\n' * 1_000_001, (1_000_001, 'Count', '1')),
    ('a byte too many', '#' * (LONGEST + 1), (1, 'Length', '#' * 200)),
]
MISS = 'e 0 0 miss 0 0 512 1 1'
ARRIVE = f'e 0 1 arrive 0 0 512 1 {Z} pool'
FIRST = f'{ARC}{MISS}\n'
# one caller and two cells, and all that a log may say of one shard; none but the first of these needs to be legal
EACH = [
    'miss 0 0 512 1 1', f'arrive 0 0 512 1 {Z} pool', 'hit 0 0 512 1 4611686018427387904', 'drop 0 0 512 1', f'past 0 0 512 1 {Z}', 'hand 0 0 512 1 2', f'insert 2 0 512 1 {Z} 7',
    'release 2 0 512 1 sole', 'release 2 0 512 1 shared', 'pass 3 0 512 1 0', 'pick 1 0 512 1', 'feedend 1', 'set 1 0 512 1 4096', 'leave 1 0 512 1 gone', 'leave 1 0 512 1 device',
    'leave 1 0 512 1 memory', 'clear 1 0 512 1', f'restore 1 0 512 1 4096 {Z}', 'restore 1 0 512 1 4096 -', 'resize 1 8192', 'fail 0 0 512 1 pool', 'fail 0 0 512 1 unread',
    f'arrive 0 0 512 1 {Z} l2', 'miss 0 9223372036854775296 512 18446744073709551615 0', 'miss 0 0 16777216 1 0',
]
LOGS = [
    ('no event', ARC, f'ok {SIZES} events 0'),
    ('comments and empty lines', f'# all\n\n{ARC}#\n{MISS}\n\n{ARRIVE}', f'ok {SIZES} events 2'),
    ('bounds', f'{ARC}l2 512 64\n{MISS}\n', f'ok {SIZES[:SIZES.index("write_max")]}write_max 512 headroom 64 events 1'),
    ('what may not have happened', f'{ARC}e 0 0 drop 0 0 512 1\n', f'ok {SIZES} events 1'),
    ('each event', 'arc 1 1 16 2 4096 0 0\n' + ''.join(f'e 0 {i} {words}\n' for i, words in enumerate(EACH)), f'ok {SIZES.replace("cells 1", "cells 2")} events {len(EACH)}'),
    ('shards without events', 'arc 1 16 16 1 4096 0 0\ne 12 0 miss 0 512 512 1 1\ne 14 0 resize 1 4096\n', f'ok {SIZES.replace("shards 1", "shards 16")} events 2'),
    ('no byte', '', (1, 'First', '')),
    ('no line that counts', '# nothing\n\n', (1, 'First', '# nothing')),
    ('an event in front of the sizes', f'{MISS}\n{ARC}', (1, 'First', MISS)),
    ('too small a cache', f'arc 1 1 16 1 4095 0 0\n{MISS}\n', (1, 'Number', 'arc 1 1 16 1 4095 0 0')),
    ('a line of a trace', f'{HEAD}', (2, 'Word', f'block 0 512 1 {Z}')),
    ('a second arc line', f'{FIRST}{ARC}', (3, 'Word', ARC[:-1])),
    ('an event that is none', f'{ARC}e 0 0 evict 0 0 512 1\n', (2, 'Word', 'e 0 0 evict 0 0 512 1')),
    ('no name', f'{ARC}e 0 0\n', (2, 'Shape', 'e 0 0')),
    ('too few fields', f'{ARC}e 0 0 miss 0 0 512 1\n', (2, 'Shape', 'e 0 0 miss 0 0 512 1')),
    ('too many fields', f'{ARC}e 0 0 drop 0 0 512 1 1\n', (2, 'Shape', 'e 0 0 drop 0 0 512 1 1')),
    ('an empty field', f'{ARC}e 0 0 miss 0  0 512 1\n', (2, 'Shape', 'e 0 0 miss 0  0 512 1')),
    ('a restore without its digest', f'{ARC}e 0 0 restore 1 0 512 1 4096\n', (2, 'Shape', 'e 0 0 restore 1 0 512 1 4096')),
    ('a zero in front', f'{ARC}e 0 00 miss 0 0 512 1 1\n', (2, 'Number', 'e 0 00 miss 0 0 512 1 1')),
    ('a shard that there is none of', f'{ARC}e 1 0 miss 0 0 512 1 1\n', (2, 'Number', 'e 1 0 miss 0 0 512 1 1')),
    ('the last party', f'{ARC}e 0 0 drop 2 0 512 1\n', f'ok {SIZES} events 1'),
    ('a party too many', f'{ARC}e 0 0 drop 3 0 512 1\n', (2, 'Number', 'e 0 0 drop 3 0 512 1')),
    ('a key between two sectors', f'{ARC}e 0 0 miss 0 1 512 1 1\n', (2, 'Number', 'e 0 0 miss 0 1 512 1 1')),
    ('a block of no byte', f'{ARC}e 0 0 miss 0 0 0 1 1\n', (2, 'Number', 'e 0 0 miss 0 0 0 1 1')),
    ('a block that is too large', f'{ARC}e 0 0 miss 0 0 16777728 1 1\n', (2, 'Number', 'e 0 0 miss 0 0 16777728 1 1')),
    ('a birth of 0', f'{ARC}e 0 0 miss 0 0 512 0 1\n', (2, 'Number', 'e 0 0 miss 0 0 512 0 1')),
    ('a key behind the end', f'{ARC}e 0 0 miss 0 9223372036854775808 512 1 1\n', (2, 'Number', 'e 0 0 miss 0 9223372036854775808 512 1 1')),
    ('a tick too late', f'{ARC}e 0 0 miss 0 0 512 1 4611686018427387905\n', (2, 'Number', 'e 0 0 miss 0 0 512 1 4611686018427387905')),
    ('another last word', f'{FIRST}{ARRIVE[:-4]}disk\n', (3, 'Number', f'{ARRIVE[:-4]}disk')),
    ('a digest in upper case', f'{FIRST}{ARRIVE.replace(Z, Z.upper())}\n', (3, 'Number', ARRIVE.replace(Z, Z.upper()))),
    ('lines that end by two characters', FIRST.replace('\n', '\r\n'), (1, 'Number', r'arc 1 1 16 1 4096 0 0\x0d')),
    ('an index that is not the next', f'{ARC}e 0 1 miss 0 0 512 1 1\n', (2, 'Order', 'e 0 1 miss 0 0 512 1 1')),
    ('an event twice', f'{FIRST}{MISS}\n', (3, 'Order', MISS)),
    ('a lower shard', 'arc 1 16 16 1 4096 0 0\ne 12 0 miss 0 512 512 1 1\ne 0 0 miss 0 0 512 1 1\n', (3, 'Order', 'e 0 0 miss 0 0 512 1 1')),
    ('a key of another shard', 'arc 1 16 16 1 4096 0 0\ne 1 0 miss 0 0 512 1 1\n', (2, 'Order', 'e 1 0 miss 0 0 512 1 1')),
    ('bounds twice', f'{ARC}l2 8388608 2\nl2 8388608 2\n', (3, 'Order', 'l2 8388608 2')),
    ('bounds behind an event', f'{FIRST}l2 8388608 2\n', (3, 'Order', 'l2 8388608 2')),
    ('bounds too small', f'{ARC}l2 511 2\n', (2, 'Number', 'l2 511 2')),
    ('a number before the order', f'{ARC}e 0 1 drop 3 0 512 1\n', (2, 'Number', 'e 0 1 drop 3 0 512 1')),
    ('all events', ARC + ''.join(f'e 0 {i} resize 1 4096\n' for i in range(1_000_000)), f'ok {SIZES} events 1000000'),
    ('an event too many', ARC + ''.join(f'e 0 {i} resize 1 4096\n' for i in range(1_000_001)), (1_000_002, 'Count', 'e 0 1000000 resize 1 4096')),
    ('a byte too many', FIRST + '#' * (LONGEST + 1 - len(FIRST)), (3, 'Length', '#' * 200)),
]
# what it shows; the words; the text, or 'folder'; the exit status and the lines of both outputs; and what is special of the standard output
PROGRAM = [
    ('the help', ['--help'], '', 0, HELP, []),
    ('the version', ['-V'], '', 0, ['arc_lint 0.1.0'], []),
    ('the help to a full output', ['--help'], '', 5, [], [NO_OUTPUT], 'full'),
    ('an unknown word', ['--page'], ARC, 2, [], [USAGE]),
    ('a file', ['trace'], ARC, 2, [], [USAGE]),
    ('a word twice', ['--pages', '--pages'], ARC, 2, [], [USAGE]),
    ('two formats', ['--log', '--pages'], ARC, 2, [], [USAGE]),
    ('two formats, the other first', ['--pages', '--log'], ARC, 2, [], [USAGE]),
    ('a word that is no text', [b'\xff'], ARC, 2, [], [USAGE]),
    ('a source that fails', [], 'folder', 4, [], ['arc_lint: the standard input could not be read']),
    ('a full output', [], ARC, 5, [], [NO_OUTPUT], 'full'),
    ('a closed output', [], ARC, 5, [], [NO_OUTPUT], 'closed'),
    ('an output that takes a part', [], HEAD + 'x' * 100, 5, ['bad 3 Word', 'x' * 89], [NO_OUTPUT], 'cut'),
    ('too little memory', [], '#' * LONGEST, 7, [], ['arc_lint: there was too little memory'], 'poor'),
]


def told(words, found, wanted):
    if isinstance(found, str):
        return words, 0, [found]
    line, kind, shown = found
    return words, 3, [f'bad {line} {kind}', shown, wanted[kind]]


def rows():
    for table, words, command, wanted in ([*TRACES, *fault_rows.rows()], [], ['run'], TRACE), (LISTS, ['--pages'], ['paper', '1'], PAGES), (LOGS, ['--log'], ['check'], LOG):
        for name, text, found in table:
            words, status, output = told(words, found, wanted)
            yield name, words, text, status, output, [], None, command
    for name, text, found in AHEAD:
        yield name, [], text, 0, [found], [], None, None
    for name, words, text, status, output, errors, *special in PROGRAM:
        yield name, words, text, status, output, errors, special[0] if special else None, None


def run(program, words, text, special=None):
    def prepare():
        if special == 'closed':
            os.close(1)
        if special == 'cut':
            signal.signal(signal.SIGXFSZ, signal.SIG_IGN)
            resource.setrlimit(resource.RLIMIT_FSIZE, (100, 100))
        if special == 'poor':
            resource.setrlimit(resource.RLIMIT_AS, (48 << 20, 48 << 20))
    if text != 'folder':
        with open('source', 'wb') as out:
            out.write(text if isinstance(text, bytes) else text.encode())
    stdin = os.open('folder' if text == 'folder' else 'source', os.O_RDONLY)
    stdout = {'cut': 'cut', 'full': '/dev/full'}.get(special, 'out')
    opened = os.open(stdout, os.O_WRONLY | os.O_CREAT | os.O_TRUNC)
    ended = subprocess.run([program, *words], stdin=stdin, stdout=opened, stderr=subprocess.PIPE, preexec_fn=prepare if special else None, timeout=60)
    os.close(stdin)
    os.close(opened)
    output = b'' if special == 'full' else open(stdout, 'rb').read()
    return ended.returncode, output.decode().splitlines(), ended.stderr.decode().splitlines()


def main():
    lint, tool = map(os.path.abspath, sys.argv[1:3])
    wrong = right = 0
    with tempfile.TemporaryDirectory(prefix='arc_lint.') as work:
        os.chdir(work)
        os.mkdir('folder')
        for name, words, text, status, output, errors, special, command in rows():
            ours = run(lint, words, text, special)
            refused = run(tool, ['-', '-', *command], text)[0] if command else None
            if ours != (status, output, errors):
                print(f'{name}: {words} ended with {str(ours)[:1000]}, not with {str((status, output, errors))[:1000]}')
                wrong += 1
            elif command and (refused == 3) != (status == 3):
                print(f'{name}: {command} of arc_tool ended with {refused}')
                wrong += 1
            else:
                right += 1
        os.chdir('/')
    print(f'lint: {right} rows right, {wrong} wrong')
    sys.exit(wrong > 0)


main()
