"""Lines of traces and what is wrong with each, for lint_table.py: kinds and lines, behind a text that is right and in front of another fault."""
import string

Z = '076a27c79e5ace2a3d47f9dd2e83e4ff6ea8872b3c2218f66c92b89b55f36560'  # of 512 zero bytes
SIZES = 'arc 1 1 16 1 4096 0 4096\n'
BLOCK = f'block 0 512 1 {Z}\n'
READ = 'read 0 1 0 0 4\n'
# what a text of the sizes declares, but for the last two numbers
DECLARED = 'ok callers 1 shards 1 buckets 16 cells 1 c 4096 mintime 0 dbufs {} write_max 8388608 headroom 2 blocks {} objects 0 operations {}'

# behind the sizes and a block
THIRD_LINES = '''\
Word|arc 1 1 16 1 4096 0 4096
Word|arc
Word|reads 0 1 0 0 4
Word|rea
Word|Read 0 1 0 0 4
Word| read 0 1 0 0 4
Word|read\t0 1 0 0 4
Shape|read 0 1 0 0
Shape|read 0 1 0 0 4 5
Shape|read 0 1 0 0 4\x20
Shape|read 0  1 0 0 4
Shape|read 0 1  0 4
Shape|hold 0 1
Shape|drop 0
Shape|drop
Shape|read 5  x 0 0 4
Shape|block 0 512 1
Shape|drop 0\x20
'''
# the same, with numbers that are not spelled as said or are out of their ranges
THIRD_NUMBERS = '''\
Number|read 1 1 0 0 4
Number|read 4294967296 1 0 0 4
Number|read 00 1 0 0 4
Number|read 0\t1 0 0 4 4
Number|read 0 1 00 0 4
Number|read 0 1 0 01 4
Number|read 0 1 0 0 04
Number|read 0 1 0 0 4.
Number|read 0 1_0 0 0 4
Number|read 0 123456789012345678901234567890 0 0 4
Number|read 0 1 9 0 123456789012345678901234567890
Number|read 0 +1 0 0 4
Number|read 0 -1 0 0 4
Number|read 0 1 0 0\r 4
Number|read 0 1x 0 0 4
Number|read 0 0x1 0 0 4
Number|read 0 4611686018427387905 0 0 4
Number|read 0 1 4611686018427387905 0 4
Number|read 0 1 0 4294967296 4
Number|read 0 1 0 0 65
Number|read 0 1 1 0 65
Number|hold 1 1 0
Number|hold 0 4611686018427387905 0
Number|hold 0 x 0
Number|hold 0 1 4611686018427387905
Number|drop 1 0
Number|drop 0 4611686018427387905
Order|read 0 1 1 0 4
Order|hold 0 1 4611686018427387904
Order|drop 0 4294967296
Order|hold 0 1 1
Order|read 0 1 4611686018427387904 0 4
Shape|l2
Shape|l2 512
Shape|l2 512 2 0
Number|l2 511 2
Number|l2 4294967297 2
Number|l2 512 0
Number|l2 512 65
Shape|object
Shape|object 7 0
Shape|object 7 0 0 0
Word|objects 7 0 0
Number|object 4611686018427387905 0 0
Number|object 7 4611686018427387905 0
Number|object 7 0 4611686018427387905
Number|object 07 0 0
Order|object 7 0 1
Order|object 7 0 4611686018427387904
Shape|cap
Shape|cap 4096 0
Shape|cap\x20
Word|cap\t4096
Number|cap 4095
Number|cap 04096
Number|cap 4294967297
Number|cap 123456789012345678901234567890
'''
# the same, of blocks of objects, of feeds and of groups
THIRD_OPERATIONS = '''\
Shape|get 0 1 7 0 0
Shape|put 0 1 7 0 512
Shape|patch 0 1 7 0 0
Shape|patch 0 1 7 0 0\x20
Shape|pin 0 1 7 0 0
Shape|unpin 0 7
Shape|feed 1
Shape|feed\x20
Shape|txg
Word|feeds
Word|gets 0 1 7 0 0 0
Number|get 1 1 7 0 0 0
Number|get 0 4611686018427387905 7 0 0 0
Number|get 0 1 4611686018427387905 0 0 0
Number|get 0 1 7 4611686018427387905 0 0
Number|get 0 1 7 0 4294967296 0
Number|get 0 1 7 0 0 65
Number|put 1 1 7 0 512 ab
Number|put 0 4611686018427387905 7 0 512 ab
Number|put 0 1 4611686018427387905 0 512 ab
Number|put 0 1 7 4611686018427387905 512 ab
Number|put 0 1 7 0 0 ab
Number|put 0 1 7 0 513 ab
Number|put 0 1 7 0 16777728 ab
Number|put 0 1 7 0 512 aB
Number|put 0 1 7 0 512 a
Number|put 0 1 7 0 512 abc
Number|put 0 1 7 0 512 7
Number|patch 1 1 7 0 0 00
Number|patch 0 4611686018427387905 7 0 0 00
Number|patch 0 1 4611686018427387905 0 0 00
Number|patch 0 1 7 4611686018427387905 0 00
Number|patch 0 1 7 0 4294967296 00
Number|patch 0 1 7 0 0 0
Number|patch 0 1 7 0 0 0g
Number|patch 0 1 7 0 0 0000000000000000000000000000000000000000000000000000000000000000000000000000000000000000000000000000000000000000000000000000000000
Number|pin 1 1 7 0
Number|pin 0 4611686018427387905 7 0
Number|pin 0 1 4611686018427387905 0
Number|pin 0 1 7 -1
Number|unpin 1 7 0
Number|unpin 0 4611686018427387905 0
Number|unpin 0 7 4611686018427387905
Number|unpin 0 x 0
Number|txg 4611686018427387905
'''
# the same, of blocks
THIRD_BLOCKS = '''\
Number|block 4611686018427387905 512 1 076a27c79e5ace2a3d47f9dd2e83e4ff6ea8872b3c2218f66c92b89b55f36560
Number|block 0 4294967297 1 076a27c79e5ace2a3d47f9dd2e83e4ff6ea8872b3c2218f66c92b89b55f36560
Number|block 0 512 4611686018427387905 076a27c79e5ace2a3d47f9dd2e83e4ff6ea8872b3c2218f66c92b89b55f36560
Number|block 0 512 1 076A27c79e5ace2a3d47f9dd2e83e4ff6ea8872b3c2218f66c92b89b55f36560
Number|block 0 512 1 076a27c79e5ace2a3d47f9dd2e83e4ff6ea8872b3c2218f66c92b89b55f3656
Number|block 0 512 1 076a27c79e5ace2a3d47f9dd2e83e4ff6ea8872b3c2218f66c92b89b55f3656g
'''
# lines with numbers at the ends of their ranges, with which nothing is wrong behind the sizes and a block
GOOD_LINES = '''\
read 0 0 0 0 0
read 0 4611686018427387904 0 4294967295 64
hold 0 4611686018427387904 0
drop 0 0
get 0 4611686018427387904 4611686018427387904 4611686018427387904 4294967295 64
put 0 0 0 0 512 00
put 0 1 7 0 16777216 ff
patch 0 1 7 0 4294967295 a0
patch 0 1 7 0 0 00000000000000000000000000000000000000000000000000000000000000000000000000000000000000000000000000000000000000000000000000000000
pin 0 1 7 0
unpin 0 7 0
feed
txg 4611686018427387904
cap 4096
cap 4294967296
l2 512 1
l2 4294967296 64
object 7 0 0
object 4611686018427387904 4611686018427387904 0
block 4611686018427387904 4294967296 4611686018427387904 076a27c79e5ace2a3d47f9dd2e83e4ff6ea8872b3c2218f66c92b89b55f36560
block 1 0 0 ffffffffffffffffffffffffffffffffffffffffffffffffffffffffffffffff

#read
# \tarc
'''
# first lines
FIRST_LINES = '''\
First| arc 1 1 16 1 4096 0 0
First|arc\t1 1 16 1 4096 0 0
First|Arc 1 1 16 1 4096 0 0
First|arcs
First|\rarc
First|read 0 1 0 0 4
Shape|arc
Shape|arc 1 1 16 1 4096 0
Shape|arc 1 1 16 1 4096 0 0 0
Shape|arc 1  1 16 1 4096 0 0
Shape|arc 1 1 16 1 4096 0\x20
Shape|arc x 1 16 1 4096 0
Number|arc 17 1 16 1 4096 0 0
Number|arc 0 1 16 1 4096 0 0
Number|arc 1 17 16 1 4096 0 0
Number|arc 1 0 16 1 4096 0 0
Number|arc 1 16 16 1 268435457 0 0
Number|arc 1 1 0 1 4096 0 0
Number|arc 1 1 257 1 4096 0 0
Number|arc 1 1 16 0 4096 0 0
Number|arc 1 1 16 17 4096 0 0
Number|arc 1 1 16 1 4095 0 0
Number|arc 1 1 16 1 4294967297 0 0
Number|arc 1 1 16 1 4096 4294967297 0
Number|arc 1 1 16 1 4096 0 4294967297
Number|arc 1 1 16 1 4096 0 00
Number|arc 01 1 16 1 4096 0 0
Number|arc 1 1 16 1 +4096 0 0
Number|arc 1 1 16 1 4096 -0 0
Number|arc 1 1 16 1 4096 0 123456789012345678901234567890
Number|arc 4294967297 1 16 1 4096 0 0
'''
# behind the bounds and three mappings
LATE_OBJECTS = '''\
Order|l2 8388608 2
Number|l2 8388608 65
Order|object 7 0 0
Order|object 8 0 0
Order|object 8 0 1
Number|object 7 0 4611686018427387905
Shape|object 7 0
'''
# behind an operation
LATE_BLOCKS = '''\
Order|l2 512 1
Order|object 7 0 0
Number|object 7 0 4611686018427387905
Order|block 0 512 1 076a27c79e5ace2a3d47f9dd2e83e4ff6ea8872b3c2218f66c92b89b55f36560
Number|block 0 512 1 0
Shape|block 0 512 1
'''


def shown(line):
    """A line as it is told: cut to 200 bytes, and other bytes than those of plain letters in hexadecimal digits."""
    plain = set(string.printable) - set(string.whitespace) | {' '}
    return ''.join(c if c in plain - {'\\'} else f'\\x{ord(c):02x}' for c in line[:200])


def lines(before, rows):
    """Each of these lines behind a text, with its kind, and in front of a line that has another fault."""
    number = before.count('\n') + 1
    for row in rows.split('\n')[:-1]:
        kind, line = row.split('|')
        yield f'{kind} in line {number}: {line}', f'{before}{line}\nread\n', (number, kind, shown(line))


def cuts():
    """A small trace, cut behind each of its bytes."""
    whole = SIZES + BLOCK + READ
    faults = [(3, 1, 'First'), (21, 1, 'Shape'), (26, None, None), (30, 2, 'Word'), (40, 2, 'Shape'), (103, 2, 'Number'), (105, None, None), (108, 3, 'Word'), (118, 3, 'Shape'),
              (120, None, None)]
    for n in range(len(whole) + 1):
        text = whole[:n]
        number, kind = next((number, kind) for end, number, kind in faults if n < end)
        if kind:
            found = number, kind, text.split('\n')[number - 1]
        else:
            found = DECLARED.format(text.split('\n')[0].split(' ')[-1], int(n > 102), int(n > 117))
        yield f'the first {n} bytes of a trace', text, found


def rows():
    two = SIZES + BLOCK
    for table in THIRD_LINES, THIRD_NUMBERS, THIRD_OPERATIONS, THIRD_BLOCKS:
        yield from lines(two, table)
    for line in GOOD_LINES.split('\n')[:-1]:
        yield f'no fault in line 3: {line}', f'{two}{line}\nread\n', (4, 'Shape', 'read')
    yield from lines('', FIRST_LINES)
    for text in '\n', '\n\n#\n', '# only\n# comments':
        yield f'no line that counts: {text!r}', text, (1, 'First', text.split('\n')[0])
    yield from lines('\n# a comment\n\n', 'First|hold 0 1 0\n')
    yield from lines('arc 16 1 1 1 4096 0 0\n', 'Number|read 16 1 0 0 0\nOrder|read 15 1 0 0 0\n')
    yield from lines('arc 1 16 1 1 4096 0 0\ncap 268435456\n', 'Number|cap 268435457\nOrder|read 0 1 0 0 0\n')
    yield from lines('arc 1 1 16 1 4096 0 0\n#\n', 'Word|fly\n')
    yield from lines(f'{two}l2 8388608 2\nobject 7 0 0\nobject 7 1 0\nobject 8 0 0\n', LATE_OBJECTS)
    yield from lines(two + READ, LATE_BLOCKS)
    yield from cuts()
