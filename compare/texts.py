#!/usr/bin/env python3
"""Compares what arc_lint says of drawn texts with a plain reader: compare/texts.py [SECONDS] [SEED].

The texts are traces with lines of every kind, numbers at the ends of their ranges among them, and the same with a byte, a field or a
line changed. Of each text both have to say the same: what it declares, or its first line at fault and the fault's kind. The reader
below was written from docs/FORMATS.md alone. A text on which they differ is kept, and its place is printed.
arc_lint has to be built: (cd crates/arc_lint && rt run -- --version). ARC_LINT may name another build.
"""
import collections
import os
import random
import re
import subprocess
import sys
import tempfile
import time

HERE = os.path.dirname(os.path.abspath(__file__))
LONGEST = 67_108_864
PLAIN = 2**62
WIDE = 2**32

# ---- the reader


def number(low, high):
    def value(field):
        if not re.fullmatch(rb'0|[1-9][0-9]{0,19}', field):
            return None
        n = int(field)
        return n if low <= n <= high else None
    return value


def hexadecimal(low, high):
    def value(field):
        fits = re.fullmatch(rb'(?:[0-9a-f]{2})+', field) and 2 * low <= len(field) <= 2 * high
        return field if fits else None
    return value


def block_size(field):
    size = number(512, 2**24)(field)
    return None if size is None or size % 512 else size


plain, wide, start, window = number(0, PLAIN), number(0, WIDE), number(0, WIDE - 1), number(0, 64)
caller = number(0, 15)
OF_A_CALLER = {b'read', b'hold', b'drop', b'get', b'put', b'patch', b'pin', b'unpin'}
FIELDS = {
    b'arc': [number(1, 16), number(1, 16), number(1, 256), number(1, 16), number(4096, WIDE), wide, wide],
    b'l2': [number(512, WIDE), number(1, 64)],
    b'block': [plain, wide, plain, hexadecimal(32, 32)],
    b'object': [plain, plain, plain],
    b'read': [caller, plain, plain, start, window],
    b'hold': [caller, plain, plain],
    b'drop': [caller, plain],
    b'get': [caller, plain, plain, plain, start, window],
    b'put': [caller, plain, plain, plain, block_size, hexadecimal(1, 1)],
    b'patch': [caller, plain, plain, plain, start, hexadecimal(1, 64)],
    b'pin': [caller, plain, plain, plain],
    b'unpin': [caller, plain, plain],
    b'feed': [],
    b'txg': [plain],
    b'cap': [number(4096, WIDE)],
}
# where the line's number of a declared block stands
NAMES_BLOCK = {b'object': 2, b'read': 2, b'hold': 2, b'drop': 1}
DECLARES = {b'l2', b'block', b'object'}


class Said:
    """What the lines so far say."""

    def __init__(self):
        self.sizes = None
        self.bounds = None
        self.blocks = 0
        self.mapped = set()
        self.operations = 0

    def fault(self, line):
        """The kind of the line's fault; None where it has none, and then it is taken in."""
        word, *fields = line.split(b' ')
        if self.sizes is None and word != b'arc':
            return 'First'
        if word not in FIELDS or (word == b'arc' and self.sizes is not None):
            return 'Word'
        if len(fields) != len(FIELDS[word]) or b'' in fields:
            return 'Shape'
        values = [value(field) for value, field in zip(FIELDS[word], fields)]
        if None in values or not self.is_in_range(word, values):
            return 'Number'
        if not self.is_in_order(word, values):
            return 'Order'
        return self.take(word, values)

    def is_in_range(self, word, values):
        if word == b'arc':
            return values[1] * values[4] <= WIDE
        if word == b'cap':
            return self.sizes[1] * values[0] <= WIDE
        return word not in OF_A_CALLER or values[0] < self.sizes[0]

    def is_in_order(self, word, values):
        if word in DECLARES and self.operations:
            return False
        if word in NAMES_BLOCK and values[NAMES_BLOCK[word]] >= self.blocks:
            return False
        if word == b'l2':
            return self.bounds is None
        return word != b'object' or (values[0], values[1]) not in self.mapped

    def take(self, word, values):
        if word == b'arc':
            self.sizes = values
        elif word == b'l2':
            self.bounds = values
        elif word == b'block':
            self.blocks += 1
            return 'Count' if self.blocks > 100_000 else None
        elif word == b'object':
            self.mapped.add((values[0], values[1]))
            return 'Count' if len(self.mapped) > 100_000 else None
        else:
            self.operations += 1
            return 'Count' if self.operations > 1_000_000 else None
        return None

    def words(self):
        callers, shards, buckets, cells, c, mintime, dbufs = self.sizes
        write_max, headroom = self.bounds or (8_388_608, 2)
        return (f'ok callers {callers} shards {shards} buckets {buckets} cells {cells} c {c} mintime {mintime} dbufs {dbufs} '
                f'write_max {write_max} headroom {headroom} blocks {self.blocks} objects {len(self.mapped)} operations {self.operations}')


def verdict(text):
    if len(text) > LONGEST:
        return f'bad {text[:LONGEST].count(10) + 1} Length'
    said = Said()
    for at, line in enumerate(text.split(b'\n'), 1):
        if line and not line.startswith(b'#'):
            kind = said.fault(line)
            if kind:
                return f'bad {at} {kind}'
    return said.words() if said.sizes else 'bad 1 First'


# ---- the texts

ENDS = [0, 1, 2, 15, 16, 17, 63, 64, 65, 256, 257, 511, 512, 513, 4095, 4096, 2**24, 2**24 + 512, WIDE - 1, WIDE, WIDE + 1, PLAIN, PLAIN + 1, 2**64 - 1, 2**64]


def digits(rng, count):
    return rng.randbytes(count).hex()


def drawn_plain(rng):
    return rng.choice([rng.randrange(10), rng.randrange(PLAIN + 1), PLAIN])


def drawn_start(rng):
    return rng.choice([0, rng.randrange(5000), WIDE - 1])


def drawn_at(rng):
    """An object and one of its blocks."""
    return f'{rng.choice([0, 1, 7, PLAIN])} {rng.choice([0, 1, 2, 3, PLAIN])}'


def declared(rng):
    """The lines in front of the operations, and how many blocks they declare."""
    lines, blocks, mapped = [], 0, set()
    bounds = rng.randrange(12) if rng.random() < 0.5 else None
    for i in range(rng.choice([1, 4, 12])):
        if i == bounds:
            lines.append(f'l2 {rng.choice([512, 8_388_608, WIDE])} {rng.choice([1, 2, 64])}')
        at = drawn_at(rng)
        if blocks and rng.random() < 0.4 and at not in mapped:
            mapped.add(at)
            lines.append(f'object {at} {rng.randrange(blocks)}')
        else:
            lines.append(f'block {drawn_plain(rng)} {rng.choice([512, 0, WIDE])} {drawn_plain(rng)} {digits(rng, 32)}')
            blocks += 1
    return lines, blocks


def operation(rng, callers, shards, blocks):
    n, t, at = rng.randrange(callers), drawn_plain(rng), drawn_at(rng)
    x = rng.randrange(blocks)
    shown = f'{drawn_start(rng)} {rng.choice([0, 4, 64])}'
    return rng.choice([
        f'read {n} {t} {x} {shown}', f'hold {n} {t} {x}', f'drop {n} {x}', f'get {n} {t} {at} {shown}',
        f'put {n} {t} {at} {rng.choice([512, 1024, 2**24])} {digits(rng, 1)}',
        f'patch {n} {t} {at} {drawn_start(rng)} {digits(rng, rng.choice([1, 2, 63, 64]))}',
        f'pin {n} {t} {at}', f'unpin {n} {at}', 'feed', f'txg {t}', f'cap {rng.choice([4096, WIDE // shards])}',
    ])


def trace(rng):
    callers, shards = rng.choice([1, 2, 16]), rng.choice([1, 3, 16])
    head = f'arc {callers} {shards} {rng.choice([1, 256])} {rng.choice([1, 16])} {rng.choice([4096, WIDE // shards])} {rng.choice([0, WIDE])} {rng.choice([0, WIDE])}'
    lines, blocks = declared(rng)
    lines = [head] + lines + [operation(rng, callers, shards, blocks) for _ in range(rng.choice([0, 3, 20, 60]))]
    for _ in range(rng.randrange(3)):
        lines.insert(rng.randrange(len(lines) + 1), rng.choice(['', '# a comment', '#']))
    return '\n'.join(lines).encode() + rng.choice([b'', b'\n', b'\n\n'])


def with_byte(rng, text):
    """One byte more, less or another."""
    i = rng.randrange(len(text))
    byte = rng.choice([b'\n', b' ', b'#', b'0', b'1', b'9', b'a', b'f', b'A', b'-', b'+', b'\r', b'\t', b'\0', b'\xff'])
    return text[:i] + rng.choice([b'', byte, byte, byte + text[i:i + 1]]) + text[i + 1:]


def with_field(rng, text):
    """One field another number, another word, gone or twice."""
    lines = text.split(b'\n')
    i = rng.randrange(len(lines))
    fields = lines[i].split(b' ')
    j = rng.randrange(len(fields))
    fields[j:j + 1] = rng.choice([[str(rng.choice(ENDS)).encode()], [str(rng.choice(ENDS)).encode()], [b'0' + fields[j]],
                                  [rng.choice(list(FIELDS))], [fields[j].upper()], [], [b''], [fields[j], fields[j]], [fields[j] + b'00']])
    lines[i] = b' '.join(fields)
    return b'\n'.join(lines)


def with_line(rng, text):
    """One line gone, twice, or elsewhere."""
    lines = text.split(b'\n')
    line = lines[rng.randrange(len(lines))]
    if rng.random() < 0.6:
        lines.remove(line)
    if rng.random() < 0.7:
        lines.insert(rng.randrange(len(lines) + 1), line)
    return b'\n'.join(lines)


def text(rng):
    made = trace(rng)
    for _ in range(rng.choice([0, 1, 1, 1, 1, 2])):
        made = rng.choice([with_byte, with_field, with_field, with_line])(rng, made) or b'#'
    return made


def long_texts():
    """A text for each count and for the length, at its last value and one past it."""
    head = 'arc 1 1 1 1 4096 0 0\n'
    block = f'block 0 512 1 {"0" * 64}\n'
    for more in 0, 1:
        yield (head + block * (100_000 + more)).encode()
        yield (head + block + ''.join(f'object 0 {i} 0\n' for i in range(100_000 + more))).encode()
        yield (head + 'feed\n' * (1_000_000 + more)).encode()
        yield head.encode() + b'#' * (LONGEST - len(head) + more)


# ---- the comparison


def told(lint, given):
    ended = subprocess.run([lint], input=given, stdout=subprocess.PIPE, stderr=subprocess.PIPE, timeout=60)
    first = ended.stdout.split(b'\n', 1)[0].decode()
    wanted = 3 if first.startswith('bad ') else 0
    return first if ended.returncode == wanted else f'status {ended.returncode} and {first!r}'


def main():
    seconds = float(sys.argv[1]) if len(sys.argv) > 1 else 60
    seed = int(sys.argv[2]) if len(sys.argv) > 2 else int(time.time())
    lint = os.environ.get('ARC_LINT', f'{HERE}/../crates/arc_lint/out/arc_lint')
    rng = random.Random(seed)
    work = tempfile.mkdtemp(prefix='arc_texts.')
    kinds, bad = collections.Counter(), 0

    def compare(given):
        nonlocal bad
        ours, theirs = told(lint, given), verdict(given)
        kinds[theirs.split()[-1] if theirs.startswith('bad ') else 'ok'] += 1
        if ours != theirs:
            bad += 1
            with open(f'{work}/text{bad}', 'wb') as out:
                out.write(given)
            print(f'{work}/text{bad}: arc_lint says {ours!r}, the plain reader {theirs!r}')

    for given in long_texts():
        compare(given)
    until = time.time() + seconds
    while time.time() < until and bad < 10:
        compare(text(rng))
    seen = ', '.join(f'{count} {kind}' for kind, count in sorted(kinds.items()))
    print(f'seed {seed}: {sum(kinds.values())} texts: {seen}; {bad} differ')
    sys.exit(bad > 0)


main()
