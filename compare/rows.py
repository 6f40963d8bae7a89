#!/usr/bin/env python3
"""Runs the plain simulation on small traces whose reports were worked out by hand from the rules: compare/rows.py [PROGRAM]

PROGRAM is another program with the words of arc_tool. Without it the simulation is compiled. A row names a pool, a device, a trace and what
the report has to say; a device of one row may be the next one's. What three feeds leave on a device is compared with its spelling in .ci/devices.py. It prints each line that
differs.
"""
import hashlib
import os
import struct
import subprocess
import sys
import tempfile

HERE = os.path.dirname(os.path.abspath(__file__))
sys.dont_write_bytecode = True
sys.path.append(f'{HERE}/../.ci')
import devices

F = 'f' * 64
DEVICE = 266_240


def zeros(size):
    return hashlib.sha256(bytes(size)).hexdigest()


Z = zeros(512)


def head(c=4096, mintime=0, dbufs=4096, callers=1):
    return f'arc {callers} 1 16 1 {c} {mintime} {dbufs}'


def blocks(count, size=512):
    return [f'block {i * size} {size} 1 {zeros(size)}' for i in range(count)]


def reads(size, *which, first=1):
    return [f'read 0 {first + i} {"ABCDE".index(x)} 0 0' for i, x in enumerate(which)]


def key(x, size=512):
    return f'{"ABCDE".index(x) * size} {size} 1'


class Row:
    """A trace, what it runs on, and lines of the report: all of some kinds where `only` is given, else some of them."""

    def __init__(self, name, lines, wanted, status=0, pool=None, device=None, most=5, size=512):
        self.name, self.lines, self.wanted, self.status = name, lines, wanted, status
        self.pool = pool if pool is not None else most * size
        self.device = device


def feeds():
    """Three blocks that are read and fed one by one."""
    lines = [head(), *blocks(4)]
    for i, x in enumerate('ABC'):
        lines += [*reads(512, x, first=i + 1), 'feed']
    return lines


ROWS = [
    Row('a read', [head(), *blocks(1), 'read 0 1 0 0 4'],
        [f'0 ok pool {Z} 00000000', f'e 0 0 miss 0 {key("A")} 1', f'e 0 1 arrive 0 {key("A")} {Z} pool', f'e 0 2 drop 0 {key("A")}',
         'shard 0 c 4096 p 2048 anon 0 mru 512 mrug 0 mfu 0 mfug 0 l2 0', 'count hit 0 miss 1 past 0 pool 1 l2 0 pass 0 set 0', 'end 0']),
    Row('no read', [head()], ['shard 0 c 4096 p 2048 anon 0 mru 0 mrug 0 mfu 0 mfug 0 l2 0', 'end 0']),
    Row('a hit', [head(), *blocks(1), 'read 0 1 0 0 4', 'read 0 2 0 0 0'],
        [f'1 ok hit {Z} -', 'shard 0 c 4096 p 2048 anon 0 mru 0 mrug 0 mfu 512 mfug 0 l2 0', 'count hit 1 miss 1 past 0 pool 1 l2 0 pass 0 set 0']),
    Row('a ghost of MRU', [head(), *blocks(5, 1024), *reads(1024, *'ABCDEA')],
        ['shard 0 c 4096 p 3072 anon 0 mru 3072 mrug 1024 mfu 1024 mfug 0 l2 0', 'count hit 0 miss 6 past 0 pool 6 l2 0 pass 0 set 0'], size=1024),
    Row('a ghost of MFU', [head(), *blocks(5, 2048), *reads(2048, *'AABCA')],
        ['shard 0 c 4096 p 256 anon 0 mru 2048 mrug 2048 mfu 2048 mfug 0 l2 0', 'count hit 1 miss 4 past 0 pool 4 l2 0 pass 0 set 0'], size=2048),
    Row('nothing may go', [head(), *blocks(3, 2048), 'hold 0 1 0', 'hold 0 2 1', 'read 0 3 2 0 0'],
        ['0 held pool', '1 held pool', f'2 ok pool {zeros(2048)} -', f'e 0 6 drop 0 {key("C", 2048)}', f'e 0 7 drop 0 {key("A", 2048)}',
         f'e 0 8 drop 0 {key("B", 2048)}', 'shard 0 c 4096 p 2048 anon 0 mru 6144 mrug 0 mfu 0 mfug 0 l2 0', 'end 0'], size=2048),
    Row('a moment', [head(mintime=10), *blocks(1), 'read 0 5 0 0 0', 'read 0 15 0 0 0', 'read 0 16 0 0 0'],
        ['shard 0 c 4096 p 2048 anon 0 mru 0 mrug 0 mfu 512 mfug 0 l2 0', 'count hit 2 miss 1 past 0 pool 1 l2 0 pass 0 set 0']),
    Row('a wrong digest', [head(), f'block 0 512 1 {F}', 'read 0 1 0 0 0'],
        [f'0 refused digest {Z}', f'e 0 1 fail 0 {key("A")} pool', 'shard 0 c 4096 p 2048 anon 0 mru 0 mrug 0 mfu 0 mfug 0 l2 0', 'end 1'], 1),
    Row('two digests', [head(), f'block 0 512 1 {Z}', f'block 0 512 1 {F}', 'read 0 1 0 0 0', 'read 0 2 1 0 0', 'read 0 3 0 0 0'],
        [f'0 ok pool {Z} -', f'1 refused digest {Z}', f'2 ok hit {Z} -', f'e 0 3 past 0 {key("A")} {Z}',
         'count hit 1 miss 1 past 1 pool 2 l2 0 pass 0 set 0', 'end 1'], 1),
    Row('past the pool', [head(), f'block 512 512 1 {Z}', 'read 0 1 0 0 0'], ['0 refused key range 1024 512', 'end 1'], 1, pool=512),
    Row('a block comes back from the device',
        [head(), *blocks(4, 2048), *reads(2048, 'A'), 'feed', *reads(2048, *'BCDA', first=2)],
        ['1 feed picked 1 bytes 2048 written 1 cleared 0 ok', f'e 0 5 set 1 {key("A", 2048)} 4096', f'5 ok l2 {zeros(2048)} -',
         'shard 0 c 4096 p 2048 anon 0 mru 2048 mrug 2048 mfu 2048 mfug 0 l2 0', 'count hit 0 miss 5 past 0 pool 4 l2 1 pass 0 set 1',
         'rebuilt 0 header magic', 'end 0'], device=DEVICE, size=2048),
    Row('a short device', [head(), 'feed'], ['0 feed none', 'rebuilt 0 short', 'end 0'], device=512),
    Row('four feeds, the last of which wraps', [*feeds(), *reads(512, 'D', first=4), 'feed'],
        ['7 feed picked 1 bytes 512 written 1 cleared 1 ok', f'e 0 23 clear 1 {key("A")}', f'e 0 24 set 1 {key("D")} 4096'], device=DEVICE),
    Row('the run behind it', [head(), *blocks(4), *reads(512, *'DCBA')],
        ['rebuilt 3 block digest', f'e 0 0 restore 1 {key("D")} 4096 {Z}', f'e 0 1 restore 1 {key("C")} 136192 {Z}',
         f'e 0 2 restore 1 {key("B")} 70144 {Z}', f'0 ok l2 {Z} -', f'3 ok pool {Z} -'], device='kept'),
    Row('three feeds', feeds(), ['5 feed picked 1 bytes 512 written 1 cleared 0 ok'], device=DEVICE),
    Row('a start behind them', [head()], ['rebuilt 3 zero', 'shard 0 c 4096 p 2048 anon 0 mru 0 mrug 0 mfu 0 mfug 0 l2 1536'], device='kept'),
    Row('an object that is put and synced',
        [head(), 'put 0 1 7 0 512 ab', 'get 0 2 7 0 0 2', 'patch 0 3 7 0 511 0102', 'txg 4', 'get 0 5 7 0 511 1'],
        ['0 done', '1 got 512 abab', '2 refused window 513 512', '3 txg 1 blocks 1 bytes 512', '4 got 512 ab',
         f'e 0 0 insert 2 {key("A")} {hashlib.sha256(bytes([0xab]) * 512).hexdigest()} 4', f'e 0 1 drop 2 {key("A")}', 'end 1'], 1, pool=512),
    Row('a pool that is full',
        [head(), 'put 0 1 7 0 512 ab', 'get 0 2 7 0 0 2', 'patch 0 3 7 0 511 0102', 'txg 4', 'get 0 5 7 0 511 1'],
        ['2 refused window 513 512', 'shard 0 c 4096 p 2048 anon 0 mru 0 mrug 0 mfu 0 mfug 0 l2 0', 'end 8'], 8, pool=511),
    Row('a block that is patched',
        [head(), *blocks(1), 'object 7 0 0', 'get 0 1 7 0 0 1', 'patch 0 2 7 0 0 ff', 'read 0 3 0 0 1', 'get 0 4 7 0 0 2'],
        ['0 got 512 00', '1 done', f'2 ok pool {Z} 00', '3 got 512 ff00', f'e 0 2 hand 0 {key("A")} 2', f'e 0 3 release 2 {key("A")} sole',
         f'e 0 4 miss 0 {key("A")} 3']),
    Row('the same with a hold first',
        [head(), *blocks(1), 'object 7 0 0', 'hold 0 1 0', 'get 0 2 7 0 0 1', 'patch 0 3 7 0 0 ff', 'read 0 4 0 0 1', 'get 0 5 7 0 0 2'],
        [f'e 0 2 hit 0 {key("A")} 2', f'e 0 4 release 2 {key("A")} shared', f'3 ok hit {Z} 00']),
    Row('two dbufs and room for one',
        [head(dbufs=512), *blocks(2), 'object 7 0 0', 'object 7 1 1', 'get 0 1 7 0 0 0', 'get 0 2 7 1 0 0', 'get 0 3 7 0 0 0'],
        [f'e 0 5 hand 0 {key("B")} 2', f'e 0 6 drop 2 {key("A")}', f'e 0 7 hit 0 {key("A")} 3', f'e 0 9 drop 2 {key("B")}',
         f'e 0 10 drop 2 {key("A")}', 'shard 0 c 4096 p 2048 anon 0 mru 512 mrug 0 mfu 512 mfug 0 l2 0',
         'count hit 1 miss 2 past 0 pool 2 l2 0 pass 0 set 0']),
    Row('nothing kept', [head(), *blocks(1), 'drop 0 0'], ['0 refused hold 0', 'end 1'], 1),
    Row('no pin', [head(), 'unpin 0 7 0'], ['0 refused pin 7 0'], 1),
    Row('no block', [head(), 'get 0 1 9 9 0 0'], ['0 refused block 9 9'], 1),
    Row('a smaller capacity', [head(c=8192, dbufs=0), *blocks(5, 1024), *reads(1024, *'ABCDEA'), 'cap 4096', 'read 0 7 1 0 0'],
        ['6 cap 4096', f'7 ok pool {zeros(1024)} -', 'shard 0 c 4096 p 3840 anon 0 mru 3072 mrug 0 mfu 1024 mfug 1024 l2 0',
         'count hit 1 miss 6 past 0 pool 6 l2 0 pass 0 set 0'], size=1024),
    Row('a capacity where nothing may go', [head(c=8192, dbufs=0), *blocks(3, 2048), 'hold 0 1 0', 'hold 0 2 1', 'hold 0 3 2', 'cap 4096'],
        ['shard 0 c 4096 p 3840 anon 0 mru 6144 mrug 0 mfu 0 mfug 0 l2 0', 'end 0'], size=2048),
    Row('the made trace', None, ['shard 0 c 4096 p 2048 anon 0 mru 1536 mrug 0 mfu 1024 mfug 0 l2 0',
        'count hit 5 miss 5 past 0 pool 5 l2 0 pass 0 set 0', 'end 0']),
    Row('the largest block', [head(), f'block 0 16777216 1 {zeros(16_777_216)}', 'read 0 1 0 0 0'],
        [f'0 ok pool {zeros(16_777_216)} -'], pool=16_777_216),
    Row('a block that is too large', [head(), f'block 0 16777728 1 {Z}', 'read 0 1 0 0 0'], ['0 refused key size'], 1, pool=16_777_216),
]


def changed(device, at, new, is_sealed=False):
    with open(device, 'r+b') as file:
        file.seek(at)
        file.write(new)
        if is_sealed:
            file.seek(0)
            digest = hashlib.sha256(file.read(480)).digest()
            file.seek(480)
            file.write(digest)


def number(value):
    return struct.pack('<Q', value)


# what a start says of the device behind three feeds, where these bytes of it are changed, and its header's digest made anew or not
HURT = [
    ('rebuilt 3 zero', None, None, False), ('rebuilt 0 header magic', 0, b'\0', False), ('rebuilt 0 header version', 8, b'\3', False),
    ('rebuilt 0 header digest', 100, b'\1', False), ('rebuilt 0 header field', 100, b'\1', True),
    ('rebuilt 0 outside', 128, number(4_097), True), ('rebuilt 0 outside', 128, number(202_240), True),
    ('rebuilt 0 evicted', 128, number(200_704), True), ('rebuilt 0 block digest', 136_704, b'\0', False),
    ('rebuilt 1 zero', 192, bytes(64), True), ('rebuilt 2 zero', 192, 'newest', True),
]


def run(program, work, row, device):
    pool = f'{work}/pool'
    with open(pool, 'wb') as file:
        file.truncate(row.pool)
    if isinstance(row.device, int):
        with open(device, 'wb') as file:
            file.truncate(row.device)
    words = ['run', '--events'] if row.lines else ['gen', '1', '8', '10']
    given = ('\n'.join(row.lines) + '\n').encode() if row.lines else b''
    return subprocess.run([program, pool, device if row.device else '-', *words], input=given, capture_output=True)


def main():
    work = tempfile.mkdtemp(prefix='arc_rows.')
    program, faults, count = sys.argv[1] if len(sys.argv) > 1 else f'{work}/arc_sim', 0, 0
    if len(sys.argv) < 2:
        subprocess.run(['rustc', '--edition', '2024', '-O', '-o', program, f'{HERE}/arc_sim.rs'], check=True)
    device = f'{work}/device'
    rows = [*ROWS]
    fed = next(row for row in ROWS if row.name == 'three feeds')
    for row in rows:
        ended = run(program, work, row, device)
        lines = ended.stdout.decode().split('\n')
        for wanted in row.wanted:
            if wanted not in lines:
                faults += 1
                print(f'{row.name}: the report has no line {wanted!r}\n  ' + '\n  '.join(lines))
        if ended.returncode != row.status:
            faults += 1
            print(f'{row.name}: ended with {ended.returncode}, and has to end with {row.status}')
        count += 1
    for wanted, at, new, is_sealed in HURT:
        run(program, work, fed, device)
        if new == 'newest':
            with open(device, 'rb') as file:
                new = file.read(192)[128:]
        if at is not None:
            changed(device, at, new, is_sealed)
        lines = run(program, work, Row('hurt', [head()], [], device='kept'), device).stdout.decode().split('\n')
        if wanted not in lines:
            faults += 1
            print(f'a device changed at {at}: the report has no line {wanted!r}, but {[line for line in lines if "rebuilt" in line]}')
        count += 1
    run(program, work, fed, device)
    with open(device, 'rb') as file:
        if file.read() != devices.fed([bytes(512)] * 3):
            faults += 1
            print('three feeds leave another device than is spelled')
    print(f'{count + 1} rows, {faults} at fault')
    return faults > 0


if __name__ == '__main__':
    sys.exit(main())
