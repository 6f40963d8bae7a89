#!/usr/bin/env python3
"""Feeds the program random bytes, random traces, mutated ones, and words: compare/fuzz.py [SECONDS] [SEED], outside the gate.

Most traces have a cache device, of zero bytes or one that was fed. The program has to end with a report (status 0, 1 or 8), or with status 3, or 2
where the words were drawn, and nothing written; and to agree with the plain simulation in arc_sim.rs on the status, on each byte that is written, and on each byte of
the pool and of the device afterwards. A trace of several callers is run a few times. Each report that has its events is checked by arc_replay.rs. A
trace on which anything is wrong is kept with what it ran on, and its place is printed. Operations that undone.py names are drawn seldom, and have to be refused.
Needs rustc. The program has to be built: (cd crates/arc_tool && rt run). ARC_TOOL, ARC_SIM and ARC_REPLAY may name other builds.
"""
import hashlib
import os
import random
import subprocess
import sys
import tempfile
import time

import several
import undone

HERE = os.path.dirname(os.path.abspath(__file__))
ZEROS = {size: hashlib.sha256(bytes(size)).hexdigest() for size in (512, 1024, 2048, 4096)}
WORDS = ['arc', 'block', 'l2', 'object', 'read', 'hold', 'drop', 'get', 'put', 'patch', 'pin', 'unpin', 'feed', 'txg', 'cap', 'Read', '']
WEIGHTS = {'read': 9, 'hold': 2, 'drop': 2, 'get': 6, 'put': 2, 'patch': 2, 'pin': 2, 'unpin': 2, 'feed': 3, 'txg': 1, 'cap': 1}
NUMBERS = ['0', '1', '2', '16', '64', '65', '256', '511', '512', '4095', '4096', '00', '+1', '-1', '01', '1.0', '', str(2**32 - 1),
           str(2**32), str(2**32 + 1), str(2**62), str(2**62 + 1), str(2**64), str(2**64 - 1), '9' * 40]


def block(rng):
    size = rng.choice(list(ZEROS))
    digest = ZEROS[size] if rng.random() < 0.93 else rng.choice(['f' * 64, ZEROS[512]])
    offset = 512 * rng.randrange(20)
    birth = 1 if rng.random() < 0.95 else rng.randrange(3)
    if rng.random() < 0.03:
        offset, size = rng.choice([(offset + 1, size), (offset, 513), (2**62, size), (offset, 0), (offset, 2**32)])
    return f'block {offset} {size} {birth} {digest}'


def words_for(rng, callers):
    """The words that a trace's operations have: reads alone, or all that the program does; now and then all that there are."""
    if rng.random() < 0.4:
        return ['read', 'hold', 'drop']
    left_out = undone.WORDS | (undone.ALONE if callers == 1 else set())
    return [word for word in WEIGHTS if word not in left_out or rng.random() < 0.01]


def operation(rng, word, n, tick, x, shards):
    at = f'{rng.randrange(3)} {rng.randrange(4)}'
    shown = '{} {}'.format(*rng.choice([(0, 0), (0, 4), (500, 12), (0, 64), (511, 2), (4090, 6), (2**32 - 1, 64)]))
    return {
        'read': f'read {n} {tick} {x} {shown}', 'hold': f'hold {n} {tick} {x}', 'drop': f'drop {n} {x}', 'get': f'get {n} {tick} {at} {shown}',
        'put': f'put {n} {tick} {at} {rng.choice([512, 512, 1024, 2048])} {rng.choice(["ab", "00"])}',
        'patch': f'patch {n} {tick} {at} {rng.choice([0, 510, 1023, 2**32 - 1])} {rng.choice(["ff", "0102", "07" * 64])}',
        'pin': f'pin {n} {tick} {at}', 'unpin': f'unpin {n} {at}', 'feed': 'feed', 'txg': f'txg {tick}', 'cap': f'cap {rng.choice([4096, 5000, 8192, 2**32 // shards])}',
    }[word]


def trace(rng):
    """A trace of the grammar: few blocks, small capacities, and clocks that stand still or go back."""
    callers, shards = rng.choice([1, 1, 2, 2, 3, 4, 16]), rng.choice([1, 1, 2, 3, 16])
    capacity = rng.choice([4096, 4096, 4096, 5000, 6144, 8192, 2**32 // shards])
    lines = [f'arc {callers} {shards} {rng.choice([1, 16, 256])} {rng.choice([1, 1, 2, 16])} {capacity} {rng.choice([0, 0, 3, 2**32])} {rng.choice([0, 512, 4096])}']
    if rng.random() < 0.4:
        lines.append(rng.choice(['l2 512 1', 'l2 2048 2', 'l2 8388608 2', 'l2 4294967296 64']))
    blocks = rng.randrange(1, 24)
    lines += [block(rng) for _ in range(blocks)]
    if rng.random() < 0.5:
        lines += [f'object {rng.randrange(3)} {i} {rng.randrange(blocks)}' for i in range(rng.randrange(6))]
    tick, words = 0, words_for(rng, callers)
    # an order of operations on objects is looked for, so there are not too many
    most = [3, 20, 60] if callers > 1 and 'get' in words else [3, 20, 100, 400]
    for word in rng.choices(words, [WEIGHTS[word] for word in words], k=rng.choice(most)):
        tick = max(0, tick + rng.choice([1, 1, 1, 0, 2, -1, 5]))
        x = min(rng.randrange(blocks), rng.randrange(blocks))
        lines.append(operation(rng, word, rng.randrange(callers), tick, x, shards))
        if rng.random() < 0.02:
            lines.append(rng.choice(['', '# a comment', '#']))
    return '\n'.join(lines).encode() + rng.choice([b'\n', b'', b'\n\n'])


def mutated(rng, text):
    lines = text.split(b'\n')
    for _ in range(rng.choice([1, 1, 1, 2, 5])):
        i = rng.randrange(len(lines))
        fields = lines[i].split(b' ')
        j = rng.randrange(len(fields))
        kind = rng.randrange(9)
        if kind == 0:
            fields[j] = rng.choice(NUMBERS).encode()
        elif kind == 1:
            fields[j] = rng.choice(WORDS).encode()
        elif kind == 2:
            fields.insert(j, rng.choice(NUMBERS).encode())
        elif kind == 3:
            del fields[j]
        elif kind == 4:
            lines.insert(rng.randrange(len(lines)), lines[i])
        elif kind == 5:
            k = rng.randrange(len(lines))
            lines[k], fields = lines[i], lines[k].split(b' ')
        elif kind == 6:
            raw = bytearray(lines[i] or b' ')
            raw[rng.randrange(len(raw))] = rng.choice(b'\x00\t\r 0#aF\x7f\xff')
            fields = bytes(raw).split(b' ')
        elif kind == 7:
            fields[j] = fields[j].swapcase()
        else:
            lines = lines[:i + 1]
            fields = lines[i][:rng.randrange(len(lines[i]) + 1)].split(b' ')
        lines[min(i, len(lines) - 1)] = b' '.join(fields)
    return b'\n'.join(lines)


def text(rng):
    kind = rng.random()
    if kind < 0.1:
        return rng.randbytes(rng.choice([0, 1, 10, 1000, 100_000]))
    if kind < 0.15:
        return ''.join(rng.choice(' \n#0159abf') for _ in range(rng.randrange(200))).encode()
    made = trace(rng)
    return made if kind < 0.6 else mutated(rng, made)


def words_of(rng):
    """The words of a run, or now and then those of a made trace, some of them wrong."""
    if rng.random() < 0.95:
        return rng.choice([['run'], ['run', '--events']])
    words = ['gen', str(rng.choice([0, 1, 7, 2**31 - 1, 2**31])), str(rng.choice([0, 1, 8, 100, 32_768, 32_769])),
             str(rng.choice([0, 1, 10, 3000, 1_000_001]))]
    if rng.random() < 0.5:
        words[rng.randrange(4)] = rng.choice(['run', '--events', *NUMBERS])
    return words[:rng.choice([4, 4, 4, 4, 3, 2, 1, 0])] + rng.choice([[], [], [], [], ['1']])


def run(words, given):
    """The exit status and the standard output; the status is None where it didn't end within a minute."""
    try:
        ended = subprocess.run(words, input=given, stdout=subprocess.PIPE, stderr=subprocess.PIPE, timeout=60)
    except subprocess.TimeoutExpired:
        return None, b''
    return ended.returncode, ended.stdout


def built(work, name):
    """The plain program of this name, compiled where the environment names no other build of it."""
    there = os.environ.get(name.upper())
    if there is None:
        there = f'{work}/{name}'
        subprocess.run(['rustc', '--edition', '2024', '-O', '-o', there, f'{HERE}/{name}.rs'], check=True)
    return there


class Files:
    """A pool and a cache device, or none, which each run finds anew."""

    def __init__(self, work, pool, device):
        self.work, self.pool, self.device = work, pool, device

    def name(self, what):
        return f'{self.work}/{what}'

    def put(self):
        """Writes them, and gives their names."""
        with open(self.name('pool'), 'wb') as out:
            out.write(self.pool)
        if self.device is None:
            return [self.name('pool'), '-']
        with open(self.name('device'), 'wb') as out:
            out.write(self.device)
        return [self.name('pool'), self.name('device')]

    def left(self):
        """What a run left of them."""
        names = [self.name('pool'), *([] if self.device is None else [self.name('device')])]
        return [open(name, 'rb').read() for name in names]


def fed_device(rng):
    """A device that drawn reads and feeds were made of, over blocks of zero bytes."""
    lines = [f'arc 1 1 16 1 8192 0 0\nl2 {rng.choice([512, 2048, 8_388_608])} 2']
    sizes = [rng.choice(list(ZEROS)) for _ in range(12)]
    lines += [f'block {512 * rng.randrange(20)} {size} 1 {ZEROS[size]}' for size in sizes]
    for tick in range(30):
        lines.append(rng.choice(['feed', f'read 0 {tick} {rng.randrange(12)} 0 0', f'read 0 {tick} {rng.randrange(12)} 0 0']))
    image = bytearray(rng.choice([266_240, 266_241, 400_000]))
    made = several.Run(several.Trace('\n'.join(lines)), bytearray(16_384), image, rng.randrange)
    made.run()
    if rng.random() < 0.2:
        image[rng.choice([8, 100, 130, rng.randrange(4096, len(image))])] ^= 1
    return bytes(image)


def is_report(ended):
    return ended[0] in (0, 1, 8) and ended[1].endswith(b'end %d\n' % ended[0])


def fault_of_report(replay, files, given, report, left):
    """What the checker finds wrong with a report that has its events."""
    names = ['trace', 'report', 'own.pool', 'left.pool', 'own.device', 'left.device']
    contents = [given, report, files.pool, left[0], *([] if files.device is None else [files.device, left[1]])]
    for name, content in zip(names, contents):
        with open(files.name(name), 'wb') as out:
            out.write(content)
    devices = ['-', '-'] if files.device is None else [files.name('own.device'), files.name('left.device')]
    words = [files.name('own.pool'), devices[0], files.name('trace'), files.name('left.pool'), devices[1]]
    checked = subprocess.run([replay, *words], input=report, stdout=subprocess.PIPE, stderr=subprocess.PIPE)
    return f'has a faulty report: {checked.stderr.decode().strip()}' if checked.returncode else None


def fault_of_one(words, ours, theirs, left, wanted):
    """What is wrong with how the program ended and what it left, where the plain simulation did so."""
    is_refused = ours == (3, b'') or (ours == (2, b'') and words not in (['run'], ['run', '--events']))
    if ours != theirs:
        return f'ended with {ours[0]}, the plain simulation with {theirs[0]}'
    if left != wanted:
        return 'left another pool or device than the plain simulation'
    return None if is_report(ours) or is_refused else f'ended with {ours[0]}, and no report'


def fault_of_several(tool, replay, files, given):
    """What is wrong with the reports of a trace of several callers, which is run three times."""
    for _ in range(3):
        ours = run([tool, *files.put(), 'run', '--events'], given)
        fault = fault_of_report(replay, files, given, ours[1], files.left()) if is_report(ours) else f'ended with {ours[0]}, and no report'
        if fault:
            return fault
    return None


def main():
    seconds = float(sys.argv[1]) if len(sys.argv) > 1 else 60
    seed = int(sys.argv[2]) if len(sys.argv) > 2 else int(time.time())
    rng = random.Random(seed)
    work = tempfile.mkdtemp(prefix='arc_fuzz.')
    tool = os.environ.get('ARC_TOOL', f'{HERE}/../crates/arc_tool/out/arc_tool')
    plain, replay = built(work, 'arc_sim'), built(work, 'arc_replay')
    until, runs, bad, ends, checked = time.time() + seconds, 0, 0, {}, 0
    fed = [fed_device(rng) for _ in range(4)]
    while time.time() < until and bad < 10:
        given = text(rng)
        words = words_of(rng)
        files = Files(work, bytes(rng.choice([8192, 8192, 16_384])), rng.choice([None, None, bytes(512), bytes(266_240), rng.choice(fed), rng.choice(fed)]))
        ours = run([tool, *files.put(), *words], given)
        left = files.left()
        theirs = run([plain, *undone.sim_words(), *files.put(), *words], given)
        if theirs == (13, b''):
            checked += 1
            fault = fault_of_several(tool, replay, files, given)
        else:
            fault = fault_of_one(words, ours, theirs, left, files.left())
            if not fault and words == ['run', '--events'] and is_report(ours):
                fault = fault_of_report(replay, files, given, ours[1], left)
        runs += 1
        ends[ours[0]] = ends.get(ours[0], 0) + 1
        if fault:
            bad += 1
            kept = files.name(f'bad{bad}')
            files.put()
            os.mkdir(kept)
            with open(f'{kept}/given', 'wb') as out:
                out.write(given)
            for name in 'pool', 'device', 'report':
                if os.path.exists(files.name(name)):
                    os.replace(files.name(name), f'{kept}/{name}')
            print(f'{kept}: {" ".join(words)} {fault}')
    told = ', '.join(f'{count} with status {status}' for status, count in sorted(ends.items(), key=str))
    print(f'seed {seed}: {runs} traces, {checked} of them of several callers: {told}; {bad} at fault')
    sys.exit(bad > 0)


main()
