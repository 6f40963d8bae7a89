#!/usr/bin/env python3
"""Compares `check`, and arc_lint's --log, with the plain judge in arc_judge.rs: compare/logs.py [SECONDS] [SEED].

It goes over the logs of examples/, and then for so many seconds over drawn ones: those that the judge draws, and those of runs of the simulation in arc_sim.rs over drawn
traces of every kind of line, with a cache device that a second run finds again; each as it was drawn, and with one line changed. Of each text both have to give the same exit
status and the same bytes, and the same first line at fault with its kind, or the same number of events; and a run's log is legal and ends as its report does. A log on which
anything is wrong is kept, and its place is printed. Needs rustc and the built programs: (cd crates/arc_tool && rt run), and arc_lint likewise. ARC_TOOL, ARC_LINT, ARC_JUDGE and
ARC_SIM may name other builds; ARC_LINT= leaves arc_lint out.
"""
import glob
import hashlib
import os
import random
import subprocess
import sys
import tempfile
import time

HERE = os.path.dirname(os.path.abspath(__file__))
NAMES = ['pass', 'hit', 'miss', 'arrive', 'fail', 'drop', 'past', 'hand', 'insert', 'release', 'pick', 'feedend', 'set', 'leave', 'clear', 'restore', 'resize', 'evict']
WORDS = ['pool', 'l2', 'unread', 'sole', 'shared', 'gone', 'device', 'memory', '-', '0' * 64, 'f' * 64, 'e', 'arc', '']
NUMBERS = ['0', '1', '2', '16', '17', '32', '33', '511', '512', '4096', '00', '+1', '01', str(2**32), str(2**62), str(2**62 + 1), str(2**63), str(2**64 - 1), str(2**64)]


def changed(rng, text):
    """The text with one line changed, left out, twice there or at another place."""
    lines = text.split(b'\n')
    i = rng.randrange(len(lines))
    kind = rng.randrange(6)
    if kind == 0:
        del lines[i]
    elif kind == 1:
        lines.insert(i, lines[i])
    elif kind == 2:
        lines.insert(rng.randrange(len(lines)), lines.pop(i))
    else:
        fields = lines[i].split(b' ')
        j = rng.randrange(len(fields))
        if kind == 3:
            del fields[j]
        elif kind == 4:
            fields[j] = rng.choice(NAMES + WORDS).encode()
        elif fields[j].isdigit() and rng.random() < 0.7:
            fields[j] = str(max(0, int(fields[j]) + rng.choice([-512, -1, 1, 1, 512]))).encode()
        else:
            fields[j] = rng.choice(NUMBERS).encode()
        lines[i] = b' '.join(fields)
    return b'\n'.join(numbered(lines) if rng.random() < 0.6 else lines)


def numbered(lines):
    """The lines with the events of each shard numbered from 0 on, so that a changed log is one as often as not."""
    nexts = {}
    for line in lines:
        fields = line.split(b' ')
        if fields[0] == b'e' and len(fields) > 3:
            fields[2] = b'%d' % nexts.get(fields[1], 0)
            nexts[fields[1]] = nexts.get(fields[1], 0) + 1
        yield b' '.join(fields)


ZEROS = {size: hashlib.sha256(bytes(size)).hexdigest() for size in (512, 1024, 2048)}


def trace(rng):
    """The sizes, the bounds of a feed, and the other lines of a trace for one caller, with a line of every kind that there is."""
    capacity = rng.choice([4096, 5000, 8192])
    write_max, headroom = rng.choice([512, 2048, 8192, 2**32]), rng.choice([1, 2, 64])
    blocks = [(2048 * i, rng.choice(list(ZEROS))) for i in range(rng.randrange(1, 12))]
    lines = [f'block {offset} {size} 1 {ZEROS[size] if rng.random() < 0.95 else ZEROS[512]}' for offset, size in blocks]
    lines += [f'object {object_} {block} {rng.randrange(len(blocks))}' for object_ in range(2) for block in range(rng.randrange(4))]
    for tick in range(rng.choice([5, 50, 300])):
        x, at = rng.randrange(len(blocks)), f'{rng.randrange(2)} {rng.randrange(4)}'
        kind = rng.choices(['read', 'hold', 'drop', 'get', 'put', 'patch', 'pin', 'unpin', 'feed', 'txg', 'cap'], [9, 2, 2, 6, 2, 2, 2, 2, 3, 1, 1])[0]
        lines.append({
            'read': f'read 0 {tick} {x} 0 4', 'hold': f'hold 0 {tick} {x}', 'drop': f'drop 0 {x}', 'get': f'get 0 {tick} {at} 0 4', 'put': f'put 0 {tick} {at} {rng.choice([512, 1024])} ab',
            'patch': f'patch 0 {tick} {at} {rng.choice([0, 511])} 07', 'pin': f'pin 0 {tick} {at}', 'unpin': f'unpin 0 {at}', 'feed': 'feed', 'txg': f'txg {tick}',
            'cap': f'cap {rng.choice([4096, 6144, 16384])}',
        }[kind])
    sizes = f'arc 1 {rng.choice([1, 1, 2, 3])} 16 {rng.choice([1, 2, 4])} {capacity} {rng.choice([0, 3])} {rng.choice([0, 512, 4096])}'
    return sizes, (write_max, headroom), lines


def of_runs(rng, sim, work):
    """The logs of two runs of the simulation, the second with the device that the first left, and what `check` is to say of each."""
    sizes, (write_max, headroom), lines = trace(rng)
    length = rng.choice([266_240, 300_000, 1_000_000])
    for name, size in ('pool', 1 << 20), ('device', length):
        with open(f'{work}/{name}', 'wb') as out:
            out.truncate(size)
    source = '\n'.join([sizes, f'l2 {write_max} {headroom}', *lines, '']).encode()
    for _ in range(2):
        status, report = run([sim, f'{work}/pool', f'{work}/device', 'run', '--events'], source)
        if status not in (0, 1):
            raise SystemExit(f'the simulation ended with {status} on {source!r}')
        told = report.splitlines()
        events, ends = ([line for line in told if line.startswith(word)] for word in ('e ', 'shard '))
        # a feed takes no more than half of the device's ring
        most = min(write_max, (length // 512 * 512 - 4096) // 2)
        yield '\n'.join([sizes, f'l2 {most} {headroom}', *events, '']).encode(), (0, '\n'.join([f'check ok {len(events)}', *ends, 'end 0', '']))


def run(words, given):
    ended = subprocess.run(words, input=given, stdout=subprocess.PIPE, stderr=subprocess.PIPE, timeout=60)
    return ended.returncode, ended.stdout.decode(errors='replace')


def fault_of(tool, lint, judge, text):
    """What is wrong with how the programs answer a text."""
    ours, theirs = run([tool, '-', '-', 'check'], text), run([judge], text)
    if ours != theirs:
        return f'check ended with {ours}, the judge with {theirs}'
    if lint:
        (status, told), wanted = run([lint, '--log'], text), run([judge, '--lint'], text)
        first = told.split('\n')[0]
        if first.startswith('ok '):
            first = 'ok ' + first.rsplit(' ', 1)[1]
        if (status, first + '\n') != wanted:
            return f'arc_lint ended with {status}, {told[:200]!r}, the judge with {wanted}'
    return None


def built(work, name):
    """The plain program of this name, compiled where the environment names no other build of it."""
    there = os.environ.get(name.upper())
    if there is None:
        there = f'{work}/{name}'
        subprocess.run(['rustc', '--edition', '2024', '-O', '-o', there, f'{HERE}/{name}.rs'], check=True)
    return there


def main():
    seconds = float(sys.argv[1]) if len(sys.argv) > 1 else 60
    seed = int(sys.argv[2]) if len(sys.argv) > 2 else int(time.time())
    rng = random.Random(seed)
    work = tempfile.mkdtemp(prefix='arc_logs.')
    tool = os.environ.get('ARC_TOOL', f'{HERE}/../crates/arc_tool/out/arc_tool')
    lint = os.environ.get('ARC_LINT', f'{HERE}/../crates/arc_lint/out/arc_lint')
    judge, sim = (built(work, name) for name in ('arc_judge', 'arc_sim'))
    texts = [(open(name, 'rb').read(), None) for name in sorted(glob.glob(f'{HERE}/../examples/*.log'))]
    until, done, bad, ends = time.time() + seconds, 0, 0, {}
    while (texts or time.time() < until) and bad < 10:
        if not texts and rng.random() < 0.5:
            texts = list(of_runs(rng, sim, work))
            texts += [(changed(rng, text), None) for text, _ in texts]
        elif not texts:
            drawn = run([judge, '--draw', str(rng.randrange(2**32)), str(rng.choice([5, 30, 300, 2000]))], b'')[1].encode()
            texts = [(drawn, None), (changed(rng, drawn), None), (changed(rng, changed(rng, drawn)), None)]
        text, wanted = texts.pop(0)
        fault = fault_of(tool, lint, judge, text)
        status, told = run([judge], text)
        if wanted and (status, told) != wanted:
            fault = f'the judge ended with {(status, told)} on the log of a run, not with {wanted}'
        done += 1
        ends[status] = ends.get(status, 0) + 1
        if fault:
            bad += 1
            name = f'{work}/bad{bad}'
            with open(name, 'wb') as out:
                out.write(text)
            print(f'{name}: {fault}')
    told = ', '.join(f'{count} with status {status}' for status, count in sorted(ends.items()))
    print(f'seed {seed}: {done} logs: {told}; {bad} at fault')
    sys.exit(bad > 0)


main()
