#!/usr/bin/env bash
# Runs `check` and a judge in plain Rust (../compare/arc_judge.rs) on a log of 1,000,000 events of 16 shards, and prints the events a second, the
# processor time and the peak memory of each, the least of five runs in turn, their ratios, and whether the two outputs are the same, byte for byte.
# Beside them stands what reading and printing so many events take: reading is `arc_lint --log`, and printing what `run --events` takes more than `run`
# does, of the trace that has this history.
# Two logs: that of 430,000 drawn reads, cut after 62,500 events of each shard; and one that is drawn of every event
# that there is. It needs rustc and python3, and builds the program if that was not done yet.
set -eu
here=$(cd "$(dirname "$0")" && pwd)
tool=$here/../crates/arc_tool/out/arc_tool
lint=$here/../crates/arc_lint/out/arc_lint
[ -x "$tool" ] || (cd "$here/../crates/arc_tool" && rt run -- --version)
[ -x "$lint" ] || (cd "$here/../crates/arc_lint" && rt run -- --version)
work=$(mktemp -d)
trap 'rm -rf "$work"' EXIT
rustc --edition 2024 -O -o "$work/arc_judge" "$here/../compare/arc_judge.rs"
PYTHONPATH="$here" PYTHONDONTWRITEBYTECODE=1 python3 - "$tool" "$lint" "$work/arc_judge" "$work" <<'PY'
import functools, hashlib, subprocess, sys

import beside
from beside import same

tool, lint, plain, work = sys.argv[1:]
ZEROS = hashlib.sha256(bytes(512)).hexdigest()
ROUNDS, SHARDS, BLOCKS, READS, EVENTS = 5, 16, 4_096, 430_000, 1_000_000


def write_trace(path):
    x = 1
    with open(path, 'w') as out:
        out.write(f'arc 1 {SHARDS} 256 1 {BLOCKS * 512 // SHARDS // 2} 0 0\n')
        out.writelines(f'block {i * 512} 512 1 {ZEROS}\n' for i in range(BLOCKS))
        for i in range(READS):
            x = (x * 1103515245 + 12345) % 2**31
            out.write(f'read 0 {i + 1} {x // 65536 % BLOCKS} 0 0\n')


def write_log(report, log):
    """The events of a report behind their sizes, with the same number of each shard, 1,000,000 at most."""
    with open(report) as lines, open(log, 'w') as out:
        out.write(f'arc 1 {SHARDS} 256 1 {BLOCKS * 512 // SHARDS // 2} 0 0\n')
        out.writelines(line for line in lines if line.startswith('e ') and int(line.split(' ', 3)[2]) < EVENTS // SHARDS)


run = functools.partial(beside.run, ends=(0, 10))  # a log with a fault ends with 10
pool, trace, report, log = (f'{work}/{name}' for name in ('pool', 'trace', 'report', 'log'))
with open(pool, 'wb') as out:
    out.truncate(BLOCKS * 512)
write_trace(trace)
turns = [(run([tool, pool, '-', 'run', '--events'], trace, report), run([tool, pool, '-', 'run'], trace, f'{work}/plain')) for _ in range(ROUNDS)]
told, untold = (min(runs) for runs in zip(*turns))
with open(report, 'rb') as lines:
    printed = sum(line.startswith(b'e ') for line in lines)
printing = (told[0] - untold[0]) / printed * EVENTS
print(f'run --events: {printed:,} events in {told[0]:.2f} s, {printed / told[0]:,.0f} a second, {told[1] / 1024:.0f} MB')
write_log(report, log)
logs = [('reads', log), ('every event', f'{work}/drawn')]
with open(f'{work}/drawn', 'wb') as out:
    subprocess.run([plain, '--draw', '3', '400000'], stdout=out, check=True)
print(f'{"":14}{"events":>10}{"arc_tool":>34}{"plain":>34}{"ratios":>14}')
differing = []
for name, given in logs:
    with open(given, 'rb') as lines:
        events = sum(line.startswith(b'e ') for line in lines)
    run([plain], given, f'{work}/plain')  # so that the file is in memory for both
    turns = [(run([tool, '-', '-', 'check'], given, f'{work}/ours'), run([plain], given, f'{work}/plain')) for _ in range(ROUNDS)]
    ours, theirs = (min(runs) for runs in zip(*turns))
    if not same(f'{work}/ours', f'{work}/plain'):
        differing.append(name)
    if name == 'reads':
        reading, judging = min(run([lint, '--log'], given, f'{work}/lint') for _ in range(ROUNDS))[0], ours[0]
    print(f'{name:14}{events:>10,}{ours[0]:9.2f} s {events / ours[0]:>11,.0f} a s {ours[1] / 1024:5.0f} MB{theirs[0]:9.2f} s {events / theirs[0]:>11,.0f} a s {theirs[1] / 1024:5.0f} MB'
          f'{ours[0] / theirs[0]:7.2f} {ours[1] / theirs[1]:6.2f}')
print(f'{EVENTS:,} events: reading {reading:.2f} s, printing {printing:.2f} s; check takes {judging / (reading + printing):.2f} times as long as both')
if differing:
    sys.exit('the outputs differ: ' + '; '.join(differing))
PY
