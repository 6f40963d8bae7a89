#!/usr/bin/env bash
# Runs the program and a plain simulation of the same rules (../compare/arc_sim.rs) on the same traces over a pool file of zero bytes, and
# prints the processor time and the peak memory of each, the least of five runs in turn, their ratios, and whether the two reports are the same,
# byte for byte.
# Five traces: 200,000 and 1,000,000 reads drawn over 4,096 and 16,384 blocks, as the word gen draws them; and one of 60 MB, with 100,000
# blocks, 1,000,000 reads and comments. How fast lines of every kind are read, without a run, is what texts.sh measures. It needs rustc and
# python3, and builds the program if that was not done yet.
set -eu
here=$(cd "$(dirname "$0")" && pwd)
tool=$here/../crates/arc_tool/out/arc_tool
[ -x "$tool" ] || (cd "$here/../crates/arc_tool" && rt run -- --version)
work=$(mktemp -d)
trap 'rm -rf "$work"' EXIT
rustc --edition 2024 -O -o "$work/arc_sim" "$here/../compare/arc_sim.rs"
PYTHONPATH="$here" PYTHONDONTWRITEBYTECODE=1 python3 - "$tool" "$work/arc_sim" "$work" <<'PY'
import hashlib, sys

from beside import figures, run, same

tool, plain, work = sys.argv[1:]
ZEROS = hashlib.sha256(bytes(512)).hexdigest()
ROUNDS = 5


def draws(blocks, ops):
    x = 1
    for _ in range(ops):
        x = (x * 1103515245 + 12345) % 2**31
        yield x // 65536 % blocks


def drawn(out, blocks, ops):
    out.write(f'arc 1 1 256 1 {max(4096, blocks * 128)} 0 0\n')
    out.writelines(f'block {i * 512} 512 1 {ZEROS}\n' for i in range(blocks))
    out.writelines(f'read 0 {i + 1} {x} 0 0\n' for i, x in enumerate(draws(blocks, ops)))


def long(out):
    """60 MB: large ticks, windows at the end of a block, and a comment behind each ten reads."""
    out.write(f'arc 1 1 256 1 {4_096 * 128} 0 0\n')
    out.writelines(f'block {i * 512} 512 1 {ZEROS}\n' for i in range(100_000))
    for i, x in enumerate(draws(4_096, 1_000_000)):
        out.write(f'read 0 {4 * 10**18 + i} {24 * x} 496 16\n')
        if i % 10 == 9:
            out.write('#' * 119 + '\n')


pool, trace = f'{work}/pool', f'{work}/trace'
with open(pool, 'wb') as out:
    out.truncate(100_000 * 512)
cases = [(f'{blocks} blocks, {ops} reads', lambda out, b=blocks, o=ops: drawn(out, b, o))
         for blocks in (4_096, 16_384) for ops in (200_000, 1_000_000)]
cases.append(('a trace of 60 MB', long))
print(f'{"":32}{"arc_tool":>20}{"plain":>20}{"ratios":>14}')
differing = []
for name, write in cases:
    with open(trace, 'w') as out:
        write(out)
    run([plain, pool, '-', 'run'], trace, f'{work}/plain')  # so that the files are in memory for both
    # In turn, since how fast a shared machine is changes within a minute; the least counts.
    turns = [(run([tool, pool, '-', 'run'], trace, f'{work}/ours'), run([plain, pool, '-', 'run'], trace, f'{work}/plain')) for _ in range(ROUNDS)]
    ours, theirs = (min(runs) for runs in zip(*turns))
    if not same(f'{work}/ours', f'{work}/plain'):
        differing.append(name)
    print(f'{name:32}{figures(ours, theirs)}')
if differing:
    sys.exit('the reports differ: ' + '; '.join(differing))
PY
