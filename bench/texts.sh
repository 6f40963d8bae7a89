#!/usr/bin/env bash
# How fast a trace is read: runs arc_lint and a plain reader (plain/read_text.rs) on the same traces, and prints the processor time and the
# peak memory of each, the least of five runs in turn, and their ratios. Both have to count the same blocks, mappings and operations.
# Each trace has 100,000 blocks, 100,000 mappings and 1,000,000 operations: of every kind in turn, or of one kind. It needs rustc and
# python3, and builds arc_lint if that was not done yet.
set -eu
here=$(cd "$(dirname "$0")" && pwd)
lint=$here/../crates/arc_lint/out/arc_lint
[ -x "$lint" ] || (cd "$here/../crates/arc_lint" && rt run -- --version)
work=$(mktemp -d)
trap 'rm -rf "$work"' EXIT
rustc --edition 2024 -O -o "$work/read_text" "$here/plain/read_text.rs"
PYTHONPATH="$here" PYTHONDONTWRITEBYTECODE=1 python3 - "$lint" "$work/read_text" "$work" <<'PY'
import hashlib, sys

from beside import figures, run

lint, plain, work = sys.argv[1:]
ROUNDS, BLOCKS, OPS = 5, 100_000, 1_000_000
# a line each, and so short that a million of them fit a trace
KINDS = {
    'read': lambda i: f'read {i % 16} {i} {i * 7 % BLOCKS} 0 64',
    'hold': lambda i: f'hold {i % 16} {i} {i * 7 % BLOCKS}',
    'drop': lambda i: f'drop {i % 16} {i * 7 % BLOCKS}',
    'get': lambda i: f'get {i % 16} {i} 7 {i % BLOCKS} 496 16',
    'put': lambda i: f'put {i % 16} {i} 7 {i % BLOCKS} 4096 {i % 256:02x}',
    'patch': lambda i: f'patch {i % 16} {i} 7 {i % BLOCKS} 500 {i:08x}',
    'pin': lambda i: f'pin {i % 16} {i} 7 {i % BLOCKS}',
    'unpin': lambda i: f'unpin {i % 16} 7 {i % BLOCKS}',
    'feed': lambda i: 'feed',
    'txg': lambda i: f'txg {i}',
    'cap': lambda i: f'cap {4096 + i}',
}


def write(out, kinds):
    out.write('arc 16 16 256 16 4096 0 0\nl2 8388608 2\n')
    out.writelines(f'block {i * 512} 512 1 {hashlib.sha256(b"%d" % i).hexdigest()}\n' for i in range(BLOCKS))
    out.writelines(f'object 7 {i} {i}\n' for i in range(BLOCKS))
    out.writelines(KINDS[kinds[i % len(kinds)]](i) + '\n' for i in range(OPS))


def counts(report):
    with open(report) as text:
        return text.read().split()[-6:]


trace = f'{work}/trace'
print(f'{"":16}{"arc_lint":>20}{"plain":>20}{"ratios":>14}')
differing = []
for name, kinds in [('every kind', list(KINDS))] + [(kind, [kind]) for kind in KINDS]:
    with open(trace, 'w') as out:
        write(out, kinds)
    run([plain], trace, f'{work}/plain')  # so that the file is in memory for both
    # In turn, since how fast a shared machine is changes within a minute; the least counts.
    turns = [(run([lint], trace, f'{work}/ours'), run([plain], trace, f'{work}/plain')) for _ in range(ROUNDS)]
    ours, theirs = (min(runs) for runs in zip(*turns))
    if counts(f'{work}/ours') != counts(f'{work}/plain'):
        differing.append(name)
    print(f'{name:16}{figures(ours, theirs)}', flush=True)
if differing:
    sys.exit('the counts differ: ' + '; '.join(differing))
PY
