#!/usr/bin/env bash
# Runs `paper C` and the same policy in plain Rust (../compare/arc_paper.rs) on lists of 1,000,000 pages, at 1,024 and at 65,536 pages, and
# prints the hits, the processor time and the peak memory of each, their ratios, and whether the two outputs are the same, byte for byte.
# Three lists: a scan of pages that never come back, a loop over half as many pages again as are cached, and a skewed draw over 1,000,000
# pages, the lower the likelier. It needs rustc and python3, and builds the program if that was not done yet.
set -eu
here=$(cd "$(dirname "$0")" && pwd)
tool=$here/../crates/arc_tool/out/arc_tool
[ -x "$tool" ] || (cd "$here/../crates/arc_tool" && rt run -- --version)
work=$(mktemp -d)
trap 'rm -rf "$work"' EXIT
rustc --edition 2024 -O -o "$work/arc_paper" "$here/../compare/arc_paper.rs"
PYTHONPATH="$here" PYTHONDONTWRITEBYTECODE=1 python3 - "$tool" "$work/arc_paper" "$work" <<'PY'
import os, random, sys

from beside import figures, run, same

tool, plain, work = sys.argv[1:]
PAGES = 1_000_000


def scan(capacity):
    return range(PAGES)


def loop(capacity):
    return (i % (capacity + capacity // 2) for i in range(PAGES))


def skewed(capacity):
    rng = random.Random(1)
    return (int(PAGES * rng.random() ** 4) for _ in range(PAGES))


def end_of(path):
    with open(path, 'rb') as told:
        told.seek(-200, os.SEEK_END)
        return told.read().decode().splitlines()[-2]


pages = f'{work}/pages'
print(f'{"":22}{"hits":>10}{"arc_tool":>20}{"plain":>20}{"ratios":>14}')
differing = []
for capacity in (1_024, 65_536):
    for make in (scan, loop, skewed):
        with open(pages, 'w') as out:
            out.writelines(f'{x}\n' for x in make(capacity))
        command = [plain, str(capacity)]
        run(command, pages, f'{work}/plain')  # so that the files are in memory for both
        theirs = min(run(command, pages, f'{work}/plain') for _ in range(3))
        ours = min(run([tool, '-', '-', 'paper', str(capacity)], pages, f'{work}/ours') for _ in range(3))
        name = f'{make.__name__}, {capacity} pages'
        if not same(f'{work}/ours', f'{work}/plain'):
            differing.append(name)
        hits = end_of(f'{work}/plain').split()[-1]
        print(f'{name:22}{hits:>10}{figures(ours, theirs)}')
if differing:
    sys.exit('the outputs differ: ' + '; '.join(differing))
PY
