#!/usr/bin/env bash
# Proves, builds and runs a million gets of 100,000 blocks over dbufs, and a sync of 10,000 dirty blocks, in a copy of the repository. Beside them run plain
# maps with an LRU list each, one a cell, behind a lock each, and a plain loop that hashes and writes. Gets are of 1, 2 or 4 callers, over one cell or
# sixteen, which keep all blocks or a fourth of them; each block's first get loads it. All run in turn, ROUNDS times (default 5). A row has the
# median nanoseconds a get or a block of both, and the median of the ratios. It needs rustc and python3. With the word `soak` four callers do drawn
# calls instead, on one cell and on sixteen, and each answer is compared with a plain map's.
set -eu
here=$(cd "$(dirname "$0")" && pwd)
copy=$(mktemp -d)
trap 'rm -rf "$copy"' EXIT
names='blk_ptr vdev_io arc_links key_table varint arc_lists arc_core hash_chain dbuf_state turn_table arc_table arc_examples dbuf_cells txg_sync dbuf_examples'
mkdir "$copy/crates"
for name in $names; do
    cp -r "$here/../crates/$name" "$copy/crates/"
    grep -E "^$name[ :]" "$here/../crates.txt" >> "$copy/crates.txt"
done
cp "$here/../HANDLES" "$copy/"
mkdir "$copy/crates/dbufs_bench"
cp -r "$here/dbufs/src" "$here/dbufs/proofs" "$copy/crates/dbufs_bench/"
cp -r "$here/dbufs/crowd" "$copy/crates/dbuf_crowd"
find "$copy/crates/dbufs_bench" "$copy/crates/dbuf_crowd" -name '*.in' -exec sh -c 'mv "$1" "${1%.in}"' _ {} \;
printf 'dbuf_crowd: arc_core arc_examples arc_table blk_ptr dbuf_cells dbuf_examples dbuf_state turn_table vdev_io\n' >> "$copy/crates.txt"
printf 'dbufs_bench: arc_core arc_examples arc_table blk_ptr dbuf_cells dbuf_crowd dbuf_examples dbuf_state turn_table txg_sync vdev_io\n' >> "$copy/crates.txt"
if [ "${1:-}" = soak ]; then
    cd "$copy/crates/dbufs_bench"
    rt run -- soak
    exit
fi
mkdir "$copy/baseline"
cp "$here/dbufs/plain.rs" "$here/../compare/sha256.rs" "$copy/baseline/"
rustc --edition 2024 -O -A warnings -o "$copy/plain" "$copy/baseline/plain.rs"
(cd "$copy/crates/dbufs_bench" && rt run -- sync > "$copy/log" 2>&1) || { cat "$copy/log"; exit 1; }
ours=$copy/crates/dbufs_bench/out/dbufs_bench
# Notes what was measured, and what both programs print for these words.
row() {
    echo "$1,$("$ours" ${*:2}),$("$copy/plain" ${*:2})" >> "$copy/rows"
}
for _ in $(seq "${ROUNDS:-5}"); do
    for callers in 1 2 4; do
        row "$callers callers 1 cell all kept" 1 51200000 $callers
        row "$callers callers 16 cells all kept" 16 3200000 $callers
        row "$callers callers 1 cell a fourth kept" 1 12800000 $callers
        row "$callers callers 16 cells a fourth kept" 16 800000 $callers
    done
    row "sync" sync
done
python3 - "$copy/rows" <<'PY'
import sys
from statistics import median

rows = {}
for line in open(sys.argv[1]):
    name, ours, plain = line.strip().split(',')
    rows.setdefault(name, []).append((int(ours), int(plain)))
for name, row in rows.items():
    ours, plain = median(o for o, _ in row), median(p for _, p in row)
    print(f'{name:38}{ours:8,.0f} ns{plain:8,.0f} ns{median(o / p for o, p in row):7.2f}')
PY
uptime
