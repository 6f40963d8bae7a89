#!/usr/bin/env bash
# Proves, builds and runs the events of a shard in a copy of the repository, and prints nanoseconds beside those of the plain simulation's
# shard. A line is one kind of event at one number of keys: a hit and its release; a miss with one eviction and one drop, its arrival and its
# release; a pick; a pick that is left without a place; naming one victim of a block of 16 MiB; its eviction. The plain shard's pick is a bare
# walk, and it leaves no pick and names no victim: those have no plain figure. It needs rustc and python3.
set -eu
here=$(cd "$(dirname "$0")" && pwd)
copy=$(mktemp -d)
trap 'rm -rf "$copy"' EXIT
mkdir "$copy/crates"
for name in blk_ptr arc_links key_table varint arc_lists arc_core; do cp -r "$here/../crates/$name" "$copy/crates/"; done
grep -E '^(blk_ptr|arc_links|key_table|varint|arc_lists|arc_core):' "$here/../crates.txt" > "$copy/crates.txt"
printf 'core_bench: arc_core blk_ptr\n' >> "$copy/crates.txt"
cp "$here/../HANDLES" "$copy/"
mkdir -p "$copy/crates/core_bench/src"
cp "$here/core/src/main.rt.in" "$copy/crates/core_bench/src/main.rt"
# The simulation's shard stands in one module with what drives it here, which looks into it.
mkdir "$copy/baseline"
cp "$here/core/plain.rs" "$here/../compare/key.rs" "$here/../compare/sha256.rs" "$copy/baseline/"
grep -v '^//!' "$here/../compare/shard.rs" > "$copy/baseline/shard.rs"
rustc --edition 2024 -O -A warnings -o "$copy/plain" "$copy/baseline/plain.rs"
(cd "$copy/crates/core_bench" && rt run > "$copy/ours" 2> "$copy/log" || { cat "$copy/ours" "$copy/log"; exit 1; })
"$copy/plain" > "$copy/theirs"
python3 - "$copy/ours" "$copy/theirs" <<'PY'
import sys

def read(path):
    rows = {}
    for line in open(path):
        words = line.split()
        if len(words) == 4 and words[1].isdigit():
            rows[words[0], int(words[1])] = int(words[2]), int(words[3])
    return rows

ours, theirs = (read(path) for path in sys.argv[1:])
for (what, keys), (count, nanos) in ours.items():
    _, plain = theirs.get((what, keys), (0, 0))
    ratio = f'{nanos / plain:8.1f}' if plain else f'{"":>8}'
    print(f'{what:10}{keys:10,}{count:10,}{nanos:10,} ns{plain:10,} ns{ratio}')
PY
