#!/usr/bin/env bash
# Reads a pool of 256 MiB of random bytes once, as blocks of 131,072 bytes, and hashes the same file with sha256sum.
# Prints both times in seconds and their ratio. The program has to be built: (cd crates/arc_tool && rt run).
set -eu
tool=$(cd "$(dirname "$0")/.." && pwd)/crates/arc_tool/out/arc_tool
work=$(mktemp -d)
trap 'rm -rf "$work"' EXIT
block=131072
blocks=2048
head -c $((block * blocks)) /dev/urandom >"$work/pool"
{
    echo 'arc 1 1 256 1 4294967296 0 0'
    split -b $block --filter=sha256sum "$work/pool" | cut -d' ' -f1 |
        awk -v block=$block '{ printf "block %d %d 1 %s\n", (NR - 1) * block, block, $1 }'
    for ((i = 0; i < blocks; i++)); do echo "read 0 $((i + 1)) $i 0 0"; done
} >"$work/trace"

seconds() {
    local from to
    from=$(date +%s.%N)
    "$@"
    to=$(date +%s.%N)
    awk -v from="$from" -v to="$to" 'BEGIN { printf "%.2f", to - from }'
}
plain() { sha256sum "$work/pool" >/dev/null; }
cached() { "$tool" "$work/pool" - run <"$work/trace" >"$work/report"; }

plain # so that the file is in memory for both
hashed=$(seconds plain)
read=$(seconds cached)
[ "$(tail -n 1 "$work/report")" = 'end 0' ]
echo "sha256sum $hashed s, arc_tool $read s, ratio $(awk -v a="$read" -v b="$hashed" 'BEGIN { printf "%.2f", a / b }')"
