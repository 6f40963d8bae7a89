#!/usr/bin/env bash
# Proves, builds and runs callers of the shared cache in a copy of the repository, and prints reads a second beside those of a plain cache
# with one Mutex a shard (`plain`). Reads are hits, hits of callers that keep to shards of their own (`apart`), or misses, with so many callers
# and shards. The pool has BLOCKS blocks of 512 bytes (default 4096; of more than 32,768 only so many are drawn). Beside them stand hits of
#
# - a plain cache with the locks that ours has (`locks`), and one whose shards' sequences are asked by key as well (`lists`): what two locks and
#   two or three look-ups a call cost by themselves;
# - callers that have a plain cache of their own each (`own`): what the machine gives where nothing is shared;
# - a program that changes nothing for other callers but a lock, the key's holds, its place on the shard's list and its events (`moves`), where
#   all else is stood for by WORK multiplications (default 250).
#
# All run in turn, ROUNDS times (default 5). A figure is the median over the rounds: the rate; how many times the plain cache's time it takes; and
# how many times the rate of one caller, with the least and the most. Then the whole program follows (callers/program.py), which is built if that
# was not done yet. It needs rustc and python3.
set -eu
here=$(cd "$(dirname "$0")" && pwd)
copy=$(mktemp -d)
blocks=${BLOCKS:-4096}
trap 'rm -rf "$copy"' EXIT
. "$here/callers/copy.sh"
(cd "$copy/crates/callers_bench" && rt run -- hits 1 16 > "$copy/log" 2>&1) || { cat "$copy/log"; exit 1; }
ln -s "$copy/crates/callers_bench/out/callers_bench" "$copy/ours"
rustc --edition 2024 -O -A warnings -o "$copy/plain" "$here/plain/shared_cache.rs"
rustc --edition 2024 -O -A warnings -o "$copy/locks" "$here/plain/two_locks.rs"
rustc --edition 2024 -O -A warnings -o "$copy/moves" "$here/plain/list_moves.rs"
# Notes a row's kind of reads, cache, callers and shards, and the rate that a program with these words prints for them.
row() {
    local kind=$1 cache=$2 callers=$3 shards=$4
    shift 4
    echo "$kind $cache $callers $shards $("$copy/$1" "${@:2}")" >> "$copy/rates"
}
for _ in $(seq "${ROUNDS:-5}"); do
    for callers in 1 2 4; do
        for shards in 16 1; do
            for kind in hits misses; do
                row $kind ours $callers $shards ours $kind $callers $shards
                row $kind plain $callers $shards plain $kind $callers $shards "$blocks" 200000
            done
            row hits locks $callers $shards locks $callers $shards "$blocks" 200000
            row hits lists $callers $shards locks $callers $shards "$blocks" 200000 lists
        done
        row apart ours $callers 16 ours apart $callers 16
        row apart plain $callers 16 plain apart $callers 16 "$blocks" 200000
        row hits own $callers 16 plain own $callers 16 "$blocks" 200000
        row hits moves $callers 16 moves $callers 16 "$blocks" 200000 "${WORK:-250}"
    done
done
python3 - "$copy/rates" <<'PY'
import sys
from statistics import median

# the rates of each row, one a round
rates = {}
for line in open(sys.argv[1]):
    kind, cache, callers, shards, rate = line.split()
    rates.setdefault((kind, cache, callers, shards), []).append(int(rate))

def ratios(some, others):
    return [one / other for one, other in zip(some, others)]

for (kind, cache, callers, shards), row in rates.items():
    times = median(ratios(rates[kind, 'plain', callers, shards], row))
    to_one = ratios(row, rates[kind, cache, '1', shards])
    print(f'{kind:7}{cache:6}{callers:>3}{shards:>4}{median(row):12,.0f}{times:7.2f}{median(to_one):7.2f} ({min(to_one):.2f}, {max(to_one):.2f})')
PY
tool=$here/../crates/arc_tool/out/arc_tool
[ -x "$tool" ] || (cd "$here/../crates/arc_tool" && rt run -- --version)
"$here/callers/program.py" "$tool"
uptime
