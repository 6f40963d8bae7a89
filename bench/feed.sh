#!/usr/bin/env bash
# Proves, builds and runs the feeds in a copy of the repository, so that no gate waits for them: 64 MiB of blocks fed to a device in memory, beside a plain
# copy of the same bytes with a hash of each log block; one block fed beside 10,000 and beside 1,000,000 live entries; and a start that restores
# 1,765,152 entries. All run ROUNDS times (default 3), and each number is the median over the rounds. It wants 6 GB of memory and python3. With the word
# `soak` it makes 10,000 feeds beside four callers instead.
set -eu
here=$(cd "$(dirname "$0")" && pwd)
copy=$(mktemp -d)
trap 'rm -rf "$copy"' EXIT
cp -r "$here/../crates" "$here/../crates.txt" "$copy/"
[ -f "$here/../HANDLES" ] && cp "$here/../HANDLES" "$copy/"
cp -r "$here/feed" "$copy/crates/feed_bench"
find "$copy/crates/feed_bench" -name '*.in' -exec sh -c 'mv "$1" "${1%.in}"' _ {} \;
printf '\nfeed_bench: arc_core arc_examples arc_table blk_ptr feed_examples l2_dev l2_feed l2_log l2_ring turn_table vdev_io\n' >> "$copy/crates.txt"
cd "$copy/crates/feed_bench"
if [ "${1:-}" = soak ]; then
    rt run -- soak
    exit
fi
rt run > "$copy/round.1" 2> "$copy/log" || { cat "$copy/log"; exit 1; }
for round in $(seq 2 "${ROUNDS:-3}"); do
    out/feed_bench > "$copy/round.$round"
done
python3 - "$copy"/round.* <<'PY'
import re
import sys
from statistics import median

# the lines of each round, and of each line the numbers that were measured
for lines in zip(*(open(path).read().splitlines() for path in sys.argv[1:])):
    rows = [[int(number) for number in re.findall(r'\d+', line)] for line in lines]
    middles = iter([median(column) for column in zip(*rows)])
    print(re.sub(r'\d+', lambda _: f'{next(middles):.0f}', lines[0]))
    if 'plain copy' in lines[0]:
        print(f'    {median(plain / fed for _, fed, plain in rows):.2f} times as long')
PY
uptime
