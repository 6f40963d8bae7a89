#!/usr/bin/env bash
# Proves, builds and runs the benchmark in a copy of the repository, so that no gate waits for it.
set -eu
here=$(cd "$(dirname "$0")" && pwd)
copy=$(mktemp -d)
trap 'rm -rf "$copy"' EXIT
cp -r "$here/../crates" "$here/../crates.txt" "$copy/"
[ -f "$here/../HANDLES" ] && cp "$here/../HANDLES" "$copy/"
cp -r "$here/device" "$copy/crates/device_bench"
find "$copy/crates/device_bench" -name '*.in' -exec sh -c 'mv "$1" "${1%.in}"' _ {} \;
printf '\ndevice_bench: blk_ptr l2_dev l2_log l2_ring vdev_io\n' >> "$copy/crates.txt"
cd "$copy/crates/device_bench"
rt run
