#!/usr/bin/env bash
# Runs a trace of this folder over a pool of 64 KiB of zero bytes: examples/run.sh [--unproved] NAME [--events]. A list of pages is run with room for eight, and a log of events is checked.
# What it prints without --events stands in NAME.report; of several callers, what one run printed. A name that begins with second_level has a cache device of zero bytes; second_level_again
# has the one that second_level left. The program is built first where it wasn't yet (program.sh).
set -eu
unproved=()
if [ "${1-}" = --unproved ]; then unproved=(--unproved); shift; fi
here=$(cd "$(dirname "$0")" && pwd)
name=${1:?usage: examples/run.sh [--unproved] NAME [--events]}
source=$here/$name.trace
if [ -f "$here/$name.pages" ]; then source=$here/$name.pages; fi
if [ -f "$here/$name.log" ]; then source=$here/$name.log; fi
[ -f "$source" ] || { echo "examples/run.sh: there is no $name.trace, no $name.pages and no $name.log" >&2; exit 2; }
files=$(mktemp -d)
trap 'rm -rf "$files"' EXIT
pool=$files/pool device=-
truncate -s 64K "$pool"
if [[ $name == second_level* ]]; then
    device=$files/device
    truncate -s 266240 "$device"
fi
program() { "$here/program.sh" "${unproved[@]}" "$pool" "$device" "$@"; }
if [ "$name" = second_level_again ]; then program run <"$here/second_level.trace" >"$files/first"; fi
words=(run)
if [[ $source == *.pages ]]; then words=(paper 8); fi
if [[ $source == *.log ]]; then words=(check); fi
program "${words[@]}" "${@:2}" <"$source"
