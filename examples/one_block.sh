#!/usr/bin/env bash
# Reads the first block of a file as a pool: examples/one_block.sh [--unproved] FILE [BYTES], with BYTES a multiple of 512, at most 16777216 (512 where none is given).
# The program is built first where it wasn't yet (program.sh).
set -eu
unproved=()
if [ "${1-}" = --unproved ]; then unproved=(--unproved); shift; fi
file=${1:?usage: examples/one_block.sh [--unproved] FILE [BYTES]}
bytes=${2:-512}
digest=$(head -c "$bytes" -- "$file" | sha256sum | cut -d' ' -f1)
printf 'arc 1 1 16 1 4194304 0 0\nblock 0 %s 1 %s\nread 0 1 0 0 16\n' "$bytes" "$digest" |
    "$(dirname "$0")/program.sh" "${unproved[@]}" "$file" - run
