#!/usr/bin/env bash
# Runs the words `gen SEED BLOCKS OPS` of the program and a plain program that does the same work (../compare/arc_plain.rs: no history, one
# table, entries that carry their links) in turn, and prints the processor time and the peak memory of each, medians of ROUNDS runs (default
# 5), their ratios, and whether both print the same, byte for byte. It needs rustc and python3, and builds the program if that was not done yet;
# `bench/plain.sh PROGRAM` takes another build of it.
set -eu
here=$(cd "$(dirname "$0")" && pwd)
tool=${1:-$here/../crates/arc_tool/out/arc_tool}
[ -x "$tool" ] || (cd "$here/../crates/arc_tool" && rt run -- --version)
work=$(mktemp -d)
trap 'rm -rf "$work"' EXIT
rustc --edition 2024 -O -A warnings -o "$work/arc_plain" "$here/../compare/arc_plain.rs"
python3 - "$tool" "$work" "${ROUNDS:-5}" <<'PY'
import os, sys
from statistics import median

tool, work, rounds = sys.argv[1], sys.argv[2], int(sys.argv[3])
LINES = ((1, 4_096, 200_000), (1, 16_384, 300_000), (1, 32_768, 1_000_000))


def run(words, report):
    """The seconds of processor time and the peak megabytes of one run."""
    child = os.fork()
    if child == 0:
        os.dup2(os.open(report, os.O_WRONLY | os.O_CREAT | os.O_TRUNC, 0o600), 1)
        os.execv(words[0], words)
    _, status, usage = os.wait4(child, 0)
    assert os.waitstatus_to_exitcode(status) == 0, f'{words[0]} ended with {os.waitstatus_to_exitcode(status)}'
    return usage.ru_utime + usage.ru_stime, usage.ru_maxrss / 1024


def text(path):
    with open(path, 'rb') as it:
        return it.read()


differing = []
print(f'{"":28}{"arc_tool":>18}{"plain":>18}{"ratios":>14}')
for line in LINES:
    numbers = [str(n) for n in line]
    turns = [(run([tool, '-', '-', 'gen', *numbers], f'{work}/ours'), run([f'{work}/arc_plain', *numbers], f'{work}/plain')) for _ in range(rounds)]
    name = 'gen ' + ' '.join(numbers)
    if text(f'{work}/ours') != text(f'{work}/plain'):
        differing.append(name)
    (ours, size), (theirs, plain_size) = ((median(one[0] for one in runs), median(one[1] for one in runs)) for runs in zip(*turns))
    print(f'{name:28}{ours:7.2f} s {size:5.0f} MB{theirs:7.2f} s {plain_size:5.0f} MB{ours / theirs:7.2f} {size / plain_size:6.2f}')
if differing:
    sys.exit('the reports differ: ' + '; '.join(differing))
PY
