#!/usr/bin/env bash
# Runs the program and a plain simulation of the same rules (../compare/arc_sim.rs) on traces of objects and of a cache device, and prints the processor time and the peak memory of each, the
# least of ROUNDS runs in turn (default 3), their ratios, and whether reports, pool and device are the same, byte for byte.
# Three traces: 1,000,000 gets and puts drawn over 100,000 blocks of objects in 16 cells; 1,000,000 reads drawn over 16,384 blocks, of which half were fed to the device before, so that it serves
# half of the misses; and a device of 1 GiB, to which a run feeds 6,144 blocks of 131,072 bytes, and a second run that finds them there and reads them. It needs rustc, python3 and 5 GB
# of disk, and builds the program if that was not done yet.
set -eu
here=$(cd "$(dirname "$0")" && pwd)
tool=$here/../crates/arc_tool/out/arc_tool
[ -x "$tool" ] || (cd "$here/../crates/arc_tool" && rt run -- --version)
work=$(mktemp -d)
trap 'rm -rf "$work"' EXIT
rustc --edition 2024 -O -o "$work/arc_sim" "$here/../compare/arc_sim.rs"
PYTHONPATH="$here" PYTHONDONTWRITEBYTECODE=1 python3 - "$tool" "$work/arc_sim" "$work" "${ROUNDS:-3}" <<'PY'
import hashlib
import os
import shutil
import sys

from beside import figures, run, same

tool, plain, work = sys.argv[1:4]
rounds = int(sys.argv[4])


def zeros(size):
    return hashlib.sha256(bytes(size)).hexdigest()


def draws(choices, count):
    x = 1
    for _ in range(count):
        x = (x * 1103515245 + 12345) % 2**31
        yield x // 65536 % choices


def declared(out, count, size):
    digest = zeros(size)
    out.writelines(f'block {i * size} {size} 1 {digest}\n' for i in range(count))


def objects(out):
    """Half gets, half puts, over 100,000 blocks of 100 objects: each cell keeps 4 MiB of clean blocks. A put block stays dirty."""
    out.write('arc 1 1 256 16 16777216 0 4194304\n')
    declared(out, 100_000, 512)
    out.writelines(f'object {i % 100} {i // 100} {i}\n' for i in range(100_000))
    x = 1
    for t in range(1, 1_000_001):
        x = (x * 6364136223846793005 + 1442695040888963407) % 2**64
        i = (x >> 33) % 100_000
        at = f'{i % 100} {i // 100}'
        out.write(f'get 0 {t} {at} 0 8\n' if x >> 63 else f'put 0 {t} {at} 512 {t % 256:02x}\n')


def half_fed(out):
    """The first half of the blocks is read and fed; then all are drawn. The cache holds an eighth."""
    blocks = 16_384
    out.write(f'arc 1 1 256 1 {blocks * 64} 0 0\nl2 4194304 64\n')
    declared(out, blocks, 512)
    t = 0
    for x in range(blocks // 2):
        t += 1
        out.write(f'read 0 {t} {x} 0 0\n')
        if x % 512 == 511:
            out.write('feed\n')
    out.writelines(f'read 0 {t + 1 + i} {x} 0 0\n' for i, x in enumerate(draws(blocks, 1_000_000 - blocks // 2 - blocks // 1024)))


LARGE = 6_144


def all_fed(out):
    out.write('arc 1 1 256 1 67108864 0 0\nl2 33554432 64\n')
    declared(out, LARGE, 131_072)
    for x in range(LARGE):
        out.write(f'read 0 {x + 1} {x} 0 0\n')
        if x % 128 == 127:
            out.write('feed\n')


def all_again(out):
    out.write('arc 1 1 256 1 67108864 0 0\nl2 33554432 64\n')
    declared(out, LARGE, 131_072)
    out.writelines(f'read 0 {x + 1} {x} 0 0\n' for x in range(LARGE))


def fresh(path, size):
    with open(path, 'wb') as out:
        out.truncate(size)


def device_of(side):
    return f'{work}/device.{side}'


def turn(side, program, device, kept):
    """One run, on a new device, on one that an earlier run left, or on none."""
    if device and kept:
        shutil.copyfile(f'{work}/device.kept', device_of(side))
    elif device:
        fresh(device_of(side), device)
    return run([program, f'{work}/pool', device_of(side) if device else '-', 'run'], f'{work}/trace', f'{work}/{side}')


cases = [('gets and puts, 100,000 blocks', objects, 100_000 * 512, 0, False),
         ('a device serves half the misses', half_fed, 16_384 * 512, 1 << 24, False),
         ('1 GiB of device, fed', all_fed, LARGE * 131_072, 1 << 30, False),
         ('1 GiB of device, found again', all_again, LARGE * 131_072, 1 << 30, True)]
print(f'{"":32}{"arc_tool":>20}{"plain":>20}{"ratios":>14}')
differing = []
for name, write, pool, device, kept in cases:
    with open(f'{work}/trace', 'w') as out:
        write(out)
    fresh(f'{work}/pool', pool)
    turns = [(turn('ours', tool, device, kept), turn('plain', plain, device, kept)) for _ in range(rounds)]
    ours, theirs = (min(runs) for runs in zip(*turns))
    if not same(f'{work}/ours', f'{work}/plain') or device and not same(device_of('ours'), device_of('plain')):
        differing.append(name)
    if device and not kept:
        os.replace(device_of('ours'), f'{work}/device.kept')
    print(f'{name:32}{figures(ours, theirs)}')
    with open(f'{work}/ours') as report:
        print('    ' + [line for line in report if line.startswith('count')][0].strip())
if differing:
    sys.exit('they differ: ' + '; '.join(differing))
PY
