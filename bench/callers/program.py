#!/usr/bin/env python3
"""Runs the program (its path is the argument) with 1, 2 and 4 callers on 16 shards and on one, over traces that have the same reads whatever
the number of callers, and prints reads a second of the whole run and their ratio to one caller's. Hits: 1,000,000 reads of 4,096 blocks of
512 bytes that the cache keeps. Misses: 40,000 reads of 2,048 blocks of 16,384 bytes, of which the cache keeps few, so that nearly each read
reads the pool and hashes. The text is read and the report is written by one thread: the time that a run without the reads takes, with as
many drops that find nothing, is taken off."""
import hashlib
import os
import random
import subprocess
import sys
import tempfile
import time

KINDS = {'hits': (4_096, 512, 1_000_000, 2**28), 'misses': (2_048, 16_384, 40_000, 2**21)}


def trace(kind, callers, shards, dropping):
    blocks, size, reads, bytes_kept = KINDS[kind]
    draw = random.Random(7)
    digest = hashlib.sha256(bytes(size)).hexdigest()
    yield f'arc {callers} {shards} 256 1 {bytes_kept // shards} 0 0\n'
    for block in range(blocks):
        yield f'block {block * size} {size} 1 {digest}\n'
    for tick in range(reads):
        caller, block = tick % callers, draw.randrange(blocks)
        yield f'drop {caller} {block}\n' if dropping else f'read {caller} {tick + 1} {block} 0 0\n'


def seconds(tool, pool, path):
    best = float('inf')
    for _ in range(int(os.environ.get('ROUNDS', '3'))):
        began = time.monotonic()
        with open(path, 'rb') as source:
            status = subprocess.run([tool, pool, '-', 'run'], stdin=source, stdout=subprocess.DEVNULL).returncode
        best = min(best, time.monotonic() - began)
        # a drop that finds nothing is a refused operation
        assert status in (0, 1), f'the program ended with {status}'
    return best


def main():
    tool = sys.argv[1]
    print(f'{"":7}{"callers":>8}{"shards":>7}{"seconds":>9}{"reads/s":>12}{"to one":>8}')
    with tempfile.TemporaryDirectory() as work:
        pool, path = f'{work}/pool', f'{work}/trace'
        for kind, (blocks, size, reads, _) in KINDS.items():
            with open(pool, 'wb') as out:
                out.truncate(blocks * size)
            for shards in (16, 1):
                one = 0.0
                for callers in (1, 2, 4):
                    took = []
                    for dropping in (False, True):
                        with open(path, 'w') as out:
                            out.writelines(trace(kind, callers, shards, dropping))
                        took.append(seconds(tool, pool, path))
                    rate = reads / max(took[0] - took[1], 1e-9)
                    one = one or rate
                    print(f'{kind:7}{callers:8}{shards:7}{took[0]:9.2f}{rate:12,.0f}{rate / one:8.2f}')


if __name__ == '__main__':
    main()
