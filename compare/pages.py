#!/usr/bin/env python3
"""Compares `paper C` with the same policy in plain Rust (arc_paper.rs), byte for byte: compare/pages.py [SEED].

One skewed list of 1,000,000 pages, the most that a list has, and 300 small ones; one page more than the most is refused.
Needs rustc. The program has to be built: (cd crates/arc_tool && rt run). ARC_TOOL may name another build of it.
"""
import os
import random
import subprocess
import sys
import tempfile
import time

HERE = os.path.dirname(os.path.abspath(__file__))
MOST = 1_000_000


def run(words, given):
    ended = subprocess.run(words, input=given, capture_output=True, timeout=120)
    return ended.returncode, ended.stdout


def text(pages):
    return ''.join(f'{page}\n' for page in pages).encode()


def small(rng):
    """A short list over few pages, now and then with a comment, an empty line or a large number."""
    pages = [rng.choice([rng.randrange(rng.choice([3, 10, 30])), 2**62]) if rng.random() < 0.1 else rng.randrange(12) for _ in range(rng.randrange(60))]
    return rng.randrange(1, 9), text(pages)


def main():
    seed = int(sys.argv[1]) if len(sys.argv) > 1 else int(time.time())
    rng = random.Random(seed)
    tool = os.environ.get('ARC_TOOL', f'{HERE}/../crates/arc_tool/out/arc_tool')
    with tempfile.TemporaryDirectory(prefix='arc_pages.') as work:
        plain = f'{work}/arc_paper'
        subprocess.run(['rustc', '--edition', '2024', '-O', '-o', plain, f'{HERE}/arc_paper.rs'], check=True)
        most = [int(MOST * rng.random() ** 4) for _ in range(MOST)]
        cases = [(1_024, text(most)), *(small(rng) for _ in range(300))]
        bad = 0
        for capacity, given in cases:
            ours = run([tool, '-', '-', 'paper', str(capacity)], given)
            theirs = run([plain, str(capacity)], given)
            if ours != theirs or ours[0] != 0:
                bad += 1
                print(f'paper {capacity} of {given[:200]!r} ended with {ours[0]}, the plain program with {theirs[0]}')
        if run([tool, '-', '-', 'paper', '1024'], text([*most, 1])) != (3, b''):
            bad += 1
            print('one page too many is not refused')
    print(f'pages: seed {seed}, {len(cases)} lists, {bad} at fault')
    sys.exit(bad > 0)


main()
