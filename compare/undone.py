"""The operations of a trace that the program doesn't do yet. A trace that has one is refused as one with an unknown word is.

Whoever lets a line into the program takes its word out here: the rows of .ci/trace_table.py that have it are wanted then, and compare/fuzz.py draws it.
"""

# by any number of callers, and by a single one
WORDS = set()
ALONE = set()


def has_undone(text):
    """Whether a trace without a fault has an operation that the program doesn't do yet."""
    lines = [line.split(' ') for line in text.split('\n') if line and not line.startswith('#')]
    undone = WORDS | (ALONE if lines[0][1] == '1' else set())
    return any(line[0] in undone for line in lines[1:])


def sim_words():
    """The words by which the plain simulation refuses the same."""
    return [f'--undone={",".join(sorted(WORDS))}', f'--undone-alone={",".join(sorted(ALONE))}']
