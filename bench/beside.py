# What the benches share that run the program beside a plain one: a run that is measured, a row of figures, and whether two files are the same.
import os


def run(words, given, told, ends=(0,)):
    """The seconds of processor time and the peak kilobytes of one run of `words`, which reads the file `given`, writes the file `told`, and ends with one of the codes `ends`."""
    child = os.fork()
    if child == 0:
        os.dup2(os.open(given, os.O_RDONLY), 0)
        os.dup2(os.open(told, os.O_WRONLY | os.O_CREAT | os.O_TRUNC, 0o600), 1)
        os.execv(words[0], words)
    _, status, usage = os.wait4(child, 0)
    code = os.waitstatus_to_exitcode(status)
    assert code in ends, f'{words} ended with {code}'
    return usage.ru_utime + usage.ru_stime, usage.ru_maxrss


def same(a, b):
    """Whether two files have the same bytes."""
    with open(a, 'rb') as a, open(b, 'rb') as b:
        while True:
            x, y = a.read(1 << 20), b.read(1 << 20)
            if x != y:
                return False
            if not x:
                return True


def figures(ours, theirs):
    """Seconds and megabytes of both, and their ratios, for a row of a table."""
    return (f'{ours[0]:9.2f} s {ours[1] / 1024:5.0f} MB{theirs[0]:9.2f} s {theirs[1] / 1024:5.0f} MB'
            f'{ours[0] / theirs[0]:7.2f} {ours[1] / theirs[1]:6.2f}')
