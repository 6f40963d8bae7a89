"""What the log of any format tells: accesses to ranges of files."""
from typing import NamedTuple, Optional


class Access(NamedTuple):
    """One read or write of a range of a file, by a line of the log."""

    line: int
    is_write: bool
    file: str
    offset: int
    length: int
    time: Optional[float]  # in milliseconds, from any moment on; None where the log tells no times
    who: int  # the process, thread or processor that asked


class Tally:
    """What was not imported: how often and how many bytes, by the reason."""

    def __init__(self):
        self.counts = {}

    def add(self, reason, size=0, times=1):
        before = self.counts.get(reason, (0, 0))
        self.counts[reason] = (before[0] + times, before[1] + size)

    def __iter__(self):
        return iter((reason, *counted) for reason, counted in self.counts.items())
