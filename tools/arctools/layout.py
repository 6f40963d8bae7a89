"""The blocks that a log's accesses touch: which there are, in what order they are asked for, and where they lie in a pool, one file behind the
other. What a trace can't have is told with what would fit."""
import os
import stat

from .command import Fault
from .sizes import short

MOST_BLOCKS = 100_000
MOST_OPERATIONS = 1_000_000
LARGEST_BLOCK = 16_777_216
LONGEST_POOL = 1 << 40
LARGEST_PAGE = 1 << 62
FURTHEST = 1 << 62  # no access of any file ends behind it
FEW = 4_096
READ, PUT, PATCH, SYNC = range(4)  # what an operation does: a write of a whole block, or of a part of one; a sync writes out what was written
ODD = 0x9E3779B97F4A7C15
MASK = 2**44 - 1
MANY = 100_000


def mixed(number):
    """A number of 64 bits that looks drawn."""
    number = (number ^ (number >> 31)) * ODD & (2**64 - 1)
    return (number ^ (number >> 29)) * ODD & (2**64 - 1)


class Distinct:
    """About how many different numbers there were, in little memory: of many only those are kept that a hash picks."""

    def __init__(self):
        self.mask, self.kept = 0, set()

    def add(self, numbers):
        mask = self.mask
        self.kept.update(drawn for drawn in (number * ODD >> 20 & MASK for number in numbers) if not drawn & mask)
        while len(self.kept) > FEW:
            self.mask = self.mask * 2 + 1
            self.kept = {drawn for drawn in self.kept if not drawn & self.mask}

    def about(self):
        return len(self.kept) * (self.mask + 1)


class File:
    """A file of a log: where its bytes are, and how many there are, where they are at hand."""

    def __init__(self, name, number, path, size, missing):
        self.name, self.number, self.path, self.size, self.missing = name, number, path, size, missing
        self.reads = self.bytes = 0
        self.last = -1  # the furthest block that is asked for
        self.base = 0

    def blocks(self, block):
        """How many blocks the pool has of it."""
        return self.last + 1 if self.size is None else -(-self.size // block)


class Layout:
    """What is to be imported, access by access."""

    def __init__(self, block, limits, tally, find, first=None, sample=1, sync=None):
        self.block, self.limits, self.tally, self.find, self.first, self.sample = block, limits, tally, find, first, sample
        self.sync = sync  # writes stay writes, with a sync once so many ticks have gone by since the last; None: they are reads
        self.files = {}
        self.numbers = {}  # (file's number, index) as one number -> block
        self.places = []  # block -> (file, index)
        self.operations = []  # (what it does, block, tick, caller, where in the block)
        self.put_first = set()  # the blocks that are written before they are read, so that no bytes of theirs are wanted
        self.dirty, self.synced, self.last_sync = set(), 0, 0
        self.accesses = 0
        self.over = None
        self.cut = False  # whether --first ended it

    def file(self, name):
        if name not in self.files:
            path, size, missing = self.find(name)
            self.files[name] = File(name, len(self.files), path, size, missing)
        return self.files[name]

    def take(self, access, tick, caller):
        """Takes an access in. Whether more are wanted."""
        if access.offset + access.length > FURTHEST:
            raise ValueError(f'the range ends behind byte {FURTHEST:,}')
        file = self.file(access.file)
        if file.missing:
            self.tally.add(f'reads of files {file.missing}', access.length)
            return True
        if access.length == 0:
            self.tally.add('reads of no bytes')
            return True
        first, last = access.offset // self.block, (access.offset + access.length - 1) // self.block
        if file.size is not None and self.sync is None and last >= (blocks := file.blocks(self.block)):
            self.tally.add('reads behind the end that the file has now', access.length if first >= blocks else 0)
            if first >= blocks:
                return True
            last = blocks - 1
        self.accesses += 1
        file.reads += 1
        file.bytes += access.length
        return self.over.take(file, access) if self.over else self.place(file, first, last, access, tick, caller)

    def place(self, file, first, last, access, tick, caller):
        for index in range(first, last + 1):
            name = file.number << 62 | index
            if self.sample > 1 and mixed(name) % self.sample:
                continue
            if self.first is not None and len(self.operations) >= self.first:
                self.cut = True
                return False
            new = name not in self.numbers
            if len(self.operations) == MOST_OPERATIONS or (new and len(self.places) == self.limits):
                self.over = Over(self, access.line)
                return self.over.take(file, access)
            at = max(access.offset - index * self.block, 0)
            does = self.does(access, at, index, new)
            if new and does != PUT and file.size is not None and index >= -(-file.size // self.block):
                self.tally.add('reads behind the end that the file has now')
                continue
            if new:
                self.numbers[name] = len(self.places)
                self.places.append((file, index))
                file.last = max(file.last, index)
            block = self.numbers[name]
            self.operations.append((does, block, tick, caller, at))
            if does != READ:
                self.write(block, new and does == PUT, tick)
        return True

    def does(self, access, at, index, new):
        """What an access does to a block: a part of a block that is new behind the file's end makes the whole of it."""
        if self.sync is None or not access.is_write:
            return READ
        whole = at == 0 and access.offset + access.length >= (index + 1) * self.block
        size = self.files[access.file].size
        return PUT if whole or (new and size is not None and index * self.block >= size) else PATCH

    def write(self, block, is_made, tick):
        if is_made:
            self.put_first.add(block)
        self.dirty.add(block)
        if tick >= self.last_sync + self.sync:
            self.settle(tick)

    def settle(self, tick):
        """Syncs what was written."""
        if self.dirty and len(self.operations) < MOST_OPERATIONS:
            self.operations.append((SYNC, 0, tick, 0, 0))
            self.synced += len(self.dirty)
            self.dirty.clear()
        self.last_sync = tick

    def lay_out(self, in_place):
        """Gives each file its place in the pool, one behind the other. The pool's length."""
        end = 0
        for file in self.files.values():
            if file.missing or not file.reads:
                continue
            file.base = 0 if in_place else end
            end += max(file.blocks(self.block), file.last + 1) * self.block
        return end


class Over:
    """Counts on where a limit was met, to say how much there is and what would fit."""

    def __init__(self, layout, line):
        self.layout, self.line = layout, line
        self.of_trace = layout.limits == MOST_BLOCKS
        shifts = [shift for shift in range(0, 16, 2) if layout.block << shift <= LARGEST_BLOCK]
        # for each larger size of blocks, how many operations there are at most, and about how many blocks
        self.operations = dict.fromkeys(shifts, len(layout.operations))
        self.distinct = {shift: Distinct() for shift in shifts}
        self.seen = {file.number << 62 | index for file, index in layout.places} if self.of_trace else set()

    def take(self, file, access):
        block, sample = self.layout.block, self.layout.sample
        first, last = access.offset // block, (access.offset + access.length - 1) // block
        for shift in self.operations:
            self.operations[shift] += -(-((last >> shift) - (first >> shift) + 1) // sample)
        if self.of_trace:
            name = file.number << 62
            self.seen.update(name | index for index in range(first, min(last, first + MANY) + 1) if sample == 1 or mixed(name | index) % sample == 0)
            if len(self.seen) > MANY:
                self.settle()
        return True

    def settle(self):
        """Counts the blocks that were seen since the last time."""
        for shift, distinct in self.distinct.items():
            distinct.add({number >> shift for number in self.seen})
        self.seen.clear()

    def fault(self, name):
        """What is told of a log that is too long: how much there is, and each thing that helps."""
        self.settle()
        most, block, sample = self.layout.limits, self.layout.block, self.layout.sample
        operations, blocks = self.operations[0], self.distinct[0].about()
        # a tenth more, since the numbers are about right
        part = max(2, -(-operations * 11 // (MOST_OPERATIONS * 10)), -(-blocks * 11 // (most * 10))) * sample
        helps = [f'--first {len(self.layout.operations)} takes the front of the log up to here', f'--sample {part} takes one block of {part}, with all its reads']
        fits = [shift for shift, distinct in self.distinct.items() if shift and self.operations[shift] <= MOST_OPERATIONS and distinct.about() * 11 <= most * 10]
        if fits:
            helps.append(f'--block {short(block << fits[0])} makes fewer blocks, and larger ones')
        has = f'a trace has at most {MOST_OPERATIONS:,} operations and {MOST_BLOCKS:,} blocks' if self.of_trace else f'a list of pages has at most {MOST_OPERATIONS:,}'
        different = f', about {blocks:,} different ones' if self.of_trace else ''
        return Fault(f'{has}, and here is one more. The whole log has {operations:,} reads of blocks of {short(block)}{different}. What helps: {"; ".join(helps)}', name, self.line)


def at_hand(path):
    """The size of a file whose bytes can be read, and what is wrong where there is none."""
    try:
        state = os.stat(path)
    except OSError:
        return None, 'that are not here'
    if stat.S_ISREG(state.st_mode):
        return (state.st_size, None) if os.access(path, os.R_OK) else (None, 'that may not be read')
    if stat.S_ISBLK(state.st_mode):
        with open(path, 'rb') as device:
            return device.seek(0, os.SEEK_END), None
    return None, 'that are no plain files'
