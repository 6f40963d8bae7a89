"""One shard of the cache, followed event by event: which block is in which list, and the sizes of the lists. The rules are those by which the cache
makes room, drops ghosts and moves its target; the report's own last lines show whether they were followed rightly."""
from collections import OrderedDict

from . import report
from .report import STATES

GONE, ANON, MRU, MRUG, MFU, MFUG, L2 = range(len(STATES))
GHOST_OF = {MRU: MRUG, MFU: MFUG}
GHOSTS = (MRUG, MFUG)


class Entry:
    __slots__ = ('state', 'holds', 'last', 'is_read', 'place')

    def __init__(self, state, who, last, is_read, place=None):
        self.state, self.last, self.is_read, self.place = state, last, is_read, place
        self.holds = {} if who is None else {who: 1}


class Shard:
    """What stands in a shard. `touched` gains each key whose entry changes; `evictions` counts the blocks that lost their bytes to others."""

    def __init__(self, capacity, min_time, key_sizes, touched):
        self.c, self.p, self.min_time = capacity, capacity // 2, min_time
        self.key_sizes, self.touched = key_sizes, touched
        self.entries = {}
        self.lists = [OrderedDict() for _ in STATES]  # the oldest first
        self.sizes = [0] * len(STATES)
        self.passed = set()
        self.evictions = 0
        self.steps = {report.HIT: self.hit, report.MISS: self.miss, report.ARRIVE: self.arrive, report.FAIL: self.fail, report.DROP: self.drop,
                      report.PASS: self.pass_by, report.HAND: self.hand, report.INSERT: self.insert, report.RELEASE: self.release, report.SET: self.set_place,
                      report.CLEAR: self.clear, report.RESTORE: self.restore, report.RESIZE: self.resize}

    def step(self, kind, who, key, number):
        """Makes an event. A KeyError or a ValueError says that it can't come here."""
        if kind in self.steps:
            self.steps[kind](who, key, number)
        if kind not in (report.PASS, report.PICK):
            self.passed.clear()

    # ---- the lists

    def touch(self, key):
        """Notes that an entry changes, behind all that changed before."""
        self.touched.pop(key, None)
        self.touched[key] = None

    def turn(self, key, entry, state):
        """Gives an entry that stands on no list another state."""
        size = self.key_sizes[key]
        self.sizes[entry.state] -= size
        self.sizes[state] += size
        entry.state = state
        self.touch(key)

    def put_in(self, key, entry):
        self.entries[key] = entry
        self.sizes[entry.state] += self.key_sizes[key]
        self.touch(key)

    def take_out(self, key):
        entry = self.entries.pop(key)
        self.lists[entry.state].pop(key, None)
        self.sizes[entry.state] -= self.key_sizes[key]
        self.touch(key)

    def oldest(self, state):
        if not self.passed:
            return next(iter(self.lists[state]), None)
        return next((key for key in self.lists[state] if key not in self.passed), None)

    # ---- the rules

    def adapt(self, state, size):
        mru, mfu, least = self.sizes[MRUG], self.sizes[MFUG], self.c // 16
        if state == MRUG:
            times = 1 if mru >= mfu else min(10, mfu // mru)
            self.p = min(self.c - least, self.p + size * times)
        elif state == MFUG:
            times = 1 if mfu >= mru else min(10, mru // mfu)
            self.p = max(least, self.p - size * times)

    def make_room(self, size):
        while self.sizes[ANON] + self.sizes[MRU] + self.sizes[MFU] + size > self.c:
            order = (MRU, MFU) if self.sizes[ANON] + self.sizes[MRU] > self.p else (MFU, MRU)
            found = next(((key, state) for state in order if (key := self.oldest(state)) is not None), None)
            if found is None:
                return
            key, state = found
            del self.lists[state][key]
            self.turn(key, self.entries[key], GHOST_OF[state])
            self.lists[GHOST_OF[state]][key] = None
            self.evictions += 1

    def trim(self):
        while self.sizes[MRU] + self.sizes[MRUG] > self.c and self.drop_ghost(MRUG):
            pass
        while self.sizes[MRUG] + self.sizes[MFUG] > self.c and self.drop_ghost(MFUG):
            pass

    def drop_ghost(self, state):
        key = self.oldest(state)
        if key is None:
            return False
        if self.entries[key].place is None:
            self.take_out(key)
        else:
            del self.lists[state][key]
            self.turn(key, self.entries[key], L2)
        return True

    # ---- the events

    def held(self, key, who):
        entry = self.entries[key]
        if who not in entry.holds:
            raise ValueError
        return entry

    def hit(self, who, key, tick):
        entry = self.entries[key]
        if entry.state not in GHOST_OF or entry.is_read:
            raise ValueError
        self.lists[entry.state].pop(key, None)
        entry.holds[who] = entry.holds.get(who, 0) + 1
        if entry.state == MFU or tick > entry.last + self.min_time:
            entry.last = tick
            self.turn(key, entry, MFU)
        else:
            self.turn(key, entry, MRU)

    def miss(self, who, key, tick):
        old = self.entries.get(key)
        if old:
            if old.state not in (*GHOSTS, L2):
                raise ValueError
            self.adapt(old.state, self.key_sizes[key])
            self.take_out(key)
        self.make_room(self.key_sizes[key])
        self.put_in(key, Entry(MFU if old else ANON, who, tick, True, old.place if old else None))
        self.trim()

    def arrive(self, who, key, _):
        entry = self.held(key, who)
        entry.is_read = False
        self.turn(key, entry, MRU if entry.state == ANON else entry.state)

    def fail(self, who, key, _):
        self.held(key, who)
        self.take_out(key)

    def let_go(self, key, entry, who):
        entry.holds[who] -= 1
        if not entry.holds[who]:
            del entry.holds[who]
        if not entry.holds:
            self.lists[entry.state][key] = None
        self.turn(key, entry, entry.state)

    def drop(self, who, key, _):
        self.let_go(key, self.held(key, who), who)

    def pass_by(self, who, key, owner):
        self.passed.add(key)

    def hand(self, who, key, cell):
        entry = self.held(key, who)
        entry.holds[cell] = entry.holds.get(cell, 0) + 1
        self.let_go(key, entry, who)

    def insert(self, who, key, tick):
        if key in self.entries:
            self.take_out(key)
        self.make_room(self.key_sizes[key])
        self.put_in(key, Entry(MRU, who, tick, False))
        self.trim()

    def release(self, who, key, is_sole):
        entry = self.held(key, who)
        if is_sole:
            self.take_out(key)
        else:
            self.let_go(key, entry, who)

    def set_place(self, who, key, place):
        self.entries[key].place = place

    def clear(self, who, key, _):
        entry = self.entries[key]
        entry.place = None
        if entry.state == L2:
            self.take_out(key)

    def restore(self, who, key, place):
        self.put_in(key, Entry(L2, None, 0, False, place))

    def resize(self, who, _, capacity):
        least = capacity // 16
        self.c, self.p = capacity, min(capacity - least, max(least, self.p))
        self.make_room(0)
        self.trim()
