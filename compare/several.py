#!/usr/bin/env python3
"""A plain model of a run with any number of callers, and of the orders in which they may come:

    compare/several.py POOL DEVICE <TRACE          every report that the trace may have, without events, and how many orders lead to each
    compare/several.py --check SECONDS [SEED]      draws traces and orders, and holds the checker in arc_replay.rs against them, and the simulation

A party does its lines step by step: one event of a shard is one step, and so is taking a cell, or a read of the device. Which party comes next is
asked of `choose`, and so is whether a scan passes a key whose bucket another one may have just now. It shares no code with the other plain
programs, and reads only traces without a fault. With --check each report has to be found right, and nearly each one with a line changed wrong: two events that
may change places may. With one caller the report, the pool and the device have to be those of arc_sim.rs. ARC_REPLAY and ARC_SIM may name other builds.
"""
import hashlib
import os
import random
import shutil
import subprocess
import sys
import tempfile
import time

HERE = os.path.dirname(os.path.abspath(__file__))
MASK = 2**64 - 1
START, SHORTEST, LOG, LOGGED = 4096, 266_240, 65_536, 681
STATES = ['anon', 'mru', 'mrug', 'mfu', 'mfug', 'l2']
CACHED = {'mru', 'mfu'}
CALLED = {'read', 'hold', 'drop', 'get', 'put', 'patch', 'pin', 'unpin'}


def sha(data):
    return hashlib.sha256(data).hexdigest()


class Trace:
    """A trace without a fault."""

    def __init__(self, text):
        lines = [line.split(' ') for line in text.split('\n') if line and not line.startswith('#')]
        self.callers, self.shards, self.buckets, self.cells, self.c, self.mintime, self.dbufs = map(int, lines[0][1:])
        self.bounds, self.blocks, self.objects, self.ops = (8_388_608, 2), [], [], []
        for word, *fields in lines[1:]:
            if word == 'l2':
                self.bounds = int(fields[0]), int(fields[1])
            elif word == 'block':
                self.blocks.append(((int(fields[0]), int(fields[1]), int(fields[2])), fields[3]))
            elif word == 'object':
                self.objects.append(((int(fields[0]), int(fields[1])), int(fields[2])))
            else:
                self.ops.append((word, fields))

    def bucket_of(self, key):
        """The shard of a key, and its bucket there."""
        a = (key[0] // 512 * 0x9e3779b97f4a7c15 + key[1] // 512 * 31 + key[2]) & MASK
        h = a ^ (a >> 32)
        return h % self.shards, h // self.shards % self.buckets


# ---- a shard

class Entry:
    def __init__(self, state, last, place=None, digest=None):
        self.state, self.last, self.place, self.digest = state, last, place, digest
        self.holds, self.reading = [], None


class Shard:
    def __init__(self, trace, bound):
        self.c, self.p, self.mintime, self.bound, self.headroom = trace.c, trace.c // 2, trace.mintime, bound, trace.bounds[1]
        self.entries, self.lists, self.events = {}, {state: [] for state in STATES}, []

    def size(self, *states):
        return sum(key[1] for key, entry in self.entries.items() if entry.state in states)

    def say(self, *words):
        self.events.append(' '.join(str(' '.join(map(str, word)) if isinstance(word, tuple) else word) for word in words))

    def resident(self, key):
        entry = self.entries.get(key)
        return entry if entry and entry.state in CACHED and entry.reading is None else None

    def bind(self, key):
        self.lists[self.entries[key].state].remove(key)

    def turn(self, key, state):
        self.bind(key)
        self.entries[key].state = state
        if state != 'l2':
            self.lists[state].insert(0, key)

    def take_out(self, key):
        entry = self.entries.pop(key)
        if key in self.lists[entry.state]:
            self.lists[entry.state].remove(key)
        return entry

    def adapt(self, ghost, z):
        mru, mfu, least = self.size('mrug'), self.size('mfug'), self.c // 16
        if ghost == 'mrug':
            self.p = min(self.c - least, self.p + z * (1 if mru >= mfu else min(10, mfu // mru)))
        else:
            self.p = max(least, self.p - min(self.p, z * (1 if mfu >= mru else min(10, mru // mfu))))

    def scan(self, z, may_pass):
        """Makes room and trims, where `may_pass` says of a key who has its bucket."""
        passed = []

        def oldest(state):
            return next((key for key in reversed(self.lists[state]) if key not in passed), None)

        def victim(choices):
            while True:
                key = choices()
                if key is None or not may_pass(key):
                    return key
                passed.append(key)

        def evicted():
            recent, frequent = oldest('mru'), oldest('mfu')
            return (recent or frequent) if self.size('anon', 'mru') > self.p else (frequent or recent)

        while self.size('anon', 'mru', 'mfu') + z > self.c and (key := victim(evicted)):
            self.turn(key, 'mrug' if self.entries[key].state == 'mru' else 'mfug')
        return lambda: self.trim(oldest, victim)

    def trim(self, oldest, victim):
        while self.size('mru', 'mrug') > self.c and (key := victim(lambda: oldest('mrug'))):
            self.drop_ghost(key)
        while self.size('mrug', 'mfug') > self.c and (key := victim(lambda: oldest('mfug'))):
            self.drop_ghost(key)

    def drop_ghost(self, key):
        if self.entries[key].place is None:
            self.take_out(key)
        else:
            self.turn(key, 'l2')

    # the events

    def hit(self, n, key, t):
        self.say('hit', n, key, t)
        entry = self.entries[key]
        if not entry.holds:
            self.bind(key)
        entry.holds.append(n)
        if entry.state == 'mfu' or t > entry.last + self.mintime:
            entry.state, entry.last = 'mfu', t

    def miss(self, n, key, t, may_pass):
        old = self.entries.get(key)
        if old and old.state != 'l2':
            self.adapt(old.state, key[1])
        if old:
            self.take_out(key)
        trim = self.scan(key[1], may_pass)
        self.entries[key] = entry = Entry('mfu' if old else 'anon', t, old.place if old else None)
        entry.holds, entry.reading = [n], n
        trim()
        self.say('miss', n, key, t)
        return (old.place, old.digest) if old else (None, None)

    def arrive(self, n, key, digest, origin):
        self.say('arrive', n, key, digest, origin)
        entry = self.entries[key]
        entry.reading, entry.digest = None, digest
        if entry.state == 'anon':
            entry.state = 'mru'

    def fail(self, n, key):
        self.say('fail', n, key, 'pool')
        self.take_out(key)

    def drop(self, n, key):
        self.say('drop', n, key)
        self.free(n, key)

    def free(self, n, key):
        entry = self.entries[key]
        entry.holds.remove(n)
        if not entry.holds:
            self.lists[entry.state].insert(0, key)

    def hand(self, n, key, to):
        self.say('hand', n, key, to)
        holds = self.entries[key].holds
        holds.remove(n)
        holds.append(to)

    def release(self, n, key):
        sole = len(self.entries[key].holds) == 1
        self.say('release', n, key, 'sole' if sole else 'shared')
        if sole:
            self.take_out(key)
        else:
            self.entries[key].holds.remove(n)

    def insert(self, n, key, digest, t):
        self.say('insert', n, key, digest, t)
        if key in self.entries:
            self.take_out(key)
        trim = self.scan(key[1], lambda key: False)
        self.entries[key] = entry = Entry('mru', t, None, digest)
        entry.holds = [n]
        trim()

    def candidate(self, picked, passed):
        for state in 'mfu', 'mru':
            met = 0
            for key in reversed(self.lists[state]):
                met += key[1]
                if met > self.bound * self.headroom:
                    break
                if self.entries[key].place is None and key not in picked and key not in passed:
                    return key if sum(it[1] for it in picked) + key[1] <= self.bound else None
        return None

    def pick(self, n, may_pass):
        picked, passed = [], []
        while key := self.candidate(picked, passed):
            if may_pass(key):
                passed.append(key)
            else:
                self.say('pick', n, key)
                picked.append(key)
        self.say('feedend', n)
        return [(key, self.entries[key].digest) for key in picked]

    def settle(self, n, key, digest, place):
        entry = self.entries.get(key)
        if entry and entry.state in ('mru', 'mfu', 'mrug', 'mfug') and entry.reading is None and entry.digest == digest and entry.place is None:
            self.say('set', n, key, place)
            entry.place = place
            return 1
        self.say('leave', n, key, 'gone')
        return 0

    def clear(self, n, key, place):
        entry = self.entries.get(key)
        if not entry or entry.place != place:
            return 0
        self.say('clear', n, key)
        entry.place = None
        if entry.state == 'l2':
            self.take_out(key)
        return 1

    def restore(self, n, key, place, digest):
        self.say('restore', n, key, place, digest or '-')
        self.entries[key] = Entry('l2', 0, place, digest)

    def resize(self, n, c):
        self.say('resize', n, c)
        self.c, self.p = c, min(max(self.p, c // 16), c - c // 16)
        self.scan(0, lambda key: False)()


# ---- the cache device

def number(value):
    return value.to_bytes(8, 'little')


def pointer(ptr):
    return number(ptr[0]) + number(LOG) + number(ptr[1]) + bytes(8) + bytes.fromhex(ptr[2]) if ptr else bytes(64)


def pointer_in(data):
    at, length, count = (int.from_bytes(data[i:i + 8], 'little') for i in (0, 8, 16))
    return (at, count, data[32:64].hex()) if length else None


class Device:
    def __init__(self, image):
        self.image, self.end = image, len(image) // 512 * 512
        self.hand = self.evict = self.top = START
        self.lap, self.newest, self.second, self.live = 1, None, None, []

    def start(self):
        """What was restored, and why the walk ended."""
        head = self.image[:512]
        numbers = [int.from_bytes(head[i:i + 8], 'little') for i in range(0, 72, 8)]
        if numbers[0] != 0x5a46534341434845:
            return [], 'header magic'
        self.hand, self.evict, self.top, self.lap = numbers[4:8]
        self.newest, self.second = pointer_in(head[128:192]), pointer_in(head[192:256])
        restored, pair, walked = {}, (self.newest, self.second), 0
        while True:
            ptr, then = pair
            if ptr is None:
                stop = 'zero'
                break
            lap = self.lap_of(ptr[0], LOG)
            if lap is None:
                stop = 'evicted'
                break
            walked += LOG
            if walked > self.end - START:
                stop = 'length'
                break
            block = self.image[ptr[0]:ptr[0] + LOG]
            if sha(block) != ptr[2]:
                stop = 'block digest'
                break
            own, count = (int.from_bytes(block[i:i + 8], 'little') for i in (8, 16))
            if own != lap:
                stop = 'block field'
                break
            for i in reversed(range(count)):
                entry = block[128 + 96 * i:][:96]
                *key, place = (int.from_bytes(entry[j:j + 8], 'little') for j in (0, 8, 16, 24))
                key = tuple(key)
                if self.lap_of(place, key[1]) == lap and place + key[1] <= ptr[0] and key not in restored:
                    restored[key] = (place, lap, entry[32:64].hex())
            pair = then, pointer_in(block[64:128])
        self.live = [(key, place, lap, key[1]) for key, (place, lap, _) in reversed(restored.items())]
        return [(key, place, digest) for key, (place, _, digest) in restored.items()], stop

    def lap_of(self, place, size):
        if START <= place and place + size <= self.hand:
            return self.lap
        if self.evict <= place and place + size <= self.top:
            return self.lap - 1
        return None

    def write_header(self):
        numbers = [0x5a46534341434845, 2, START, self.end, self.hand, self.evict, self.top, self.lap, LOGGED]
        head = b''.join(map(number, numbers)).ljust(128, b'\0') + pointer(self.newest) + pointer(self.second)
        head = head.ljust(480, b'\0')
        self.image[:512] = head + hashlib.sha256(head).digest()

    def begin(self, sizes):
        n = sum(sizes) + LOG * -(-len(sizes) // LOGGED)
        if self.hand + n <= self.end:
            self.evict = max(self.evict, self.hand + n)
        else:
            self.top, self.hand, self.evict, self.lap = self.hand, START, START + n, self.lap + 1
        dropped = [it for it in self.live if self.lap_of(it[1], it[3]) != it[2]]
        self.live = [it for it in self.live if it not in dropped]
        self.write_header()
        return dropped

    def write_run(self, run):
        """Writes blocks and the log block behind them, and gives the places."""
        places, entries = [], b''
        for key, digest, data in run:
            self.image[self.hand:self.hand + key[1]] = data
            entries += b''.join(map(number, (*key, self.hand))) + bytes.fromhex(digest) + bytes(32)
            places.append(self.hand)
            self.live.append((key, self.hand, self.lap, key[1]))
            self.hand += key[1]
        block = b''.join(map(number, (0x4c4f47424c4b4844, self.lap, len(run), 2))).ljust(64, b'\0') + pointer(self.second) + entries
        block = block.ljust(LOG, b'\0')
        self.image[self.hand:self.hand + LOG] = block
        self.newest, self.second = (self.hand, len(run), sha(block)), self.newest
        self.hand += LOG
        self.write_header()
        return places


# ---- a cell of dbufs

class Cell:
    def __init__(self, limit):
        self.limit, self.taken = limit, False
        self.contents, self.pins, self.used = {}, [], []

    def use(self, at):
        self.used = [it for it in self.used if it != at] + [at]

    def due(self):
        def size(at):
            content = self.contents.get(at)
            free = isinstance(content, dict) and content['kept'] in ('held', 'loose') and all(pin[0] != at for pin in self.pins)
            return content['ptr'][0][1] if free else 0
        if sum(map(size, self.used)) <= self.limit:
            return None
        return next(at for at in self.used if size(at))


# ---- a run

class Full(Exception):
    pass


class Refused(Exception):
    pass


class Run:
    """One run of a trace, in the order that `choose` takes: it is asked for a number below the one that it is given."""

    def __init__(self, trace, pool, image, choose):
        self.trace, self.pool, self.choose = trace, pool, choose
        self.device = Device(image) if image is not None and len(image) >= SHORTEST else None
        bound = trace.bounds[0]
        if self.device:
            bound = min(bound, (self.device.end - START) // 2)
        self.shards = [Shard(trace, bound) for _ in range(trace.shards)]
        self.cells = [Cell(trace.dbufs) for _ in range(trace.cells)]
        for at, block in trace.objects:
            self.cell(at).contents[at] = {'ptr': trace.blocks[block], 'kept': None}
        self.feeder, self.group, self.status = trace.callers, 1, None
        self.next = max([key[0] + key[1] for key, _ in trace.blocks if not self.key_fault(key)], default=0)
        self.bytes = {}
        self.replies, self.kept = [], [[] for _ in range(trace.callers)]
        self.wants = {}
        self.rebuilt = None
        if image is not None:
            self.rebuilt = '0 short'
        if self.device:
            restored, stop = self.device.start()
            self.rebuilt = f'{len(restored)} {stop}'
            for key, place, digest in restored:
                self.shard(key).restore(self.feeder, key, place, digest)

    def shard(self, key):
        return self.shards[self.trace.bucket_of(key)[0]]

    def number_of_cell(self, at):
        cells = self.trace.cells
        return (at[0] % cells + at[1] % cells) % cells

    def cell(self, at):
        return self.cells[self.number_of_cell(at)]

    def key_fault(self, key):
        if key[0] % 512:
            return 'unaligned'
        if key[1] % 512 or not 512 <= key[1] <= 2**24:
            return 'size'
        if key[0] + key[1] > len(self.pool):
            return f'range {key[0] + key[1]} {len(self.pool)}'
        return None if key[2] else 'birth'

    def may_pass(self, n, own=()):
        """Whether a scan of n passes a key, since another party that is about to make an event has its bucket. What the scan has in hand itself,
        it doesn't try."""
        in_hand = {self.trace.bucket_of(key) for key in own}

        def asked(key):
            bucket = self.trace.bucket_of(key)
            owners = [o for o, want in self.wants.items() if o != n and want and self.trace.bucket_of(want) == bucket]
            if bucket not in in_hand and owners and self.choose(2):
                self.shard(key).say('pass', n, key, owners[self.choose(len(owners))])
                return True
            in_hand.add(bucket)
            return False
        return asked

    # a step is what stands between two yields; what is yielded is the key that it is about, and when it may be done

    def access(self, n, ptr, t):
        """A read of a block: where its bytes came from."""
        key, digest = ptr
        if self.key_fault(key):
            raise Refused(f'key {self.key_fault(key)}')
        shard = self.shard(key)
        yield key, lambda: key not in shard.entries or shard.entries[key].reading is None
        entry = shard.resident(key)
        if entry and entry.digest == digest:
            shard.hit(n, key, t)
            return 'hit'
        if entry:
            shard.say('past', n, key, entry.digest)
            self.read_pool(ptr)
            return 'past'
        place, known = shard.miss(n, key, t, self.may_pass(n, [key]))
        served = False
        if self.device and place is not None and place + key[1] <= len(self.device.image) and known in (None, digest):
            yield None, None
            data = bytes(self.device.image[place:place + key[1]])
            served = sha(data) == digest
        yield key, None
        if served and shard.entries[key].place is not None:
            self.bytes[digest] = data
            shard.arrive(n, key, digest, 'l2')
            return 'l2'
        try:
            self.read_pool(ptr)
        except Refused:
            shard.fail(n, key)
            raise
        shard.arrive(n, key, digest, 'pool')
        return 'pool'

    def read_pool(self, ptr):
        key, digest = ptr
        data = bytes(self.pool[key[0]:key[0] + key[1]])
        if sha(data) != digest:
            raise Refused(f'digest {sha(data)}')
        self.bytes[digest] = data

    def window(self, data, at, length):
        return data[at:at + length].hex() or '-'

    def line(self, n, word, f):
        """Does a caller's line: what it is answered."""
        t = None if word in ('drop', 'unpin') else int(f[1])
        if word in ('read', 'hold'):
            ptr = self.trace.blocks[int(f[2])]
            if word == 'read' and int(f[3]) + int(f[4]) > ptr[0][1]:
                raise Refused(f'window {int(f[3]) + int(f[4])} {ptr[0][1]}')
            served = yield from self.access(n, ptr, t)
            held = ptr[0] if served != 'past' else None
            if word == 'hold':
                self.kept[n].append((int(f[2]), held))
                return f'held {served}'
            shown = self.window(self.bytes[ptr[1]], int(f[3]), int(f[4]))
            if held:
                yield held, None
                self.shard(held).drop(n, held)
            return f'ok {served} {ptr[1]} {shown}'
        if word == 'drop':
            block = int(f[1])
            found = next((it for it in self.kept[n] if it[0] == block), None)
            if not found:
                raise Refused(f'hold {block}')
            self.kept[n].remove(found)
            if found[1]:
                yield found[1], None
                self.shard(found[1]).drop(n, found[1])
            return 'dropped'
        return (yield from self.on_dbuf(n, word, f, t))

    def on_dbuf(self, n, word, f, t):
        at = (int(f[1]), int(f[2])) if word == 'unpin' else (int(f[2]), int(f[3]))
        cell, number_ = self.cell(at), self.feeder + 1 + self.number_of_cell(at)

        def is_free():
            content = cell.contents.get(at)
            return not cell.taken and not (isinstance(content, dict) and content['kept'] == 'reading')
        yield None, is_free
        first = []
        if word in ('get', 'patch', 'pin'):
            content = cell.contents.get(at)
            if content is None:
                raise Refused(f'block {at[0]} {at[1]}')
            size = content['ptr'][0][1] if isinstance(content, dict) else len(content)
            end = int(f[4]) + (int(f[5]) if word == 'get' else len(f[5]) // 2) if word != 'pin' else 0
            if end > size:
                raise Refused(f'window {end} {size}')
            if isinstance(content, dict) and content['kept'] is None:
                content['kept'] = 'reading'
                try:
                    served = yield from self.access(n, content['ptr'], t)
                except Refused:
                    if not self.key_fault(content['ptr'][0]):
                        yield None, lambda: not cell.taken
                    content['kept'] = None
                    raise
                yield None, lambda: not cell.taken
                content['kept'] = 'loose' if served == 'past' else 'held'
                if served != 'past':
                    first.append(('hand', content['ptr'][0]))
                cell.use(at)
        content = cell.contents.get(at)
        if word == 'unpin' and (at, n) not in cell.pins:
            raise Refused(f'pin {at[0]} {at[1]}')
        reply = 'done'
        if word in ('put', 'patch') and isinstance(content, dict) and content['kept'] == 'held':
            first.append(('release', content['ptr'][0]))
        if word == 'get':
            data = self.bytes[content['ptr'][1]] if isinstance(content, dict) else bytes(content)
            reply = f'got {len(data)} {self.window(data, int(f[4]), int(f[5]))}'
        elif word == 'put':
            cell.contents[at] = bytearray(int(f[4]) * bytes.fromhex(f[5]))
        elif word == 'patch':
            data = bytearray(self.bytes[content['ptr'][1]] if isinstance(content, dict) else content)
            data[int(f[4]):int(f[4]) + len(f[5]) // 2] = bytes.fromhex(f[5])
            cell.contents[at] = data
        elif word == 'pin':
            cell.pins.append((at, n))
        else:
            cell.pins.remove((at, n))
        cell.use(at)
        while due := cell.due():
            content = cell.contents[due]
            if content['kept'] == 'held':
                first.append(('drop', content['ptr'][0]))
            content['kept'] = None
        cell.taken = True
        for what, key in first:
            yield key, None
            shard = self.shard(key)
            if what == 'hand':
                shard.hand(n, key, number_)
            elif what == 'release':
                shard.release(number_, key)
            else:
                shard.drop(number_, key)
        cell.taken = False
        return reply

    def feed(self, n):
        if not self.device:
            return 'feed none'
        picked = bytes_ = written = cleared = 0
        for shard in self.shards:
            yield None, None
            picks = shard.pick(self.feeder, self.may_pass(n))
            if not picks:
                continue
            blocks = [(key, digest, self.bytes[digest]) for key, digest in picks]
            picked, bytes_ = picked + len(picks), bytes_ + sum(key[1] for key, _ in picks)
            for key, place, *_ in self.device.begin([key[1] for key, _ in picks]):
                yield key, None
                cleared += self.shard(key).clear(self.feeder, key, place)
            for i in range(0, len(blocks), LOGGED):
                run = blocks[i:i + LOGGED]
                for (key, digest, _), place in zip(run, self.device.write_run(run)):
                    yield key, None
                    written += shard.settle(self.feeder, key, digest, place)
        return f'feed picked {picked} bytes {bytes_} written {written} cleared {cleared} ok'

    def lines(self, n, ops):
        """A party's lines of a group."""
        for i, (word, f) in ops:
            try:
                if word == 'feed':
                    reply = yield from self.feed(n)
                else:
                    reply = yield from self.line(n, word, f)
            except Refused as why:
                reply = f'refused {why}'
            self.replies[i] = reply

    def at_once(self, parties):
        going, waits = dict(parties), {}
        for n in list(going):
            self.advance(n, going, waits)
        while going:
            ready = [n for n in going if waits[n] is None or waits[n]()]
            n = ready[self.choose(len(ready))] if len(ready) > 1 else ready[0]
            self.advance(n, going, waits)
        self.wants = {}

    def advance(self, n, going, waits):
        try:
            self.wants[n] = None
            self.wants[n], waits[n] = next(going[n])
        except StopIteration:
            del going[n]

    def sync(self, t):
        dirty = sorted((at, i) for i, cell in enumerate(self.cells) for at, content in cell.contents.items() if isinstance(content, bytearray))
        need = sum(len(self.cells[i].contents[at]) for at, i in dirty)
        if need > len(self.pool) - self.next:
            raise Full
        for at, i in dirty:
            data = bytes(self.cells[i].contents[at])
            key, digest = (self.next, len(data), self.group), sha(data)
            self.pool[self.next:self.next + len(data)] = data
            self.bytes[digest] = data
            self.shard(key).insert(self.feeder + 1 + i, key, digest, t)
            self.cells[i].contents[at] = {'ptr': (key, digest), 'kept': 'held'}
            self.next += len(data)
        return f'txg {self.group} blocks {len(dirty)} bytes {need}'

    def run(self):
        group = []
        for i, (word, f) in enumerate(self.trace.ops):
            self.replies.append(None)
            if word not in ('txg', 'cap'):
                group.append((i, (word, f)))
                continue
            self.do_group(group)
            group = []
            if word == 'cap':
                for shard in self.shards:
                    shard.resize(self.feeder, int(f[0]))
                self.replies[i] = f'cap {f[0]}'
            else:
                try:
                    self.replies[i] = self.sync(int(f[0]))
                except Full:
                    self.replies.pop()
                    self.status = 8
                    break
            self.group += 1
        self.do_group(group)
        for n, kept in enumerate(self.kept):
            for _, key in kept:
                if key:
                    self.shard(key).drop(n, key)
        for i, cell in enumerate(self.cells):
            for at in sorted(cell.contents):
                content = cell.contents[at]
                if isinstance(content, dict) and content['kept'] == 'held':
                    self.shard(content['ptr'][0]).drop(self.feeder + 1 + i, content['ptr'][0])
        if self.status is None:
            self.status = int(any(reply.startswith('refused') for reply in self.replies))

    def do_group(self, ops):
        owner = {n: [] for n in range(self.trace.callers + 1)}
        for op in ops:
            word, f = op[1]
            n = int(f[0]) if word in CALLED else self.feeder if self.trace.callers > 1 else 0
            owner[n].append(op)
        self.at_once({n: self.lines(n, own) for n, own in owner.items() if own})

    def report(self, events):
        lines = ['arc 1', *(f'{i} {reply}' for i, reply in enumerate(self.replies))]
        if events:
            lines += [f'e {s} {i} {event}' for s, shard in enumerate(self.shards) for i, event in enumerate(shard.events)]
        for s, shard in enumerate(self.shards):
            lines.append(f'shard {s} c {shard.c} p {shard.p} ' + ' '.join(f'{state} {shard.size(state)}' for state in STATES))
        words = [event.split(' ') for shard in self.shards for event in shard.events]
        count = {word: sum(it[0] == word for it in words) for word in ('hit', 'miss', 'past', 'pass', 'set')}
        pool = sum(it[0] == 'past' or (it[0] in ('arrive', 'fail') and it[-1] == 'pool') for it in words)
        l2 = sum(it[0] == 'arrive' and it[-1] == 'l2' for it in words)
        lines.append(f'count hit {count["hit"]} miss {count["miss"]} past {count["past"]} pool {pool} l2 {l2} pass {count["pass"]} set {count["set"]}')
        if self.rebuilt:
            lines.append(f'rebuilt {self.rebuilt}')
        return '\n'.join([*lines, f'end {self.status}', ''])


def all_runs(text, pool, image):
    """Each run of a trace that there may be, one after another."""
    trace, taken = Trace(text), []
    while True:
        at = 0

        def choose(count):
            nonlocal at
            if at == len(taken):
                taken.append([0, count])
            at += 1
            return taken[at - 1][0]
        run = Run(trace, bytearray(pool), None if image is None else bytearray(image), choose)
        run.run()
        yield run
        while taken and taken[-1][0] + 1 == taken[-1][1]:
            taken.pop()
        if not taken:
            return
        taken[-1][0] += 1


def reports(text, pool, image=None, events=False):
    """The reports that a trace may have, each with how many orders lead to it."""
    told = {}
    for run in all_runs(text, pool, image):
        report = run.report(events)
        told[report] = told.get(report, 0) + 1
    return told


# ---- the checker

ZEROS = {size: sha(bytes(size)) for size in (512, 1024, 2048)}


def drawn(rng, most):
    """A trace with lines of every kind, for one caller or several."""
    callers, shards = rng.choice([1, 2, 2, 2, 3, 4]), rng.choice([1, 1, 2, 3])
    lines = [f'arc {callers} {shards} {rng.choice([1, 2, 16])} {rng.choice([1, 1, 2, 3])} {rng.choice([4096, 4096, 5000, 8192])} {rng.choice([0, 0, 3])} {rng.choice([0, 512, 1024, 4096])}']
    if rng.random() < 0.7:
        lines.append(f'l2 {rng.choice([512, 2048, 8192, 2**32])} {rng.choice([1, 2, 64])}')
    blocks = rng.randrange(1, 8)
    for i in range(blocks):
        size = rng.choice(list(ZEROS))
        offset = 2048 * rng.randrange(10) + (1 if rng.random() < 0.03 else 0)
        lines.append(f'block {offset} {size} {0 if rng.random() < 0.02 else 1} {ZEROS[size] if rng.random() < 0.93 else rng.choice(["f" * 64, ZEROS[512]])}')
    objects = [(rng.randrange(2), i) for i in range(rng.randrange(4))]
    lines += [f'object {j} {i} {rng.randrange(blocks)}' for j, i in objects]
    words = rng.choice([['read', 'hold', 'drop', 'feed', 'txg', 'cap'], ['read', 'hold', 'drop', 'get', 'put', 'patch', 'pin', 'unpin', 'txg'], [*CALLED, 'feed', 'txg', 'cap']])
    weights = [{'read': 9, 'get': 6, 'feed': 3, 'txg': 1, 'cap': 1}.get(word, 2) for word in sorted(words)]
    for t in range(rng.choice([2, 5, 20, most])):
        n, x, at = rng.randrange(callers), rng.randrange(blocks), f'{rng.randrange(2)} {rng.randrange(3)}'
        word = rng.choices(sorted(words), weights)[0]
        t = max(0, t + rng.choice([0, 0, -2, 5]))
        lines.append({
            'read': f'read {n} {t} {x} {rng.choice([0, 510, 2046])} {rng.choice([0, 2])}', 'hold': f'hold {n} {t} {x}', 'drop': f'drop {n} {x}',
            'get': f'get {n} {t} {at} {rng.choice([0, 0, 510, 1022])} 2', 'put': f'put {n} {t} {at} {rng.choice([512, 1024])} {rng.choice(["ab", "cd", "00"])}',
            'patch': f'patch {n} {t} {at} {rng.choice([0, 510])} {rng.choice(["0102", "ff"])}', 'pin': f'pin {n} {t} {at}', 'unpin': f'unpin {n} {at}', 'feed': 'feed',
            'txg': f'txg {t}', 'cap': f'cap {rng.choice([4096, 5000, 8192])}',
        }[word])
    return '\n'.join([*lines, ''])


HEAD2 = f'arc 2 1 16 1 4096 0 512\nblock 0 512 1 {ZEROS[512]}\nblock 512 512 1 {ZEROS[512]}\nobject 7 0 0\nobject 7 1 1\n'

# what a wrong run would report: a trace, whether it has a device, and what stands in its right report in the place of what
WRONG = [
    ('a line behind a sync was done before the lines in front of it', 'read 0 1 0 0 0\ntxg 2\nread 1 3 0 0 0\n', False, [
        ('0 ok pool', '0 ok hit'), ('2 ok hit', '2 ok pool'), ('miss 0 0 512 1 1', 'miss 1 0 512 1 3'), ('arrive 0', 'arrive 1'), ('e 0 2 drop 0', 'e 0 2 drop 1'),
        ('hit 1 0 512 1 3', 'hit 0 0 512 1 1'), ('e 0 4 drop 1', 'e 0 4 drop 0'), ('mru 0 mrug 0 mfu 512', 'mru 512 mrug 0 mfu 0')]),
    ('a capacity was given before the last line of its group', 'read 0 1 0 0 0\ncap 8192\n', False, [
        ('e 0 2 drop 0 0 512 1\ne 0 3 resize 2 8192', 'e 0 2 resize 2 8192\ne 0 3 drop 0 0 512 1')]),
    ('a sync writes where the first one did', 'put 0 1 9 0 512 ab\ntxg 2\nput 0 3 9 1 512 cd\ntxg 4\n', False, [(' 1536 512 2', ' 1024 512 2')]),
    ('a sync has the birth of an earlier group', 'cap 8192\nput 0 1 9 0 512 ab\ntxg 2\n', False, [(' 1024 512 2', ' 1024 512 1')]),
    ('a sync leaves out what was put', 'put 0 1 9 0 512 ab\ntxg 2\n', False, [
        ('txg 1 blocks 1 bytes 512', 'txg 1 blocks 0 bytes 0'), ('mru 512', 'mru 0'), (f'e 0 0 insert 3 1024 512 1 {sha(bytes([0xab]) * 512)} 2\ne 0 1 drop 3 1024 512 1\n', '')]),
    ('a kept read is given back as its group ends', 'hold 0 1 0\ncap 8192\ndrop 0 0\n', False, [
        ('e 0 2 resize 2 8192\ne 0 3 drop 0 0 512 1', 'e 0 2 drop 0 0 512 1\ne 0 3 resize 2 8192')]),
    ('no device is said to stand', 'feed\n', True, [('0 feed picked 0 bytes 0 written 0 cleared 0 ok', '0 feed none'), ('e 0 0 feedend 2\n', '')]),
    ('another caller ends a pin', 'pin 0 1 7 0\nunpin 1 7 0\n', False, [('1 refused pin 7 0', '1 done'), ('end 1', 'end 0')]),
    ('a dbuf that is due stays', 'get 0 1 7 0 0 0\nget 0 2 7 1 0 0\n', False, [
        ('e 0 6 drop 3 0 512 1\ne 0 7 drop 3 512 512 1', 'e 0 6 drop 3 512 512 1\ne 0 7 drop 3 0 512 1')]),
    ('the block of a caller before is not found', 'put 0 1 9 0 512 ab\ncap 8192\nget 1 2 9 0 0 1\n', False, [('2 got 512 ab', '2 refused block 9 0'), ('end 0', 'end 1')]),
    ('bytes that were written over are shown', 'patch 0 1 7 0 0 ff\nget 0 2 7 0 0 1\n', False, [('1 got 512 ff', '1 got 512 00')]),
]


def changed(rng, report):
    """The report with one number or word of a line changed, or a line taken out or moved."""
    lines = report.split('\n')[:-1]
    i = rng.randrange(1, len(lines) - 1)
    kind = rng.randrange(4)
    if kind == 0 and lines[i].startswith('e '):
        j = i + rng.choice([-1, 1])
        if not lines[j].startswith('e ') or lines[j].split(' ')[1] != lines[i].split(' ')[1]:
            return None
        lines[i], lines[j] = lines[j], lines[i]
        lines[i], lines[j] = [' '.join([*a.split(' ')[:2], b.split(' ')[2], *a.split(' ')[3:]]) for a, b in ((lines[i], lines[j]), (lines[j], lines[i]))]
        return '\n'.join([*lines, ''])
    fields = lines[i].split(' ')
    j = rng.randrange(1, len(fields))
    if fields[j].isdigit():
        fields[j] = str(max(0, int(fields[j]) + rng.choice([-512, -1, 1, 512])))
    else:
        others = {'hit': 'pool', 'pool': 'hit', 'l2': 'pool', 'past': 'hit', 'sole': 'shared', 'shared': 'sole', 'set': 'leave', 'done': 'dropped', 'dropped': 'done'}
        fields[j] = others.get(fields[j], fields[j][::-1])
    lines[i] = ' '.join(fields)
    told = '\n'.join([*lines, ''])
    return told if told != report else None


def check(seconds, seed):
    rng = random.Random(seed)
    work = tempfile.mkdtemp(prefix='arc_several.')
    def built(name):
        there = os.environ.get(name.upper(), f'{work}/{name}')
        if not os.path.exists(there):
            subprocess.run(['rustc', '--edition', '2024', '-O', '-o', there, f'{HERE}/{name}.rs'], check=True)
        return there
    replay, sim = built('arc_replay'), built('arc_sim')

    def simulated():
        names = [f'{work}/pool.sim', f'{work}/device.sim' if image is not None else '-']
        shutil.copy(f'{work}/pool', names[0])
        shutil.copy(f'{work}/device', f'{work}/device.sim')
        ended = subprocess.run([sim, *names, 'run', '--events'], input=text.encode(), capture_output=True)
        return [ended.returncode, ended.stdout.decode(), *(open(f'{work}/{name}.sim', 'rb').read() for name in ('pool', 'device'))]

    def judged(report):
        shutil.copy(f'{work}/device', f'{work}/device.own')
        words = [replay, f'{work}/pool', f'{work}/device.own' if image is not None else '-', f'{work}/trace', f'{work}/pool.after', f'{work}/device.after' if image is not None else '-']
        return subprocess.run(words, input=report.encode(), capture_output=True)
    def put(text, pool, run, image):
        after = bytes(run.device.image) if run.device else image
        for name, data in ('trace', text.encode()), ('pool', pool), ('pool.after', run.pool), ('device', image or b''), ('device.after', after or b''):
            with open(f'{work}/{name}', 'wb') as out:
                out.write(data)
        return after

    done, bad, kinds, missed, tried = 0, 0, {}, 0, 0
    for what, lines, has_device, edits in WRONG:
        image = bytes(266_240) if has_device else None
        run = Run(Trace(HEAD2 + lines), bytearray(4096), image and bytearray(image), lambda count: 0)
        run.run()
        put(HEAD2 + lines, bytes(4096), run, image)
        right = other = run.report(True)
        for old, new in edits:
            if old not in other:
                raise SystemExit(f'{what}: {old!r} does not stand in the report\n{other}')
            other = other.replace(old, new, 1)
        if judged(right).returncode or not judged(other).returncode:
            bad += 1
            print(f'the checker is wrong of this: {what}')
    until, image = time.time() + seconds, None
    while time.time() < until and bad < 5:
        text = drawn(rng, 40)
        pool = bytes(rng.choice([20480, 24576, 30000]))
        # now and then the device of the run before is found again
        image = rng.choice([None, bytes(512), bytes(266_240), bytes(400_000), *([bytes(image)] * 4 if image and len(image) > 512 else [])])
        run = Run(Trace(text), bytearray(pool), None if image is None else bytearray(image), rng.randrange)
        run.run()
        report = run.report(True)
        after = put(text, pool, run, image)
        ended = judged(report)
        if run.trace.callers == 1 and simulated() != [run.status, report, bytes(run.pool), after or b'']:
            bad += 1
            print(f'{work}: the simulation answers {text!r} otherwise')
            break
        kinds[run.status] = kinds.get(run.status, 0) + 1
        done += 1
        if ended.returncode:
            bad += 1
            kept = f'{work}/bad{bad}'
            os.mkdir(kept)
            for name in 'trace', 'pool', 'device', 'pool.after', 'device.after':
                shutil.copy(f'{work}/{name}', kept)
            with open(f'{kept}/report', 'w') as out:
                out.write(report)
            print(f'{kept}: {ended.stderr.decode().strip()}')
        other = changed(rng, report)
        if other:
            tried += 1
            missed += judged(other).returncode == 0
        image = after
    told = ', '.join(f'{count} with status {status}' for status, count in sorted(kinds.items()))
    print(f'seed {seed}: {done} runs: {told}; {bad} found wrong; of {tried} with a line changed {missed} found right')
    return bad > 0


def main():
    if sys.argv[1] == '--check':
        sys.exit(check(float(sys.argv[2]), int(sys.argv[3]) if len(sys.argv) > 3 else int(time.time())))
    pool, device = sys.argv[1:3]
    image = None if device == '-' else open(device, 'rb').read()
    told = reports(sys.stdin.read(), b'' if pool == '-' else open(pool, 'rb').read(), image)
    for report, count in sorted(told.items()):
        print(f'# {count} orders')
        print(report, end='')


if __name__ == '__main__':
    main()
