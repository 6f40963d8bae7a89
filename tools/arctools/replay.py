"""A run over time: the report's events made again, one after another, and what stands after each read."""
import heapq
from array import array

from . import report
from .command import Fault, Progress
from .report import ACCESSES, HIT, KINDS, MISS, PAST, RESIZE, STATES
from .shard import ANON, L2, MFU, MFUG, MRU, MRUG, Shard

# what a read found: its block in one of the cached lists, nothing, one of the ghosts, only a place on the cache device, or bytes of another digest
HIT_MRU, HIT_MFU, NEW, GHOST_MRU, GHOST_MFU, FROM_L2, PASSED = range(7)
FOUND = ['hit, recently used', 'hit, frequently used', 'miss', 'miss, a recently used ghost', 'miss, a frequently used ghost', 'miss, known to the cache device',
         'past the cache']
OF_STATE = {MRU: HIT_MRU, MFU: HIT_MFU, MRUG: GHOST_MRU, MFUG: GHOST_MFU, L2: FROM_L2}
LISTS = {'anon': ANON, 'mru': MRU, 'mrug': MRUG, 'mfu': MFU, 'mfug': MFUG, 'l2': L2}


class Timeline:
    """What stood after each read: the sizes of the lists, target and capacity, and how many hits, evictions and feeds there were so far."""

    def __init__(self, name):
        self.name = name
        self.columns = [array('Q') for _ in STATES]
        self.sizes = {word: self.columns[state] for word, state in LISTS.items()}
        self.p, self.c, self.hits, self.evictions, self.feeds = (array('Q') for _ in range(5))
        self.found = array('B')
        self.fed = self.hit = 0

    def __len__(self):
        return len(self.found)

    def begin(self, found):
        self.found.append(found)
        self.hit += found in (HIT_MRU, HIT_MFU)

    def close(self, shards):
        """The read that was begun last is over: what follows belongs to the next one."""
        if len(self.p) == len(self.found):
            return
        if len(shards) == 1:
            shard, = shards
            self.note(shard.sizes, shard.p, shard.c, shard.evictions)
        else:
            self.note([sum(sizes) for sizes in zip(*(shard.sizes for shard in shards))], sum(shard.p for shard in shards), sum(shard.c for shard in shards),
                      sum(shard.evictions for shard in shards))

    def note(self, sizes, p, c, evictions):
        for column, size in zip(self.columns, sizes):
            column.append(size)
        self.p.append(p)
        self.c.append(c)
        self.evictions.append(evictions)
        self.hits.append(self.hit)
        self.feeds.append(self.fed)


class Moves:
    """Which key came to stand where, by the read at which it did: enough to say what stands after any of them."""

    def __init__(self):
        self.at, self.keys, self.states = array('L'), array('L'), array('B')

    def add(self, at, touched, entries):
        for key in touched:
            entry = entries(key)
            self.at.append(at)
            self.keys.append(key)
            self.states.append(entry.state + 8 * bool(entry.holds) if entry else 0)
        touched.clear()


def merged(shards):
    """The events of all shards, each shard's in its order, by the ticks of the reads. With one caller and rising ticks that is the trace's order. A new
    capacity is given to all shards at one time, so each waits for the others there."""
    heap, waiting = [], []

    def go_on(tick, shard, at):
        events = shards[shard]
        if at < len(events):
            heapq.heappush(heap, (max(tick, events.numbers[at]) if events.kinds[at] in (HIT, MISS) else tick, shard, at))

    for shard in range(len(shards)):
        go_on(0, shard, 0)
    while heap or waiting:
        if not heap:
            for tick, shard, at in waiting:
                yield shard, at
                go_on(tick, shard, at + 1)
            waiting.clear()
            continue
        tick, shard, at = heapq.heappop(heap)
        if shards[shard].kinds[at] == RESIZE:
            waiting.append((tick, shard, at))
            continue
        yield shard, at
        go_on(tick, shard, at + 1)


class Replay:
    """A report's events, made again with the sizes that the trace's arc line gives the cache."""

    def __init__(self, arc, told, with_moves=False):
        self.report, self.with_moves = told, with_moves
        if told.shards == [] and told.operations and told.status in (0, 1):
            raise Fault('the report has no events: `run --events` writes them', told.name)
        count, capacity, min_time = arc[1], arc[4], arc[5]
        if len(told.ends) != count or len(told.shards) > count:
            raise Fault(f'the report has {len(told.ends)} shards and the trace {count}: it is the report of another trace', told.name)
        self.touched = {}
        key_sizes = [size for _, size, _ in told.keys]
        self.shards = [Shard(capacity, min_time, key_sizes, self.touched) for _ in range(count)]
        self.all = Timeline('all shards' if count > 1 else 'the shard')
        self.each = [Timeline(f'shard {number}') for number in range(count)] if count > 1 else []
        self.moves = Moves()
        self.owners = {}  # key -> its shard
        self.accesses = {'key': array('L'), 'who': array('B'), 'tick': array('Q'), 'event': array('L')}
        self.run()
        self.compare()

    def run(self):
        events = [*self.report.shards, *[report.Events()] * (len(self.shards) - len(self.report.shards))]
        progress = Progress('making the events again', sum(map(len, events)))
        for done, (number, at) in enumerate(merged(events)):
            if done % 4096 == 0:
                progress.at(done)
            of_shard = events[number]
            kind, who, key, value = of_shard.kinds[at], of_shard.who[at], of_shard.keys[at], of_shard.numbers[at]
            shard = self.shards[number]
            if kind in ACCESSES:
                self.close(number)
                self.begin(number, kind, who, key, value, at)
            elif kind == report.FEEDEND:
                for timeline in self.timelines(number):
                    timeline.fed += 1
            self.owners[key] = number
            try:
                shard.step(kind, who, key, value)
            except (KeyError, ValueError):
                raise Fault(f"event {at} of shard {number}, '{KINDS[kind]}', can't come where it stands", self.report.name) from None
        progress.end()
        self.close(None)

    def timelines(self, number):
        return [self.all, self.each[number]] if self.each else [self.all]

    def begin(self, number, kind, who, key, tick, at):
        entry = self.shards[number].entries.get(key)
        found = PASSED if kind == PAST else OF_STATE.get(entry.state, NEW) if entry else NEW
        for timeline in self.timelines(number):
            timeline.begin(found)
        for name, value in (('key', key), ('who', who), ('tick', tick if kind != PAST else 0), ('event', at)):
            self.accesses[name].append(value)

    def close(self, number):
        """Notes what stands before the next read: of all shards, and of the shard whose read it is, or of each at the end."""
        self.all.close(self.shards)
        for timeline, shard in zip(self.each, self.shards):
            if number is None or timeline is self.each[number]:
                timeline.close([shard])
        if self.with_moves:
            self.moves.add(max(len(self.all) - 1, 0), self.touched, self.entry)

    def entry(self, key):
        return self.shards[self.owners[key]].entries.get(key)

    def compare(self):
        """What the events lead to is what the report's shard lines tell."""
        for number, (shard, end) in enumerate(zip(self.shards, self.report.ends)):
            found = {'c': shard.c, 'p': shard.p, **{word: shard.sizes[state] for word, state in LISTS.items()}}
            wrong = [f'{word} {found[word]}, told {end[word]}' for word in found if end.get(word) != found[word]]
            if wrong:
                raise Fault(f'the events of shard {number} lead to {"; ".join(wrong)}: is this the report of this trace?', self.report.name)
