"""The two policies that a curve is compared with. A cache of a capacity in bytes takes in each block that is read, unless the block alone is too
large, and drops others until it has room."""
import heapq
from collections import OrderedDict

NEVER = (1 << 62)


def lru(reads, sizes, capacity):
    """Drops what was not read for the longest time. The hits, and their bytes."""
    kept, used, hits, bytes_hit = OrderedDict(), 0, 0, 0
    for block in reads:
        size = sizes[block]
        if block in kept:
            kept.move_to_end(block)
            hits += 1
            bytes_hit += size
        elif size <= capacity:
            used += size
            while used > capacity:
                used -= sizes[kept.popitem(last=False)[0]]
            kept[block] = None
    return hits, bytes_hit


def next_reads(reads):
    """At each read, when its block is read next."""
    following, seen = [NEVER] * len(reads), {}
    for at in range(len(reads) - 1, -1, -1):
        following[at] = seen.get(reads[at], NEVER)
        seen[reads[at]] = at
    return following


def belady(reads, sizes, capacity):
    """Drops what is read again the latest, which no policy can know beforehand. Where all blocks have one size, no cache that takes each block in
    has more hits. The hits, and their bytes."""
    due, heap, used, hits, bytes_hit = {}, [], 0, 0, 0
    for block, again in zip(reads, next_reads(reads)):
        size = sizes[block]
        if block in due:
            hits += 1
            bytes_hit += size
        elif size <= capacity:
            used += size
            while used > capacity:
                latest, dropped = heapq.heappop(heap)
                if due.get(dropped) == -latest:
                    del due[dropped]
                    used -= sizes[dropped]
        else:
            continue
        due[block] = again
        heapq.heappush(heap, (-again, block))
    return hits, bytes_hit
