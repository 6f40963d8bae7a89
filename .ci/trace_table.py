#!/usr/bin/env python3
"""Runs traces, lists of pages and logs of events over the built program, each with all the reports that it may have: .ci/trace_table.py PROGRAM.

A row (row.py) has what it shows, the words, the pool, the standard input, the exit status and the reports, and what may become of the pool and of the cache device; there are
several reports where callers may come in several orders, and a row of several callers is run four times. The source comes through a
pipe, a few bytes at a time. Behind the rows: a larger load of four callers, a caller that keeps many reads, a pool that may not be written, and each short list of up to three
pages beside a plain form of the policy; and the events of each trace that has a report are judged by `check`. It prints each row that is wrong, and how many were right. A row with a
line that compare/undone.py names has to be refused, and is told as not done yet.
"""
import hashlib
import itertools
import os
import shutil
import subprocess
import sys
import tempfile

sys.dont_write_bytecode = True
sys.path.append(os.path.join(os.path.dirname(os.path.abspath(__file__)), '..', 'compare'))
from devices import RING_END, changed, fed, ring_of, sealed
from line_rows import ONE_CALLER, SEVERAL
from row import COUNTING, DIGESTS, Row, may_leave, pool_of, spelled
import undone

TRACES = [
    Row('one block is read', ['run', '--events'], 512, '''\
arc 1 1 16 1 4096 0 4096
block 0 512 1 Z
read 0 1 0 0 4
''', 0, ['''\
arc 1
0 ok pool Z 00000000
e 0 0 miss 0 0 512 1 1
e 0 1 arrive 0 0 512 1 Z pool
e 0 2 drop 0 0 512 1
shard 0 c 4096 p 2048 anon 0 mru 512 mrug 0 mfu 0 mfug 0 l2 0
count hit 0 miss 1 past 0 pool 1 l2 0 pass 0 set 0
end 0
''']),
    Row('no operation', ['run', '--events'], 0, '''\
arc 1 1 16 1 4096 0 4096
''', 0, ['''\
arc 1
shard 0 c 4096 p 2048 anon 0 mru 0 mrug 0 mfu 0 mfug 0 l2 0
count hit 0 miss 0 past 0 pool 0 l2 0 pass 0 set 0
end 0
''']),
    Row('a second read is a hit', ['run'], 512, '''\
arc 1 1 16 1 4096 0 4096
block 0 512 1 Z
read 0 1 0 0 4
read 0 2 0 0 0
''', 0, ['''\
arc 1
0 ok pool Z 00000000
1 ok hit Z -
shard 0 c 4096 p 2048 anon 0 mru 0 mrug 0 mfu 512 mfug 0 l2 0
count hit 1 miss 1 past 0 pool 1 l2 0 pass 0 set 0
end 0
''']),
    Row('a ghost of a block read once raises the target', ['run'], 5120, '''\
arc 1 1 16 1 4096 0 4096
block 0 1024 1 Y
block 1024 1024 1 Y
block 2048 1024 1 Y
block 3072 1024 1 Y
block 4096 1024 1 Y
read 0 1 0 0 0
read 0 2 1 0 0
read 0 3 2 0 0
read 0 4 3 0 0
read 0 5 4 0 0
read 0 6 0 0 0
''', 0, ['''\
arc 1
0 ok pool Y -
1 ok pool Y -
2 ok pool Y -
3 ok pool Y -
4 ok pool Y -
5 ok pool Y -
shard 0 c 4096 p 3072 anon 0 mru 3072 mrug 1024 mfu 1024 mfug 0 l2 0
count hit 0 miss 6 past 0 pool 6 l2 0 pass 0 set 0
end 0
''']),
    Row('a ghost of a block read twice lowers the target', ['run'], 6144, '''\
arc 1 1 16 1 4096 0 4096
block 0 2048 1 X
block 2048 2048 1 X
block 4096 2048 1 X
read 0 1 0 0 0
read 0 2 0 0 0
read 0 3 1 0 0
read 0 4 2 0 0
read 0 5 0 0 0
''', 0, ['''\
arc 1
0 ok pool X -
1 ok hit X -
2 ok pool X -
3 ok pool X -
4 ok pool X -
shard 0 c 4096 p 256 anon 0 mru 2048 mrug 2048 mfu 2048 mfug 0 l2 0
count hit 1 miss 4 past 0 pool 4 l2 0 pass 0 set 0
end 0
''']),
    Row('what is held is not evicted, and is dropped at the end, the oldest first', ['run', '--events'], 6144, '''\
arc 1 1 16 1 4096 0 4096
block 0 2048 1 X
block 2048 2048 1 X
block 4096 2048 1 X
hold 0 1 0
hold 0 2 1
read 0 3 2 0 0
''', 0, ['''\
arc 1
0 held pool
1 held pool
2 ok pool X -
e 0 0 miss 0 0 2048 1 1
e 0 1 arrive 0 0 2048 1 X pool
e 0 2 miss 0 2048 2048 1 2
e 0 3 arrive 0 2048 2048 1 X pool
e 0 4 miss 0 4096 2048 1 3
e 0 5 arrive 0 4096 2048 1 X pool
e 0 6 drop 0 4096 2048 1
e 0 7 drop 0 0 2048 1
e 0 8 drop 0 2048 2048 1
shard 0 c 4096 p 2048 anon 0 mru 6144 mrug 0 mfu 0 mfug 0 l2 0
count hit 0 miss 3 past 0 pool 3 l2 0 pass 0 set 0
end 0
''']),
    Row('a hit within the least time leaves the last access as it was', ['run'], 512, '''\
arc 1 1 16 1 4096 10 4096
block 0 512 1 Z
read 0 5 0 0 0
read 0 15 0 0 0
read 0 16 0 0 0
''', 0, ['''\
arc 1
0 ok pool Z -
1 ok hit Z -
2 ok hit Z -
shard 0 c 4096 p 2048 anon 0 mru 0 mrug 0 mfu 512 mfug 0 l2 0
count hit 2 miss 1 past 0 pool 1 l2 0 pass 0 set 0
end 0
''']),
    Row('a hit within the least time stays recently used', ['run'], 512, '''\
arc 1 1 16 1 4096 10 4096
block 0 512 1 Z
read 0 5 0 0 0
read 0 15 0 0 0
''', 0, ['''\
arc 1
0 ok pool Z -
1 ok hit Z -
shard 0 c 4096 p 2048 anon 0 mru 512 mrug 0 mfu 0 mfug 0 l2 0
count hit 1 miss 1 past 0 pool 1 l2 0 pass 0 set 0
end 0
''']),
    Row('another digest is found', ['run', '--events'], 512, '''\
arc 1 1 16 1 4096 0 4096
block 0 512 1 F
read 0 1 0 0 4
''', 1, ['''\
arc 1
0 refused digest Z
e 0 0 miss 0 0 512 1 1
e 0 1 fail 0 0 512 1 pool
shard 0 c 4096 p 2048 anon 0 mru 0 mrug 0 mfu 0 mfug 0 l2 0
count hit 0 miss 1 past 0 pool 1 l2 0 pass 0 set 0
end 1
''']),
    Row('blocks of objects that no operation asks for', ['run', '--events'], 512, '''\
arc 1 1 16 3 4096 0 4096
block 0 512 1 Z
object 7 0 0
object 7 1 0
object 8 0 0
read 0 1 0 0 4
''', 0, ['''\
arc 1
0 ok pool Z 00000000
e 0 0 miss 0 0 512 1 1
e 0 1 arrive 0 0 512 1 Z pool
e 0 2 drop 0 0 512 1
shard 0 c 4096 p 2048 anon 0 mru 512 mrug 0 mfu 0 mfug 0 l2 0
count hit 0 miss 1 past 0 pool 1 l2 0 pass 0 set 0
end 0
''']),
    Row('two digests for one key', ['run', '--events'], 512, '''\
arc 1 1 16 1 4096 0 4096
block 0 512 1 Z
block 0 512 1 F
read 0 1 0 0 0
read 0 2 1 0 0
read 0 3 0 0 0
''', 1, ['''\
arc 1
0 ok pool Z -
1 refused digest Z
2 ok hit Z -
e 0 0 miss 0 0 512 1 1
e 0 1 arrive 0 0 512 1 Z pool
e 0 2 drop 0 0 512 1
e 0 3 past 0 0 512 1 Z
e 0 4 hit 0 0 512 1 3
e 0 5 drop 0 0 512 1
shard 0 c 4096 p 2048 anon 0 mru 0 mrug 0 mfu 512 mfug 0 l2 0
count hit 1 miss 1 past 1 pool 2 l2 0 pass 0 set 0
end 1
''']),
    Row('a block past the end of the pool', ['run', '--events'], 512, '''\
arc 1 1 16 1 4096 0 4096
block 512 512 1 Z
read 0 1 0 0 0
''', 1, ['''\
arc 1
0 refused key range 1024 512
shard 0 c 4096 p 2048 anon 0 mru 0 mrug 0 mfu 0 mfug 0 l2 0
count hit 0 miss 0 past 0 pool 0 l2 0 pass 0 set 0
end 1
''']),
    Row('the other faults of a key', ['run', '--events'], 512, '''\
arc 1 1 16 1 4096 0 4096
block 1 512 1 Z
block 0 513 1 Z
block 0 512 0 Z
read 0 1 0 0 0
hold 0 2 1
read 0 3 2 0 0
''', 1, ['''\
arc 1
0 refused key unaligned
1 refused key size
2 refused key birth
shard 0 c 4096 p 2048 anon 0 mru 0 mrug 0 mfu 0 mfug 0 l2 0
count hit 0 miss 0 past 0 pool 0 l2 0 pass 0 set 0
end 1
''']),
    Row('a window past the block, before its key', ['run', '--events'], 512, '''\
arc 1 1 16 1 4096 0 4096
block 1 512 1 Z
read 0 1 0 500 13
''', 1, ['''\
arc 1
0 refused window 513 512
shard 0 c 4096 p 2048 anon 0 mru 0 mrug 0 mfu 0 mfug 0 l2 0
count hit 0 miss 0 past 0 pool 0 l2 0 pass 0 set 0
end 1
''']),
    Row('nothing is kept', ['run', '--events'], 512, '''\
arc 1 1 16 1 4096 0 4096
block 0 512 1 Z
drop 0 0
''', 1, ['''\
arc 1
0 refused hold 0
shard 0 c 4096 p 2048 anon 0 mru 0 mrug 0 mfu 0 mfug 0 l2 0
count hit 0 miss 0 past 0 pool 0 l2 0 pass 0 set 0
end 1
''']),
    Row('each kept read is dropped once', ['run', '--events'], 512, '''\
arc 1 1 16 1 4096 0 4096
block 0 512 1 Z
hold 0 1 0
hold 0 2 0
drop 0 0
drop 0 0
drop 0 0
''', 1, ['''\
arc 1
0 held pool
1 held hit
2 dropped
3 dropped
4 refused hold 0
e 0 0 miss 0 0 512 1 1
e 0 1 arrive 0 0 512 1 Z pool
e 0 2 hit 0 0 512 1 2
e 0 3 drop 0 0 512 1
e 0 4 drop 0 0 512 1
shard 0 c 4096 p 2048 anon 0 mru 0 mrug 0 mfu 512 mfug 0 l2 0
count hit 1 miss 1 past 0 pool 1 l2 0 pass 0 set 0
end 1
''']),
    Row('a kept read of another digest than the one that is cached', ['run', '--events'], 512, '''\
arc 1 1 16 1 4096 0 4096
block 0 512 1 Z
block 0 512 1 F
read 0 1 0 0 0
hold 0 2 1
drop 0 1
''', 1, ['''\
arc 1
0 ok pool Z -
1 refused digest Z
2 refused hold 1
e 0 0 miss 0 0 512 1 1
e 0 1 arrive 0 0 512 1 Z pool
e 0 2 drop 0 0 512 1
e 0 3 past 0 0 512 1 Z
shard 0 c 4096 p 2048 anon 0 mru 512 mrug 0 mfu 0 mfug 0 l2 0
count hit 0 miss 1 past 1 pool 2 l2 0 pass 0 set 0
end 1
''']),
    Row('the largest block, which is more than the cache may have, and one that is larger', ['run'], 16_777_216, '''\
arc 1 1 16 1 4096 0 4096
block 0 16777216 1 M
block 0 16777728 1 M
read 0 1 0 16777200 16
read 0 2 1 0 0
''', 1, ['''\
arc 1
0 ok pool M 00000000000000000000000000000000
1 refused key size
shard 0 c 4096 p 2048 anon 0 mru 16777216 mrug 0 mfu 0 mfug 0 l2 0
count hit 0 miss 1 past 0 pool 1 l2 0 pass 0 set 0
end 1
''']),
    Row('two callers read one block, and one of them reads the pool', ['run'], 8192, '''\
arc 2 1 16 1 4096 0 0
block 0 512 1 Z
read 0 1 0 0 4
read 1 1 0 0 4
''', 0, ['''\
arc 1
0 ok pool Z 00000000
1 ok hit Z 00000000
shard 0 c 4096 p 2048 anon 0 mru 512 mrug 0 mfu 0 mfug 0 l2 0
count hit 1 miss 1 past 0 pool 1 l2 0 pass 0 set 0
end 0
''', '''\
arc 1
0 ok hit Z 00000000
1 ok pool Z 00000000
shard 0 c 4096 p 2048 anon 0 mru 512 mrug 0 mfu 0 mfug 0 l2 0
count hit 1 miss 1 past 0 pool 1 l2 0 pass 0 set 0
end 0
''']),
    Row('three callers do', ['run'], 8192, '''\
arc 3 1 16 1 4096 0 0
block 0 512 1 Z
read 0 1 0 0 0
read 1 1 0 0 0
read 2 1 0 0 0
''', 0, ['''\
arc 1
0 ok pool Z -
1 ok hit Z -
2 ok hit Z -
shard 0 c 4096 p 2048 anon 0 mru 512 mrug 0 mfu 0 mfug 0 l2 0
count hit 2 miss 1 past 0 pool 1 l2 0 pass 0 set 0
end 0
''', '''\
arc 1
0 ok hit Z -
1 ok pool Z -
2 ok hit Z -
shard 0 c 4096 p 2048 anon 0 mru 512 mrug 0 mfu 0 mfug 0 l2 0
count hit 2 miss 1 past 0 pool 1 l2 0 pass 0 set 0
end 0
''', '''\
arc 1
0 ok hit Z -
1 ok hit Z -
2 ok pool Z -
shard 0 c 4096 p 2048 anon 0 mru 512 mrug 0 mfu 0 mfug 0 l2 0
count hit 2 miss 1 past 0 pool 1 l2 0 pass 0 set 0
end 0
''']),
    Row('a read of another digest goes past the block that a caller keeps, or comes before it', ['run'], 8192, '''\
arc 2 1 16 1 4096 0 0
block 0 512 1 Z
block 0 512 1 F
hold 0 1 0
read 1 1 1 0 0
''', 1, ['''\
arc 1
0 held pool
1 refused digest Z
shard 0 c 4096 p 2048 anon 0 mru 512 mrug 0 mfu 0 mfug 0 l2 0
count hit 0 miss 1 past 1 pool 2 l2 0 pass 0 set 0
end 1
''', '''\
arc 1
0 held pool
1 refused digest Z
shard 0 c 4096 p 2048 anon 0 mru 512 mrug 0 mfu 0 mfug 0 l2 0
count hit 0 miss 2 past 0 pool 2 l2 0 pass 0 set 0
end 1
''']),
    Row('no caller drops what another keeps', ['run'], 8192, '''\
arc 2 1 16 1 4096 0 0
block 0 512 1 Z
hold 0 1 0
drop 1 0
''', 1, ['''\
arc 1
0 held pool
1 refused hold 0
shard 0 c 4096 p 2048 anon 0 mru 512 mrug 0 mfu 0 mfug 0 l2 0
count hit 0 miss 1 past 0 pool 1 l2 0 pass 0 set 0
end 1
''']),
    Row('each caller drops its own, in the order of its lines', ['run'], 8192, '''\
arc 2 1 16 1 4096 0 0
block 0 512 1 Z
hold 0 1 0
hold 1 1 0
drop 1 0
drop 0 0
drop 1 0
''', 1, ['''\
arc 1
0 held pool
1 held hit
2 dropped
3 dropped
4 refused hold 0
shard 0 c 4096 p 2048 anon 0 mru 512 mrug 0 mfu 0 mfug 0 l2 0
count hit 1 miss 1 past 0 pool 1 l2 0 pass 0 set 0
end 1
''', '''\
arc 1
0 held hit
1 held pool
2 dropped
3 dropped
4 refused hold 0
shard 0 c 4096 p 2048 anon 0 mru 512 mrug 0 mfu 0 mfug 0 l2 0
count hit 1 miss 1 past 0 pool 1 l2 0 pass 0 set 0
end 1
''']),
    Row('the later access counts by its tick, and not by its turn', ['run'], 8192, '''\
arc 2 1 16 1 4096 0 0
block 0 512 1 Z
hold 0 1 0
read 1 5 0 0 0
''', 0, ['''\
arc 1
0 held pool
1 ok hit Z -
shard 0 c 4096 p 2048 anon 0 mru 0 mrug 0 mfu 512 mfug 0 l2 0
count hit 1 miss 1 past 0 pool 1 l2 0 pass 0 set 0
end 0
''', '''\
arc 1
0 held hit
1 ok pool Z -
shard 0 c 4096 p 2048 anon 0 mru 512 mrug 0 mfu 0 mfug 0 l2 0
count hit 1 miss 1 past 0 pool 1 l2 0 pass 0 set 0
end 0
''']),
    Row('what a caller keeps is not evicted for another', ['run'], 8192, '''\
arc 2 1 16 1 4096 0 0
block 0 2048 1 X
block 2048 2048 1 X
block 4096 2048 1 X
hold 0 1 0
read 1 1 1 0 0
read 1 2 2 0 0
''', 0, ['''\
arc 1
0 held pool
1 ok pool X -
2 ok pool X -
shard 0 c 4096 p 2048 anon 0 mru 4096 mrug 2048 mfu 0 mfug 0 l2 0
count hit 0 miss 3 past 0 pool 3 l2 0 pass 0 set 0
end 0
''']),
    Row('two callers read blocks of two shards in opposite orders', ['run'], 8192, '''\
arc 2 2 16 1 4096 0 0
block 0 512 1 Z
block 1536 512 1 Z
read 0 1 0 0 0
read 0 1 1 0 0
read 1 1 1 0 0
read 1 1 0 0 0
''', 0, ['''\
arc 1
0 ok pool Z -
1 ok hit Z -
2 ok pool Z -
3 ok hit Z -
shard 0 c 4096 p 2048 anon 0 mru 512 mrug 0 mfu 0 mfug 0 l2 0
shard 1 c 4096 p 2048 anon 0 mru 512 mrug 0 mfu 0 mfug 0 l2 0
count hit 2 miss 2 past 0 pool 2 l2 0 pass 0 set 0
end 0
''', '''\
arc 1
0 ok pool Z -
1 ok pool Z -
2 ok hit Z -
3 ok hit Z -
shard 0 c 4096 p 2048 anon 0 mru 512 mrug 0 mfu 0 mfug 0 l2 0
shard 1 c 4096 p 2048 anon 0 mru 512 mrug 0 mfu 0 mfug 0 l2 0
count hit 2 miss 2 past 0 pool 2 l2 0 pass 0 set 0
end 0
''', '''\
arc 1
0 ok hit Z -
1 ok hit Z -
2 ok pool Z -
3 ok pool Z -
shard 0 c 4096 p 2048 anon 0 mru 512 mrug 0 mfu 0 mfug 0 l2 0
shard 1 c 4096 p 2048 anon 0 mru 512 mrug 0 mfu 0 mfug 0 l2 0
count hit 2 miss 2 past 0 pool 2 l2 0 pass 0 set 0
end 0
''']),
    Row('a smaller capacity evicts, and what is read again is a ghost by then', ['run'], 5120, '''\
arc 1 1 16 1 8192 0 0
block 0 1024 1 Y
block 1024 1024 1 Y
block 2048 1024 1 Y
block 3072 1024 1 Y
block 4096 1024 1 Y
read 0 1 0 0 0
read 0 2 1 0 0
read 0 3 2 0 0
read 0 4 3 0 0
read 0 5 4 0 0
read 0 6 0 0 0
cap 4096
read 0 7 1 0 0
''', 0, ['''\
arc 1
0 ok pool Y -
1 ok pool Y -
2 ok pool Y -
3 ok pool Y -
4 ok pool Y -
5 ok hit Y -
6 cap 4096
7 ok pool Y -
shard 0 c 4096 p 3840 anon 0 mru 3072 mrug 0 mfu 1024 mfug 1024 l2 0
count hit 1 miss 6 past 0 pool 6 l2 0 pass 0 set 0
end 0
''']),
    Row('what is held stays past a smaller capacity', ['run'], 6144, '''\
arc 1 1 16 1 8192 0 0
block 0 2048 1 X
block 2048 2048 1 X
block 4096 2048 1 X
hold 0 1 0
hold 0 2 1
hold 0 3 2
cap 4096
''', 0, ['''\
arc 1
0 held pool
1 held pool
2 held pool
3 cap 4096
shard 0 c 4096 p 3840 anon 0 mru 6144 mrug 0 mfu 0 mfug 0 l2 0
count hit 0 miss 3 past 0 pool 3 l2 0 pass 0 set 0
end 0
''']),
    Row('capacities one after another', ['run', '--events'], 0, '''\
arc 1 2 16 1 4096 0 0
cap 5000
cap 8192
''', 0, ['''\
arc 1
0 cap 5000
1 cap 8192
e 0 0 resize 1 5000
e 0 1 resize 1 8192
e 1 0 resize 1 5000
e 1 1 resize 1 8192
shard 0 c 8192 p 2048 anon 0 mru 0 mrug 0 mfu 0 mfug 0 l2 0
shard 1 c 8192 p 2048 anon 0 mru 0 mrug 0 mfu 0 mfug 0 l2 0
count hit 0 miss 0 past 0 pool 0 l2 0 pass 0 set 0
end 0
''']),
    Row('two callers, with syncs that find no dirty block; a group that a capacity ends has a number too', ['run', '--events'], 512, '''\
arc 2 1 16 1 4096 0 0
block 0 512 1 Z
read 0 1 0 0 0
txg 2
cap 5000
txg 3
read 1 4 0 0 0
''', 0, ['''\
arc 1
0 ok pool Z -
1 txg 1 blocks 0 bytes 0
2 cap 5000
3 txg 3 blocks 0 bytes 0
4 ok hit Z -
e 0 0 miss 0 0 512 1 1
e 0 1 arrive 0 0 512 1 Z pool
e 0 2 drop 0 0 512 1
e 0 3 resize 2 5000
e 0 4 hit 1 0 512 1 4
e 0 5 drop 1 0 512 1
shard 0 c 5000 p 2048 anon 0 mru 0 mrug 0 mfu 512 mfug 0 l2 0
count hit 1 miss 1 past 0 pool 1 l2 0 pass 0 set 0
end 0
''']),
    Row('two callers, one in each group, with a capacity between', ['run', '--events'], 5120, '''\
arc 2 1 16 1 8192 0 0
block 0 1024 1 Y
block 1024 1024 1 Y
block 2048 1024 1 Y
block 3072 1024 1 Y
block 4096 1024 1 Y
read 0 1 0 0 0
read 0 2 1 0 0
read 0 3 2 0 0
read 0 4 3 0 0
read 0 5 4 0 0
hold 0 6 4
cap 4096
read 1 7 4 0 0
read 1 8 0 0 0
cap 8192
drop 0 4
''', 0, ['''\
arc 1
0 ok pool Y -
1 ok pool Y -
2 ok pool Y -
3 ok pool Y -
4 ok pool Y -
5 held hit
6 cap 4096
7 ok hit Y -
8 ok pool Y -
9 cap 8192
10 dropped
e 0 0 miss 0 0 1024 1 1
e 0 1 arrive 0 0 1024 1 Y pool
e 0 2 drop 0 0 1024 1
e 0 3 miss 0 1024 1024 1 2
e 0 4 arrive 0 1024 1024 1 Y pool
e 0 5 drop 0 1024 1024 1
e 0 6 miss 0 2048 1024 1 3
e 0 7 arrive 0 2048 1024 1 Y pool
e 0 8 drop 0 2048 1024 1
e 0 9 miss 0 3072 1024 1 4
e 0 10 arrive 0 3072 1024 1 Y pool
e 0 11 drop 0 3072 1024 1
e 0 12 miss 0 4096 1024 1 5
e 0 13 arrive 0 4096 1024 1 Y pool
e 0 14 drop 0 4096 1024 1
e 0 15 hit 0 4096 1024 1 6
e 0 16 resize 2 4096
e 0 17 hit 1 4096 1024 1 7
e 0 18 drop 1 4096 1024 1
e 0 19 miss 1 0 1024 1 8
e 0 20 arrive 1 0 1024 1 Y pool
e 0 21 drop 1 0 1024 1
e 0 22 resize 2 8192
e 0 23 drop 0 4096 1024 1
shard 0 c 8192 p 3840 anon 0 mru 2048 mrug 1024 mfu 2048 mfug 0 l2 0
count hit 2 miss 6 past 0 pool 6 l2 0 pass 0 set 0
end 0
''']),
    Row('the last bytes of a block whose bytes count up', ['run'], COUNTING, '''\
arc 1 1 16 1 4096 0 4096
block 0 512 1 N
read 0 1 0 448 64
''', 0, [f'''\
arc 1
0 ok pool N {COUNTING[448:].hex()}
shard 0 c 4096 p 2048 anon 0 mru 512 mrug 0 mfu 0 mfug 0 l2 0
count hit 0 miss 1 past 0 pool 1 l2 0 pass 0 set 0
end 0
''']),
]

# what the start of a device finds, and where the shards begin with it
ONE_READ = '''\
arc 1 1 16 1 4096 0 4096
block 0 512 1 Z
read 0 1 0 0 4
'''
THREE_FED = fed([bytes(512)] * 3)


def one_read(words):
    return f'''\
arc 1
0 ok pool Z 00000000
shard 0 c 4096 p 2048 anon 0 mru 512 mrug 0 mfu 0 mfug 0 l2 0
count hit 0 miss 1 past 0 pool 1 l2 0 pass 0 set 0
rebuilt {words}
end 0
'''


def three_found(answer, arrival, counts):
    return f'''\
arc 1
0 ok {answer}
e 0 0 restore 1 1024 512 1 136192 Z
e 0 1 restore 1 512 512 1 70144 Z
e 0 2 restore 1 0 512 1 4096 Z
e 0 3 miss 0 0 512 1 1
e 0 4 arrive 0 0 512 1 {arrival}
e 0 5 drop 0 0 512 1
shard 0 c 4096 p 2048 anon 0 mru 0 mrug 0 mfu 512 mfug 0 l2 1024
count hit 0 miss 1 past 0 {counts} pass 0 set 0
rebuilt 3 zero
end 0
'''


DEVICES = [
    Row('a device of zero bytes', ['run'], 512, ONE_READ, 0, [one_read('0 header magic')], bytes(RING_END)),
    Row('a device that is too short', ['run'], 512, ONE_READ, 0, [one_read('0 short')], bytes(512)),
    Row('a device one byte too short', ['run'], 512, ONE_READ, 0, [one_read('0 short')], bytes(RING_END - 1)),
    Row('a device without a byte', ['run'], 512, ONE_READ, 0, [one_read('0 short')], b''),
    Row('a log block of other bytes', ['run'], 512, ONE_READ, 0, [one_read('0 block digest')], changed(fed([bytes(512)]), 4608, bytes(512))),
    Row('a header of another length', ['run'], 512, ONE_READ, 0, [one_read('0 header field')], fed([bytes(512)]) + bytes(512)),
    Row('a header of one byte more', ['run'], 512, ONE_READ, 0, [one_read('0 header digest')], changed(fed([bytes(512)]), 100, b'\1')),
    Row('three keys that were found', ['run', '--events'], 512, ONE_READ, 0, [three_found('l2 Z 00000000', 'Z l2', 'pool 0 l2 1')], THREE_FED),
    Row('the device has what the pool has no more', ['run', '--events'], COUNTING, ONE_READ, 0, [three_found('l2 Z 00000000', 'Z l2', 'pool 0 l2 1')], THREE_FED),
    Row('a wrong byte of the block on the device', ['run', '--events'], 512, ONE_READ, 0, [three_found('pool Z 00000000', 'Z pool', 'pool 1 l2 0')], changed(THREE_FED, 4607, b'\1')),
    Row('a block of another digest than the one on the device', ['run', '--events'], COUNTING, ONE_READ.replace('Z', 'N'), 0,
        [three_found('pool N 00010203', 'N pool', 'pool 1 l2 0')], THREE_FED),
    Row('a block from the device is cached, and is dropped', ['run', '--events'], COUNTING, '''\
arc 1 1 16 1 4096 0 4096
block 0 512 1 Z
block 0 512 1 N
hold 0 1 0
read 0 2 0 0 4
read 0 3 1 0 4
drop 0 0
read 0 4 0 508 4
''', 0, ['''\
arc 1
0 held l2
1 ok hit Z 00000000
2 ok past N 00010203
3 dropped
4 ok hit Z 00000000
e 0 0 restore 1 1024 512 1 136192 Z
e 0 1 restore 1 512 512 1 70144 Z
e 0 2 restore 1 0 512 1 4096 Z
e 0 3 miss 0 0 512 1 1
e 0 4 arrive 0 0 512 1 Z l2
e 0 5 hit 0 0 512 1 2
e 0 6 drop 0 0 512 1
e 0 7 past 0 0 512 1 Z
e 0 8 drop 0 0 512 1
e 0 9 hit 0 0 512 1 4
e 0 10 drop 0 0 512 1
shard 0 c 4096 p 2048 anon 0 mru 0 mrug 0 mfu 512 mfug 0 l2 1024
count hit 2 miss 1 past 1 pool 1 l2 1 pass 0 set 0
rebuilt 3 zero
end 0
'''], THREE_FED),
    Row('a device and no line', ['run', '--events'], 0, '''\
arc 2 1 16 1 4096 0 4096
l2 8388608 2
''', 0, ['''\
arc 1
e 0 0 restore 2 1024 512 1 136192 Z
e 0 1 restore 2 512 512 1 70144 Z
e 0 2 restore 2 0 512 1 4096 Z
shard 0 c 4096 p 2048 anon 0 mru 0 mrug 0 mfu 0 mfug 0 l2 1536
count hit 0 miss 0 past 0 pool 0 l2 0 pass 0 set 0
rebuilt 3 zero
end 0
'''], THREE_FED),
    Row('two callers are served by the device, over a pool of other bytes', ['run'], COUNTING * 3, '''\
arc 2 1 16 1 4096 0 4096
block 0 512 1 Z
block 512 512 1 Z
read 0 1 0 0 4
read 1 2 1 0 4
''', 0, ['''\
arc 1
0 ok l2 Z 00000000
1 ok l2 Z 00000000
shard 0 c 4096 p 2048 anon 0 mru 0 mrug 0 mfu 1024 mfug 0 l2 512
count hit 0 miss 2 past 0 pool 0 l2 2 pass 0 set 0
rebuilt 3 zero
end 0
'''], THREE_FED),
    Row('one of two callers reads a block of the device', ['run', '--events'], COUNTING * 3, '''\
arc 2 1 16 1 4096 0 4096
block 0 512 1 Z
read 1 1 0 0 4
''', 0, ['''\
arc 1
0 ok l2 Z 00000000
e 0 0 restore 2 1024 512 1 136192 Z
e 0 1 restore 2 512 512 1 70144 Z
e 0 2 restore 2 0 512 1 4096 Z
e 0 3 miss 1 0 512 1 1
e 0 4 arrive 1 0 512 1 Z l2
e 0 5 drop 1 0 512 1
shard 0 c 4096 p 2048 anon 0 mru 0 mrug 0 mfu 512 mfug 0 l2 1024
count hit 0 miss 1 past 0 pool 0 l2 1 pass 0 set 0
rebuilt 3 zero
end 0
'''], THREE_FED),
    Row('a wrong byte on the device, and the pool has the block', ['run'], 1536, '''\
arc 3 1 16 1 4096 0 4096
block 0 512 1 Z
block 512 512 1 Z
block 1024 512 1 Z
read 0 1 0 0 4
read 1 2 1 0 4
read 2 3 2 0 4
''', 0, ['''\
arc 1
0 ok pool Z 00000000
1 ok l2 Z 00000000
2 ok l2 Z 00000000
shard 0 c 4096 p 2048 anon 0 mru 0 mrug 0 mfu 1536 mfug 0 l2 0
count hit 0 miss 3 past 0 pool 1 l2 2 pass 0 set 0
rebuilt 3 zero
end 0
'''], changed(THREE_FED, 4196, b'\1')),
    Row('a wrong byte on the device, and none in the pool', ['run'], COUNTING * 3, '''\
arc 2 1 16 1 4096 0 4096
block 0 512 1 Z
block 512 512 1 Z
read 0 1 0 0 4
read 1 2 1 0 4
''', 1, ['''\
arc 1
0 refused digest N
1 ok l2 Z 00000000
shard 0 c 4096 p 2048 anon 0 mru 0 mrug 0 mfu 512 mfug 0 l2 512
count hit 0 miss 2 past 0 pool 1 l2 1 pass 0 set 0
rebuilt 3 zero
end 1
'''], changed(THREE_FED, 4196, b'\1')),
    Row('the device serves two groups of three callers', ['run'], COUNTING * 3, '''\
arc 3 1 16 1 4096 0 4096
block 0 512 1 Z
block 512 512 1 Z
block 1024 512 1 Z
read 2 1 0 0 4
cap 8192
read 0 2 1 0 4
read 1 3 2 0 4
''', 0, ['''\
arc 1
0 ok l2 Z 00000000
1 cap 8192
2 ok l2 Z 00000000
3 ok l2 Z 00000000
shard 0 c 8192 p 2048 anon 0 mru 0 mrug 0 mfu 1536 mfug 0 l2 0
count hit 0 miss 3 past 0 pool 0 l2 3 pass 0 set 0
rebuilt 3 zero
end 0
'''], THREE_FED),
    Row('a digest that neither the device nor the pool has', ['run', '--events'], 512, '''\
arc 1 1 16 1 4096 0 4096
block 0 512 1 F
read 0 1 0 0 0
''', 1, ['''\
arc 1
0 refused digest Z
e 0 0 restore 1 0 512 1 4096 Z
e 0 1 miss 0 0 512 1 1
e 0 2 fail 0 0 512 1 pool
shard 0 c 4096 p 2048 anon 0 mru 0 mrug 0 mfu 0 mfug 0 l2 0
count hit 0 miss 1 past 0 pool 1 l2 0 pass 0 set 0
rebuilt 1 zero
end 1
'''], fed([bytes(512)])),
    Row('a block of an older device, which tells no digest', ['run', '--events'], COUNTING, '''\
arc 1 1 16 1 4096 0 4096
block 0 512 1 Z
block 0 512 1 N
read 0 1 0 0 1
read 0 2 1 0 1
''', 0, ['''\
arc 1
0 ok l2 Z 00
1 ok past N 00
e 0 0 restore 1 0 512 1 4096 -
e 0 1 miss 0 0 512 1 1
e 0 2 arrive 0 0 512 1 Z l2
e 0 3 drop 0 0 512 1
e 0 4 past 0 0 512 1 Z
shard 0 c 4096 p 2048 anon 0 mru 0 mrug 0 mfu 512 mfug 0 l2 0
count hit 0 miss 1 past 1 pool 1 l2 1 pass 0 set 0
rebuilt 1 zero
end 0
'''], fed([bytes(512)], version=1)),
    Row('a pointer to other bytes than the device has', ['run'], COUNTING * 3, '''\
arc 2 1 16 1 4096 0 4096
block 0 512 1 N
read 0 1 0 0 4
''', 0, ['''\
arc 1
0 ok pool N 00010203
shard 0 c 4096 p 2048 anon 0 mru 0 mrug 0 mfu 512 mfug 0 l2 1024
count hit 0 miss 1 past 0 pool 1 l2 0 pass 0 set 0
rebuilt 3 zero
end 0
'''], THREE_FED),
]

# what a start finds of three blocks, and says why its walk ended, where these bytes are changed, and the header's digest is made anew or not
HURT = [
    (3, 'zero', THREE_FED),
    (0, 'header magic', changed(THREE_FED, 0, b'\0')),
    (0, 'header version', changed(THREE_FED, 8, b'\3')),
    (0, 'header digest', changed(THREE_FED, 100, b'\1')),
    (0, 'header field', sealed(changed(THREE_FED, 100, b'\1'))),
    (0, 'outside', sealed(changed(THREE_FED, 128, (4097).to_bytes(8, 'little')))),
    (0, 'outside', sealed(changed(THREE_FED, 128, (202_240).to_bytes(8, 'little')))),
    (0, 'evicted', sealed(changed(THREE_FED, 128, (200_704).to_bytes(8, 'little')))),
    (0, 'block digest', changed(THREE_FED, 136_704, b'\0')),
    (1, 'zero', sealed(changed(THREE_FED, 192, bytes(64)))),
    (2, 'zero', sealed(changed(THREE_FED, 192, THREE_FED[128:192]))),
    (3, 'block digest', fed([bytes(512)] * 4)),
]
# how many blocks a start finds where the device stops behind so many of the writes and flushes of three feeds, and then crashes: where nothing that was not
# flushed is left, and where all is. A negative number says that there is no header yet.
CRASHES = [(-1, -1), (-1, 0), *[(0, 0)] * 4, (0, 1), *[(1, 1)] * 6, (1, 2), *[(2, 2)] * 6, (2, 3), (3, 3)]


def start_row(shows, found, stop, device):
    report = f'''\
arc 1
shard 0 c 4096 p 2048 anon 0 mru 0 mrug 0 mfu 0 mfug 0 l2 {512 * found}
count hit 0 miss 0 past 0 pool 0 l2 0 pass 0 set 0
rebuilt {found} {stop}
end 0
'''
    return Row(shows, ['run'], 0, 'arc 1 1 16 1 4096 0 4096\n', 0, [report], device)


# A device to which one block was fed. Whichever byte of its header is changed, a start refuses it; and so it does where the header's digest is made anew, if
# the byte is of these, whose field has a rule of its own, or of those that are zero.
ONE_FED = fed([bytes(512)])
RULED = [(16, 26), (32, 34), (35, 50), (51, 57), (64, 72), (136, 145), (146, 152), (192, 256)]
ZERO = [(72, 128), (152, 160), (256, 480)]
# places in the log block of a device of version 1, each with bytes for which a start refuses it: the mark of its entries' kind, what is zero, how many
# entries it has, an entry's digest, its size (twice; only an entry with a digest may be so large), and the lap
HURT_LOG = [(24, b'\1'), (25, b'\2'), (24, b'\2'), (32, b'\1'), (17, b'\4'), (160, b'\7'), (138, b'\x10'), (136, bytes(3) + b'\1'), (8, b'\0'), (8, b'\2')]


def flipped(image, at):
    """The device with the lowest bit of one byte turned."""
    return changed(image, at, bytes([image[at] ^ 1]))


def of_log(image, at, body):
    """The device with other bytes in its only log block, whose digest is made anew in the header."""
    image = changed(image, 4608 + at, body)
    digest = hashlib.sha256(image[4608:4608 + 65536]).digest()
    return sealed(changed(image, 160, digest))


def hurt_rows():
    """A row for each byte of a header, and for those of a log block."""
    for at in range(512):
        word = 'magic' if at < 8 else 'version' if at < 16 else 'digest'
        yield start_row(f'another byte {at} of a header', 0, f'header {word}', flipped(ONE_FED, at))
    for first, end in RULED + ZERO:
        for at in range(first, end):
            yield start_row(f'another byte {at} of a header, and its digest', 0, 'header field', sealed(flipped(ONE_FED, at)))
    for at, body in HURT_LOG:
        yield start_row(f'a log block whose bytes from {at} on are {body}', 0, 'block field', of_log(fed([bytes(512)], version=1), at, body))


def start_rows():
    yield from hurt_rows()
    for found, stop, device in HURT:
        yield start_row(f'a start that stops so: {stop}', found, stop, device)
    ring = ring_of([bytes(512)] * 3)
    for stop, both in enumerate(CRASHES):
        for found, keeps in zip(both, (False, True)):
            shows = f'a crash behind {stop} writes and flushes, of which {"all" if keeps else "none"} is left that was not flushed'
            yield start_row(shows, max(found, 0), 'header magic' if found < 0 else 'zero', ring.crashed(stop, keeps))


def cut_rows():
    """A trace of one read that is cut behind each of its bytes: where what is left is a trace, it is run."""
    whole = spelled(TRACES[0].source)
    lines = TRACES[0].reports[0].splitlines(keepends=True)
    for n in range(len(whole) + 1):
        if n in (21, 22, 23, 24, 25, 103, 104):
            yield Row(f'the first {n} bytes of a trace', ['run'], 512, whole[:n], 0, [TRACES[1].reports[0]])
        elif n >= 118:
            yield Row(f'the first {n} bytes of a trace', ['run'], 512, whole[:n], 0, [''.join(line for line in lines if not line.startswith('e '))])
        else:
            yield Row(f'the first {n} bytes of a trace', ['run'], 512, whole[:n], 3, [''])


LISTS = [
    Row('five pages, with a comment and an empty line', ['paper', '2'], 0, '# five\n1\n2\n\n1\n3\n2\n', 0, ['''\
0 miss
1 miss
2 hit
3 miss
4 miss
paper c 2 p 1 t1 1 t2 1 b1 0 b2 1 hits 1
end 0
''']),
    Row('one page pushes out the other', ['paper', '1'], 0, '1\n2\n1\n', 0, ['''\
0 miss
1 miss
2 miss
paper c 1 p 0 t1 1 t2 0 b1 0 b2 0 hits 0
end 0
''']),
    Row('no page', ['paper', '1'], 0, '', 0, ['paper c 1 p 0 t1 0 t2 0 b1 0 b2 0 hits 0\nend 0\n']),
    Row('pages at both ends of their range, the last with no end of its line', ['paper', '65536'], 0, f'0\n{2 ** 62}', 0, ['''\
0 miss
1 miss
paper c 65536 p 0 t1 2 t2 0 b1 0 b2 0 hits 0
end 0
''']),
    Row('the same pages again', ['paper', '2'], 0, f'0\n{2 ** 62}\n{2 ** 62}\n0\n', 0, ['''\
0 miss
1 miss
2 hit
3 hit
paper c 2 p 0 t1 0 t2 2 b1 0 b2 0 hits 2
end 0
''']),
    Row('a page past the range', ['paper', '2'], 0, f'1\n{2 ** 62 + 1}', 3, ['']),
    Row('a page with a zero in front', ['paper', '2'], 0, '1\n01', 3, ['']),
    Row('two pages on a line', ['paper', '2'], 0, '1\n2 \n3 4', 3, ['']),
    Row('a page behind a space', ['paper', '2'], 0, ' 1', 3, ['']),
    Row('no capacity', ['paper'], 0, '', 2, ['']),
    Row('a capacity of no page', ['paper', '0'], 0, '', 2, ['']),
    Row('a capacity past the range', ['paper', '65537'], 0, '', 2, ['']),
    Row('a capacity with a zero in front', ['paper', '02'], 0, '', 2, ['']),
    Row('a word behind the capacity', ['paper', '2', '3'], 0, '', 2, ['']),
]

# Logs of events, worked out by hand. A letter in place of a digest stands for it, as in the traces.
LOGS = [
    Row('a log of one read', ['check'], 0, '''\
arc 1 1 16 1 4096 0 4096
e 0 0 miss 0 0 512 1 1
e 0 1 arrive 0 0 512 1 Z pool
e 0 2 drop 0 0 512 1
''', 0, ['''\
check ok 3
shard 0 c 4096 p 2048 anon 0 mru 512 mrug 0 mfu 0 mfug 0 l2 0
end 0
''']),
    Row('a drop while its block is being read', ['check'], 0, '''\
arc 1 1 16 1 4096 0 4096
e 0 0 miss 0 0 512 1 1
e 0 1 drop 0 0 512 1
''', 10, ['''\
check bad 0 1
end 10
''']),
    Row('a log that begins with the index 1', ['check'], 0, '''\
arc 1 1 16 1 4096 0 4096
e 0 1 miss 0 0 512 1 1
''', 3, ['']),
    Row('a log that is cut', ['check'], 0, '''\
arc 1 1 16 1 4096 0 4096
e 0 0 miss 0 0 512 1 1
''', 0, ['''\
check ok 1
shard 0 c 4096 p 2048 anon 512 mru 0 mrug 0 mfu 0 mfug 0 l2 0
end 0
''']),
    Row('a block that comes back from the cache device', ['check'], 0, '''\
arc 1 1 16 1 4096 0 4096
l2 131072 2
e 0 0 miss 0 0 2048 1 1
e 0 1 arrive 0 0 2048 1 X pool
e 0 2 drop 0 0 2048 1
e 0 3 pick 1 0 2048 1
e 0 4 feedend 1
e 0 5 set 1 0 2048 1 4096
e 0 6 miss 0 2048 2048 1 2
e 0 7 arrive 0 2048 2048 1 X pool
e 0 8 drop 0 2048 2048 1
e 0 9 miss 0 4096 2048 1 3
e 0 10 arrive 0 4096 2048 1 X pool
e 0 11 drop 0 4096 2048 1
e 0 12 miss 0 6144 2048 1 4
e 0 13 arrive 0 6144 2048 1 X pool
e 0 14 drop 0 6144 2048 1
e 0 15 miss 0 0 2048 1 5
e 0 16 arrive 0 0 2048 1 X l2
e 0 17 drop 0 0 2048 1
''', 0, ['''\
check ok 18
shard 0 c 4096 p 2048 anon 0 mru 2048 mrug 2048 mfu 2048 mfug 0 l2 0
end 0
''']),
    Row('a block from the cache device that has no place there', ['check'], 0, '''\
arc 1 1 16 1 4096 0 4096
l2 131072 2
e 0 0 miss 0 0 2048 1 1
e 0 1 arrive 0 0 2048 1 X pool
e 0 2 drop 0 0 2048 1
e 0 3 miss 0 2048 2048 1 2
e 0 4 arrive 0 2048 2048 1 X pool
e 0 5 drop 0 2048 2048 1
e 0 6 miss 0 4096 2048 1 3
e 0 7 arrive 0 4096 2048 1 X pool
e 0 8 drop 0 4096 2048 1
e 0 9 miss 0 6144 2048 1 4
e 0 10 arrive 0 6144 2048 1 X pool
e 0 11 drop 0 6144 2048 1
e 0 12 miss 0 0 2048 1 5
e 0 13 arrive 0 0 2048 1 X l2
e 0 14 drop 0 0 2048 1
''', 10, ['''\
check bad 0 13
end 10
''']),
    Row('a feed that ends although a block may be picked', ['check'], 0, '''\
arc 1 1 16 1 4096 0 4096
l2 131072 2
e 0 0 miss 0 0 2048 1 1
e 0 1 arrive 0 0 2048 1 X pool
e 0 2 drop 0 0 2048 1
e 0 3 feedend 1
e 0 4 set 1 0 2048 1 4096
e 0 5 miss 0 2048 2048 1 2
e 0 6 arrive 0 2048 2048 1 X pool
e 0 7 drop 0 2048 2048 1
e 0 8 miss 0 4096 2048 1 3
e 0 9 arrive 0 4096 2048 1 X pool
e 0 10 drop 0 4096 2048 1
e 0 11 miss 0 6144 2048 1 4
e 0 12 arrive 0 6144 2048 1 X pool
e 0 13 drop 0 6144 2048 1
e 0 14 miss 0 0 2048 1 5
e 0 15 arrive 0 0 2048 1 X l2
e 0 16 drop 0 0 2048 1
''', 10, ['''\
check bad 0 3
end 10
''']),
    Row('a block that was not picked gets a place', ['check'], 0, '''\
arc 1 1 16 1 4096 0 4096
l2 131072 2
e 0 0 miss 0 0 2048 1 1
e 0 1 arrive 0 0 2048 1 X pool
e 0 2 drop 0 0 2048 1
e 0 3 set 1 0 2048 1 4096
e 0 4 miss 0 2048 2048 1 2
e 0 5 arrive 0 2048 2048 1 X pool
e 0 6 drop 0 2048 2048 1
e 0 7 miss 0 4096 2048 1 3
e 0 8 arrive 0 4096 2048 1 X pool
e 0 9 drop 0 4096 2048 1
e 0 10 miss 0 6144 2048 1 4
e 0 11 arrive 0 6144 2048 1 X pool
e 0 12 drop 0 6144 2048 1
e 0 13 miss 0 0 2048 1 5
e 0 14 arrive 0 0 2048 1 X l2
e 0 15 drop 0 0 2048 1
''', 10, ['''\
check bad 0 3
end 10
''']),
    Row('a block that is larger than a feed may pick', ['check'], 0, '''\
arc 1 1 16 1 4096 0 4096
l2 2047 64
e 0 0 miss 0 0 2048 1 1
e 0 1 arrive 0 0 2048 1 X pool
e 0 2 drop 0 0 2048 1
e 0 3 pick 1 0 2048 1
e 0 4 feedend 1
e 0 5 set 1 0 2048 1 4096
e 0 6 miss 0 2048 2048 1 2
e 0 7 arrive 0 2048 2048 1 X pool
e 0 8 drop 0 2048 2048 1
e 0 9 miss 0 4096 2048 1 3
e 0 10 arrive 0 4096 2048 1 X pool
e 0 11 drop 0 4096 2048 1
e 0 12 miss 0 6144 2048 1 4
e 0 13 arrive 0 6144 2048 1 X pool
e 0 14 drop 0 6144 2048 1
e 0 15 miss 0 0 2048 1 5
e 0 16 arrive 0 0 2048 1 X l2
e 0 17 drop 0 0 2048 1
''', 10, ['''\
check bad 0 3
end 10
''']),
    Row('a place of an earlier run, and its digest', ['check'], 0, '''\
arc 1 1 16 1 4096 0 4096
e 0 0 restore 1 0 512 1 4096 Z
e 0 1 restore 1 512 512 1 4608 -
e 0 2 miss 0 0 512 1 1
e 0 3 arrive 0 0 512 1 Z l2
e 0 4 drop 0 0 512 1
e 0 5 clear 1 0 512 1
e 0 6 clear 1 512 512 1
''', 0, ['''\
check ok 7
shard 0 c 4096 p 2048 anon 0 mru 0 mrug 0 mfu 512 mfug 0 l2 0
end 0
''']),
    Row('a place of a block that is there already', ['check'], 0, '''\
arc 1 1 16 1 4096 0 4096
e 0 0 miss 0 0 512 1 1
e 0 1 arrive 0 0 512 1 Z pool
e 0 2 drop 0 0 512 1
e 0 3 restore 1 0 512 1 4096 -
''', 10, ['''\
check bad 0 3
end 10
''']),
    Row('a dbuf takes a hold, and its block is written', ['check'], 0, '''\
arc 1 1 16 1 4096 0 4096
e 0 0 miss 0 0 512 1 1
e 0 1 arrive 0 0 512 1 Z pool
e 0 2 hand 0 0 512 1 2
e 0 3 release 2 0 512 1 sole
e 0 4 miss 0 0 512 1 3
e 0 5 arrive 0 0 512 1 Z pool
e 0 6 drop 0 0 512 1
''', 0, ['''\
check ok 7
shard 0 c 4096 p 2048 anon 0 mru 512 mrug 0 mfu 0 mfug 0 l2 0
end 0
''']),
    Row('a dbuf takes a hold beside another one, and its block is written', ['check'], 0, '''\
arc 1 1 16 1 4096 0 4096
e 0 0 miss 0 0 512 1 1
e 0 1 arrive 0 0 512 1 Z pool
e 0 2 hit 0 0 512 1 2
e 0 3 hand 0 0 512 1 2
e 0 4 release 2 0 512 1 shared
e 0 5 hit 0 0 512 1 4
e 0 6 drop 0 0 512 1
e 0 7 drop 0 0 512 1
''', 0, ['''\
check ok 8
shard 0 c 4096 p 2048 anon 0 mru 0 mrug 0 mfu 512 mfug 0 l2 0
end 0
''']),
    Row('two dbufs, of which one at a time is kept', ['check'], 0, '''\
arc 1 1 16 1 4096 0 4096
e 0 0 miss 0 0 512 1 1
e 0 1 arrive 0 0 512 1 Z pool
e 0 2 hand 0 0 512 1 2
e 0 3 miss 0 512 512 1 2
e 0 4 arrive 0 512 512 1 Z pool
e 0 5 hand 0 512 512 1 2
e 0 6 drop 2 0 512 1
e 0 7 hit 0 0 512 1 3
e 0 8 hand 0 0 512 1 2
e 0 9 drop 2 512 512 1
e 0 10 drop 2 0 512 1
''', 0, ['''\
check ok 11
shard 0 c 4096 p 2048 anon 0 mru 512 mrug 0 mfu 512 mfug 0 l2 0
end 0
''']),
    Row('a hold that is said to be the only one', ['check'], 0, '''\
arc 1 1 16 1 4096 0 4096
e 0 0 miss 0 0 512 1 1
e 0 1 arrive 0 0 512 1 Z pool
e 0 2 hit 0 0 512 1 2
e 0 3 hand 0 0 512 1 2
e 0 4 release 2 0 512 1 sole
''', 10, ['''\
check bad 0 4
end 10
''']),
    Row('a block that was just written', ['check'], 0, '''\
arc 1 1 16 1 4096 0 4096
e 0 0 insert 2 0 512 1 Z 4
e 0 1 drop 2 0 512 1
''', 0, ['''\
check ok 2
shard 0 c 4096 p 2048 anon 0 mru 512 mrug 0 mfu 0 mfug 0 l2 0
end 0
''']),
    Row('a block that a caller puts in', ['check'], 0, '''\
arc 1 1 16 1 4096 0 4096
e 0 0 insert 1 0 512 1 Z 4
''', 10, ['''\
check bad 0 0
end 10
''']),
    Row('a scan that goes past a block', ['check'], 0, '''\
arc 2 1 16 1 4096 0 4096
e 0 0 miss 0 0 2048 1 1
e 0 1 arrive 0 0 2048 1 X pool
e 0 2 drop 0 0 2048 1
e 0 3 miss 0 2048 2048 1 2
e 0 4 arrive 0 2048 2048 1 X pool
e 0 5 drop 0 2048 2048 1
e 0 6 pass 0 0 2048 1 1
e 0 7 miss 0 4096 2048 1 3
e 0 8 arrive 0 4096 2048 1 X pool
e 0 9 drop 0 4096 2048 1
e 0 10 hit 1 0 2048 1 4
e 0 11 drop 1 0 2048 1
''', 0, ['''\
check ok 12
shard 0 c 4096 p 2048 anon 0 mru 2048 mrug 2048 mfu 2048 mfug 0 l2 0
end 0
''']),
    Row('a block that was passed and is missed all the same', ['check'], 0, '''\
arc 2 1 16 1 4096 0 4096
e 0 0 miss 0 0 2048 1 1
e 0 1 arrive 0 0 2048 1 X pool
e 0 2 drop 0 0 2048 1
e 0 3 miss 0 2048 2048 1 2
e 0 4 arrive 0 2048 2048 1 X pool
e 0 5 drop 0 2048 2048 1
e 0 6 pass 0 0 2048 1 1
e 0 7 miss 0 4096 2048 1 3
e 0 8 arrive 0 4096 2048 1 X pool
e 0 9 drop 0 4096 2048 1
e 0 10 miss 1 0 2048 1 4
''', 10, ['''\
check bad 0 10
end 10
''']),
    Row('a pass that an event forgets', ['check'], 0, '''\
arc 2 1 16 1 4096 0 4096
e 0 0 miss 0 0 2048 1 1
e 0 1 arrive 0 0 2048 1 X pool
e 0 2 drop 0 0 2048 1
e 0 3 miss 0 2048 2048 1 2
e 0 4 arrive 0 2048 2048 1 X pool
e 0 5 drop 0 2048 2048 1
e 0 6 pass 0 0 2048 1 1
e 0 7 hit 1 2048 2048 1 3
e 0 8 miss 0 4096 2048 1 4
e 0 9 arrive 0 4096 2048 1 X pool
e 0 10 drop 0 4096 2048 1
e 0 11 drop 1 2048 2048 1
e 0 12 hit 1 0 2048 1 5
''', 10, ['''\
check bad 0 12
end 10
''']),
    Row('a pass that is its own', ['check'], 0, '''\
arc 2 1 16 1 4096 0 4096
e 0 0 miss 0 0 2048 1 1
e 0 1 arrive 0 0 2048 1 X pool
e 0 2 drop 0 0 2048 1
e 0 3 miss 0 2048 2048 1 2
e 0 4 arrive 0 2048 2048 1 X pool
e 0 5 drop 0 2048 2048 1
e 0 6 pass 0 0 2048 1 0
''', 10, ['''\
check bad 0 6
end 10
''']),
    Row('a block passed twice', ['check'], 0, '''\
arc 2 1 16 1 4096 0 4096
e 0 0 miss 0 0 2048 1 1
e 0 1 arrive 0 0 2048 1 X pool
e 0 2 drop 0 0 2048 1
e 0 3 miss 0 2048 2048 1 2
e 0 4 arrive 0 2048 2048 1 X pool
e 0 5 drop 0 2048 2048 1
e 0 6 pass 0 0 2048 1 1
e 0 7 pass 0 0 2048 1 1
''', 10, ['''\
check bad 0 7
end 10
''']),
    Row('a new capacity', ['check'], 0, '''\
arc 1 1 16 1 8192 0 0
e 0 0 miss 0 0 2048 1 1
e 0 1 arrive 0 0 2048 1 X pool
e 0 2 drop 0 0 2048 1
e 0 3 miss 0 2048 2048 1 2
e 0 4 arrive 0 2048 2048 1 X pool
e 0 5 drop 0 2048 2048 1
e 0 6 miss 0 4096 2048 1 3
e 0 7 arrive 0 4096 2048 1 X pool
e 0 8 drop 0 4096 2048 1
e 0 9 resize 1 4096
e 0 10 hit 0 4096 2048 1 5
e 0 11 hit 0 0 2048 1 6
''', 10, ['''\
check bad 0 11
end 10
''']),
    Row('a capacity out of range', ['check'], 0, '''\
arc 1 1 16 1 4096 0 4096
e 0 0 resize 1 4095
''', 10, ['''\
check bad 0 0
end 10
''']),
    Row('two shards with faults, of which the second stands first', ['check'], 0, '''\
arc 1 16 16 1 4096 0 0
e 0 0 miss 0 0 512 1 1
e 0 1 drop 0 0 512 1
e 12 0 drop 0 512 512 1
''', 10, ['''\
check bad 0 1
end 10
''']),
    Row('a fault in a later shard', ['check'], 0, '''\
arc 1 16 16 1 4096 0 0
e 0 0 miss 0 0 512 1 1
e 12 0 drop 0 512 512 1
''', 10, ['''\
check bad 12 0
end 10
''']),
    Row('no event', ['check'], 0, 'arc 1 2 16 1 4096 0 0\n', 0, [
        'check ok 0\nshard 0 c 4096 p 2048 anon 0 mru 0 mrug 0 mfu 0 mfug 0 l2 0\nshard 1 c 4096 p 2048 anon 0 mru 0 mrug 0 mfu 0 mfug 0 l2 0\nend 0\n',
    ]),
    Row('no log', ['check'], 0, '', 3, ['']),
    Row('a word behind check', ['check', '--events'], 0, '', 2, ['']),
]

REFUSED = [
    Row('no word', [], 512, 'arc 1 1 16 1 4096 0 0\n', 2, ['']),
    Row('no command', ['ran'], 512, 'arc 1 1 16 1 4096 0 0\n', 2, ['']),
    Row('a word that run has not', ['run', '--event'], 512, 'arc 1 1 16 1 4096 0 0\n', 2, ['']),
    Row('no block to read', ['gen', '1', '0', '10'], 512, '', 2, ['']),
    Row('no number of reads', ['gen', '1', '8'], 512, '', 2, ['']),
    Row('a line that lacks a number', ['run'], 512, 'arc 1 1 16 1 4096 0 0\n# none\nread 0 1 0 0\n', 3, ['']),
]

# Four callers read eight blocks twice each, over four shards. In every order one read of each block misses and all others hit, so what
# the shards end with and the counts are always the same.
LOAD = 'arc 4 4 64 4 16777216 62 1048576\n' + ''.join(f'block {i * 131072} 131072 1 L\n' for i in range(8)) + ''.join(
    f'read {i % 4} {i // 4 + 1} {i // 4 % 8} 0 0\n' for i in range(64))
LOAD_ENDS = '''\
shard 0 c 16777216 p 8388608 anon 0 mru 262144 mrug 0 mfu 0 mfug 0 l2 0
shard 1 c 16777216 p 8388608 anon 0 mru 262144 mrug 0 mfu 0 mfug 0 l2 0
shard 2 c 16777216 p 8388608 anon 0 mru 393216 mrug 0 mfu 0 mfug 0 l2 0
shard 3 c 16777216 p 8388608 anon 0 mru 131072 mrug 0 mfu 0 mfug 0 l2 0
count hit 56 miss 8 past 0 pool 8 l2 0 pass 0 set 0
end 0
'''


def run(program, row):
    """The exit status, what was written, and what became of the pool and the device."""
    with open('pool', 'wb') as pool:
        if isinstance(row.pool, bytes):
            pool.write(row.pool)
        else:
            pool.truncate(row.pool)
    if row.device is not None:
        with open('device', 'wb') as device:
            device.write(row.device)
    source = spelled(row.source).encode()
    with subprocess.Popen([program, 'pool', '-' if row.device is None else 'device', *row.words], stdin=subprocess.PIPE, stdout=subprocess.PIPE, stderr=subprocess.DEVNULL) as ended:
        try:
            for at in range(0, len(source), 7):
                os.write(ended.stdin.fileno(), source[at:at + 7])
            ended.stdin.close()
        except BrokenPipeError:
            pass  # its words were refused before it read
        told = ended.stdout.read().decode()
    return ended.returncode, told, content('pool'), None if row.device is None else content('device')


def content(name):
    with open(name, 'rb') as file:
        return file.read()


def is_undone(row):
    return row.words[:1] == ['run'] and row.status in (0, 1, 8, None) and undone.has_undone(row.source)


def is_right(program, row):
    """Whether each of some runs ends in a way that the row allows. One with a line that isn't done yet has to be refused."""
    if is_undone(row):
        row = row._replace(status=3, reports=[''], pool_after=None, device_after=None, times=1)
    # the status stands at the end of a report
    wanted = [(row.status if row.status is not None else int(report.split()[-1]), spelled(report)) for report in row.reports]
    callers = row.source.split(' ')[1:2] if row.source.startswith('arc ') else []
    for _ in range(row.times or (4 if len(wanted) > 1 or callers not in ([], ['1']) else 1)):
        *ours, pool, device = run(program, row)
        if tuple(ours) not in wanted:
            print(f'{row.shows}: {row.words} ended with {tuple(ours)}, which is none of {wanted}')
            return False
        if row.pool != pool and pool not in may_leave(row.pool_after, pool_of(row)):
            print(f'{row.shows}: {row.words} left another pool')
            return False
        if device is not None and device not in may_leave(row.device_after, bytes(row.device)):
            print(f'{row.shows}: {row.words} left another device')
            return False
    return True


def is_load_right(program):
    status, told, *_ = run(program, Row('a load of four callers', ['run'], 8 * 131072, LOAD, 0, []))
    right = status == 0 and told.count(' ok ') == 64 and told.endswith(LOAD_ENDS)
    if not right:
        print(f'a load of four callers ended with {status}: {told[-600:]}')
    return right


def are_many_kept(program):
    """A caller keeps 5,000 reads of a block and drops them: there is memory for each, and the oldest goes first, whatever is kept."""
    kept = 5000
    lines = [f'hold 0 {i + 1} 0\n' for i in range(kept)] + ['drop 0 0\n'] * kept
    status, told, *_ = run(program, Row('many kept reads', ['run'], 512, 'arc 1 1 16 1 4096 0 0\nblock 0 512 1 Z\n' + ''.join(lines), 0, []))
    replies = ['0 held pool', *(f'{i} held hit' for i in range(1, kept)), *(f'{i} dropped' for i in range(kept, 2 * kept))]
    right = status == 0 and told.splitlines()[1:-3] == replies
    if not right:
        print(f'{kept} kept reads ended with {status}: {told[-600:]}')
    return right


def is_batch_fed(program):
    """One feed of 682 blocks needs two runs: a log block has 681 entries, so the last block stands behind the first log block."""
    lines = [f'block {512 * i} 512 1 Z\n' for i in range(682)] + [f'read 0 {i + 1} {i} 0 0\n' for i in range(682)]
    trace = 'arc 1 1 16 1 1048576 0 4096\nl2 524288 8\n' + ''.join(lines) + 'feed\n'
    status, told, *_ = run(program, Row('a feed of two runs', ['run', '--events'], 682 * 512, trace, 0, [], bytes(1_056_768)))
    places = {words[5]: words[-1] for words in map(str.split, told.splitlines()) if words[3:4] == ['set']}
    right = status == 0 and '682 feed picked 682 bytes 349184 written 682 cleared 0 ok' in told.splitlines()
    right = right and len(places) == 682 and sorted(map(int, places.values())) == [*(4096 + 512 * i for i in range(681)), 418_304]
    if not right:
        print(f'a feed of 682 blocks ended with {status}: {told[-600:]}')
    return right


def is_read_from_device(program):
    """24 blocks, no two the same, are read and fed one by one through a cache of eight. Then the last eight are cached as used once. A block that is read back
    counts as used more often, since its key is known. The first four push four of the eight out; then half of the cache is theirs, and each one more
    pushes out the oldest of those read back. So the last four stay cached, and all others come from the device."""
    bodies = [bytes([i + 1]) * 512 for i in range(24)]
    digests = [hashlib.sha256(body).hexdigest() for body in bodies]
    lines = [f'block {512 * i} 512 1 {digest}\n' for i, digest in enumerate(digests)] + [f'read 0 {i + 1} {i} 0 0\nfeed\n' for i in range(24)]
    trace = 'arc 1 1 16 1 4096 0 4096\nl2 131072 8\n' + ''.join(lines) + ''.join(f'read 0 {i + 1} {i} 0 1\n' for i in range(24))
    status, told, *_ = run(program, Row('blocks read back', ['run'], b''.join(bodies), trace, 0, [], bytes(2_097_152)))
    replies = [line for i in range(24) for line in (f'{2 * i} ok pool {digests[i]} -', f'{2 * i + 1} feed picked 1 bytes 512 written 1 cleared 0 ok')]
    replies += [f'{48 + i} ok {"l2" if i < 20 else "hit"} {digests[i]} {i + 1:02x}' for i in range(24)]
    right = status == 0 and told.splitlines()[1:73] == replies
    if not right:
        print(f'24 blocks read back ended with {status}: {told}')
    return right


def is_locked_pool_read(program):
    """A pool that may not be written is read all the same. Root may write every file, so there the program is run as nobody."""
    shutil.copy(program, 'tool')
    os.chmod('.', 0o755)
    with open('locked', 'wb') as pool:
        pool.truncate(512)
    os.chmod('locked', 0o444)
    nobody = {'user': 65534, 'group': 65534, 'extra_groups': []} if os.geteuid() == 0 else {}
    source = spelled('arc 1 1 16 1 4096 0 0\nblock 0 512 1 Z\nread 0 1 0 0 1\n')
    ended = subprocess.run(['./tool', 'locked', '-', 'run'], input=source.encode(), capture_output=True, **nobody)
    right = ended.returncode == 0 and spelled('0 ok pool Z 00\n') in ended.stdout.decode()
    if not right:
        print(f'a pool that may not be written ended with {ended}')
    return right


def is_log_right(program, row):
    """The events of a run, behind the sizes of its trace, are a legal log, which ends as the report does."""
    told = run(program, row._replace(words=['run', '--events']))[1].splitlines()
    heads = [line for line in row.source.splitlines() if line.startswith(('arc ', 'l2 '))]
    events = [line for line in told if line.startswith('e ')]
    ends = [line for line in told if line.startswith('shard ')]
    wanted = 0, ''.join(f'{line}\n' for line in (f'check ok {len(events)}', *ends, 'end 0'))
    ours = run(program, Row(row.shows, ['check'], 0, ''.join(f'{line}\n' for line in heads + events), 0, []))[:2]
    if ours != wanted:
        print(f'{row.shows}: the log of its events ended with {ours}, not with {wanted}')
    return ours == wanted


class Policy:
    """The policy on four plain lists, the newest page first."""

    def __init__(self, c):
        self.c, self.p, self.hits = c, 0, 0
        self.t1, self.t2, self.b1, self.b2 = [], [], [], []

    def replace(self, in_b2):
        n = len(self.t1)
        if n > 0 and (n > self.p or (in_b2 and n == self.p)):
            self.b1.insert(0, self.t1.pop())
        elif self.t2:
            self.b2.insert(0, self.t2.pop())

    def make_room(self):
        recent = len(self.t1) + len(self.b1)
        everything = recent + len(self.t2) + len(self.b2)
        if recent == self.c:
            if len(self.t1) < self.c:
                self.b1.pop()
                self.replace(False)
            else:
                self.t1.pop()
        elif everything >= self.c:
            if everything == 2 * self.c:
                self.b2.pop()
            self.replace(False)

    def page(self, x):
        b1, b2 = len(self.b1), len(self.b2)
        for cached in (self.t1, self.t2):
            if x in cached:
                cached.remove(x)
                self.t2.insert(0, x)
                self.hits += 1
                return 'hit'
        if x in self.b1:
            self.p = min(self.c, self.p + max(1, b2 // b1))
            self.replace(False)
            self.b1.remove(x)
            self.t2.insert(0, x)
        elif x in self.b2:
            self.p = max(0, self.p - max(1, b1 // b2))
            self.replace(True)
            self.b2.remove(x)
            self.t2.insert(0, x)
        else:
            self.make_room()
            self.t1.insert(0, x)
        return 'miss'

    def told(self, pages):
        lines = [f'{i} {self.page(x)}\n' for i, x in enumerate(pages)]
        t1, t2, b1, b2 = map(len, (self.t1, self.t2, self.b1, self.b2))
        return ''.join(lines) + f'paper c {self.c} p {self.p} t1 {t1} t2 {t2} b1 {b1} b2 {b2} hits {self.hits}\nend 0\n'


def short_lists():
    """Each list of six of three pages, as far as they differ by more than the pages' names."""
    for pages in itertools.product(range(3), repeat=6):
        if all(x <= max(pages[:i], default=-1) + 1 for i, x in enumerate(pages)):
            yield pages


def policy_rows():
    """A row for each such list and each small capacity. Its front has each shorter list."""
    for c in range(1, 6):
        for pages in short_lists():
            text = ''.join(f'{x}\n' for x in pages)
            yield Row(f'the pages {pages}', ['paper', str(c)], 0, text, 0, [Policy(c).told(pages)])


def not_done(rows):
    """Tells which rows wait for lines that the program doesn't do yet."""
    waiting = [row.shows for row in rows if is_undone(row)]
    if waiting:
        words = ', '.join(sorted(undone.WORDS) + [f'{word} of one caller' for word in sorted(undone.ALONE)])
        print(f'traces: not done yet ({words}), and refused as they have to be: {len(waiting)} rows: {"; ".join(waiting)}')


def main():
    program = os.path.abspath(sys.argv[1])
    lines = [*ONE_CALLER, *SEVERAL]
    with tempfile.TemporaryDirectory(prefix='arc_tool.') as work:
        os.chdir(work)
        results = [is_right(program, row) for row in (*TRACES, *DEVICES, *lines, *start_rows(), *cut_rows(), *LISTS, *LOGS, *REFUSED, *policy_rows())]
        results += [is_load_right(program), are_many_kept(program), is_batch_fed(program), is_read_from_device(program), is_locked_pool_read(program)]
        load = Row('a load of four callers', ['run'], 8 * 131072, LOAD, 0, [])
        results += [is_log_right(program, row) for row in (*TRACES, *DEVICES, *lines, load) if row.status in (0, 1, 6, 8, None) and not is_undone(row)]
        os.chdir('/')
    not_done(lines)
    print(f'traces: {results.count(True)} rows right, {results.count(False)} wrong')
    sys.exit(not all(results))


if __name__ == '__main__':
    main()
