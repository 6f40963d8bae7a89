"""Traces with lines of every kind, for one caller and for several, each with all the reports that it may have.

One caller's were made by the plain simulation (compare/arc_sim.rs), and those of several by compare/several.py, which goes through every order; then they were read
through by hand. A device is spelled by devices.py.
"""
from devices import RING_END, Ring, fed, ring_of
from row import COUNTING, Row

AB, CD = b'\xab' * 512, b'\xcd' * 512


def newer():
    """A device of the older version with three blocks, to which a fourth was written, by the newer one."""
    ring = ring_of([bytes(512)] * 3, version=1)
    ring.version = 2
    return ring.feed(((1536, 512, 1), bytes(512))).image


NEWER = bytes(newer())

# A block of other bytes than its pointer has is asked for by a line of each kind; with any number of callers.
OTHER_BYTES = '''\
block 0 512 1 P
object 7 0 0
get 0 1 7 0 0 1
pin 0 2 7 0
patch 0 3 7 0 0 01
'''
OTHER_BYTES_REFUSED = '''\
arc 1
0 refused digest Z
1 refused digest Z
2 refused digest Z
e 0 0 miss 0 0 512 1 1
e 0 1 fail 0 0 512 1 pool
e 0 2 miss 0 0 512 1 2
e 0 3 fail 0 0 512 1 pool
e 0 4 miss 0 0 512 1 3
e 0 5 fail 0 0 512 1 pool
shard 0 c 4096 p 2048 anon 0 mru 0 mrug 0 mfu 0 mfug 0 l2 0
count hit 0 miss 3 past 0 pool 3 l2 0 pass 0 set 0
end 1
'''

ONE_CALLER = [
    Row('a block that is put is written by a sync', ['run', '--events'], 512, '''\
arc 1 1 16 1 4096 0 4096
put 0 1 7 0 512 ab
get 0 2 7 0 0 2
patch 0 3 7 0 511 0102
txg 4
get 0 5 7 0 511 1
''', 1, ['''\
arc 1
0 done
1 got 512 abab
2 refused window 513 512
3 txg 1 blocks 1 bytes 512
4 got 512 ab
e 0 0 insert 2 0 512 1 P 4
e 0 1 drop 2 0 512 1
shard 0 c 4096 p 2048 anon 0 mru 512 mrug 0 mfu 0 mfug 0 l2 0
count hit 0 miss 0 past 0 pool 0 l2 0 pass 0 set 0
end 1
'''], pool_after=AB),
    Row('the same over a pool that has no room for it', ['run', '--events'], 511, '''\
arc 1 1 16 1 4096 0 4096
put 0 1 7 0 512 ab
get 0 2 7 0 0 2
patch 0 3 7 0 511 0102
txg 4
get 0 5 7 0 511 1
''', 8, ['''\
arc 1
0 done
1 got 512 abab
2 refused window 513 512
shard 0 c 4096 p 2048 anon 0 mru 0 mrug 0 mfu 0 mfug 0 l2 0
count hit 0 miss 0 past 0 pool 0 l2 0 pass 0 set 0
end 8
''']),
    Row('a patch makes the block of a dbuf private', ['run', '--events'], 512, '''\
arc 1 1 16 1 4096 0 4096
block 0 512 1 Z
object 7 0 0
get 0 1 7 0 0 1
patch 0 2 7 0 0 ff
read 0 3 0 0 1
get 0 4 7 0 0 2
''', 0, ['''\
arc 1
0 got 512 00
1 done
2 ok pool Z 00
3 got 512 ff00
e 0 0 miss 0 0 512 1 1
e 0 1 arrive 0 0 512 1 Z pool
e 0 2 hand 0 0 512 1 2
e 0 3 release 2 0 512 1 sole
e 0 4 miss 0 0 512 1 3
e 0 5 arrive 0 0 512 1 Z pool
e 0 6 drop 0 0 512 1
shard 0 c 4096 p 2048 anon 0 mru 512 mrug 0 mfu 0 mfug 0 l2 0
count hit 0 miss 2 past 0 pool 2 l2 0 pass 0 set 0
end 0
''']),
    Row('the same where a caller keeps the block', ['run', '--events'], 512, '''\
arc 1 1 16 1 4096 0 4096
block 0 512 1 Z
object 7 0 0
hold 0 1 0
get 0 2 7 0 0 1
patch 0 3 7 0 0 ff
read 0 4 0 0 1
get 0 5 7 0 0 2
''', 0, ['''\
arc 1
0 held pool
1 got 512 00
2 done
3 ok hit Z 00
4 got 512 ff00
e 0 0 miss 0 0 512 1 1
e 0 1 arrive 0 0 512 1 Z pool
e 0 2 hit 0 0 512 1 2
e 0 3 hand 0 0 512 1 2
e 0 4 release 2 0 512 1 shared
e 0 5 hit 0 0 512 1 4
e 0 6 drop 0 0 512 1
e 0 7 drop 0 0 512 1
shard 0 c 4096 p 2048 anon 0 mru 0 mrug 0 mfu 512 mfug 0 l2 0
count hit 2 miss 1 past 0 pool 1 l2 0 pass 0 set 0
end 0
''']),
    Row('two dbufs, and room for one', ['run', '--events'], 1024, '''\
arc 1 1 16 1 4096 0 512
block 0 512 1 Z
block 512 512 1 Z
object 7 0 0
object 7 1 1
get 0 1 7 0 0 0
get 0 2 7 1 0 0
get 0 3 7 0 0 0
''', 0, ['''\
arc 1
0 got 512 -
1 got 512 -
2 got 512 -
e 0 0 miss 0 0 512 1 1
e 0 1 arrive 0 0 512 1 Z pool
e 0 2 hand 0 0 512 1 2
e 0 3 miss 0 512 512 1 2
e 0 4 arrive 0 512 512 1 Z pool
e 0 5 hand 0 512 512 1 2
e 0 6 drop 2 0 512 1
e 0 7 hit 0 0 512 1 3
e 0 8 hand 0 0 512 1 2
e 0 9 drop 2 512 512 1
e 0 10 drop 2 0 512 1
shard 0 c 4096 p 2048 anon 0 mru 512 mrug 0 mfu 512 mfug 0 l2 0
count hit 1 miss 2 past 0 pool 2 l2 0 pass 0 set 0
end 0
''']),
    Row('no pin to end', ['run', '--events'], 0, '''\
arc 1 1 16 1 4096 0 4096
unpin 0 7 0
''', 1, ['''\
arc 1
0 refused pin 7 0
shard 0 c 4096 p 2048 anon 0 mru 0 mrug 0 mfu 0 mfug 0 l2 0
count hit 0 miss 0 past 0 pool 0 l2 0 pass 0 set 0
end 1
''']),
    Row('no block of that name', ['run', '--events'], 0, '''\
arc 1 1 16 1 4096 0 4096
get 0 1 9 9 0 0
patch 0 2 9 9 0 00
pin 0 3 9 9
''', 1, ['''\
arc 1
0 refused block 9 9
1 refused block 9 9
2 refused block 9 9
shard 0 c 4096 p 2048 anon 0 mru 0 mrug 0 mfu 0 mfug 0 l2 0
count hit 0 miss 0 past 0 pool 0 l2 0 pass 0 set 0
end 1
''']),
    Row('a pinned dbuf stays past the limit', ['run', '--events'], 1536, '''\
arc 1 1 16 1 4096 0 512
block 0 512 1 Z
block 512 512 1 Z
block 1024 512 1 Z
object 7 0 0
object 7 1 1
object 7 2 2
pin 0 1 7 0
get 0 2 7 1 0 0
get 0 3 7 2 0 0
unpin 0 7 0
unpin 0 7 0
get 0 4 7 0 0 0
''', 1, ['''\
arc 1
0 done
1 got 512 -
2 got 512 -
3 done
4 refused pin 7 0
5 got 512 -
e 0 0 miss 0 0 512 1 1
e 0 1 arrive 0 0 512 1 Z pool
e 0 2 hand 0 0 512 1 2
e 0 3 miss 0 512 512 1 2
e 0 4 arrive 0 512 512 1 Z pool
e 0 5 hand 0 512 512 1 2
e 0 6 miss 0 1024 512 1 3
e 0 7 arrive 0 1024 512 1 Z pool
e 0 8 hand 0 1024 512 1 2
e 0 9 drop 2 512 512 1
e 0 10 drop 2 1024 512 1
e 0 11 drop 2 0 512 1
shard 0 c 4096 p 2048 anon 0 mru 1536 mrug 0 mfu 0 mfug 0 l2 0
count hit 0 miss 3 past 0 pool 3 l2 0 pass 0 set 0
end 1
''']),
    Row('a put over a dbuf lets its block go, and gives the block another size', ['run', '--events'], 1024, '''\
arc 1 1 16 1 4096 0 4096
block 0 512 1 Z
object 7 0 0
get 0 1 7 0 0 1
put 0 2 7 0 1024 ab
get 0 3 7 0 1022 2
get 0 4 7 0 1023 2
''', 1, ['''\
arc 1
0 got 512 00
1 done
2 got 1024 abab
3 refused window 1025 1024
e 0 0 miss 0 0 512 1 1
e 0 1 arrive 0 0 512 1 Z pool
e 0 2 hand 0 0 512 1 2
e 0 3 release 2 0 512 1 sole
shard 0 c 4096 p 2048 anon 0 mru 0 mrug 0 mfu 0 mfug 0 l2 0
count hit 0 miss 1 past 0 pool 1 l2 0 pass 0 set 0
end 1
''']),
    Row('reads of dbufs that are refused', ['run', '--events'], 1024, '''\
arc 1 1 16 1 4096 0 4096
block 0 512 1 F
block 0 512 1 Z
block 1024 512 1 Z
block 1 512 1 Z
object 7 0 0
object 7 1 1
object 7 2 2
object 7 3 3
get 0 1 7 0 0 1
read 0 2 1 0 0
patch 0 3 7 0 0 00
pin 0 4 7 2
get 0 5 7 3 512 1
get 0 6 7 3 0 1
get 0 7 7 1 0 1
''', 1, ['''\
arc 1
0 refused digest Z
1 ok pool Z -
2 refused digest Z
3 refused key range 1536 1024
4 refused window 513 512
5 refused key unaligned
6 got 512 00
e 0 0 miss 0 0 512 1 1
e 0 1 fail 0 0 512 1 pool
e 0 2 miss 0 0 512 1 2
e 0 3 arrive 0 0 512 1 Z pool
e 0 4 drop 0 0 512 1
e 0 5 past 0 0 512 1 Z
e 0 6 hit 0 0 512 1 7
e 0 7 hand 0 0 512 1 2
e 0 8 drop 2 0 512 1
shard 0 c 4096 p 2048 anon 0 mru 0 mrug 0 mfu 512 mfug 0 l2 0
count hit 1 miss 2 past 1 pool 3 l2 0 pass 0 set 0
end 1
''']),
    Row('a dbuf of a block that goes past the cache keeps no hold', ['run', '--events'], COUNTING, '''\
arc 1 1 16 1 4096 0 0
block 0 512 1 N
block 0 512 1 F
object 7 0 0
object 7 1 1
read 0 1 0 0 0
get 0 2 7 1 0 0
get 0 3 7 0 510 2
''', 1, ['''\
arc 1
0 ok pool N -
1 refused digest N
2 got 512 feff
e 0 0 miss 0 0 512 1 1
e 0 1 arrive 0 0 512 1 N pool
e 0 2 drop 0 0 512 1
e 0 3 past 0 0 512 1 N
e 0 4 hit 0 0 512 1 3
e 0 5 hand 0 0 512 1 2
e 0 6 drop 2 0 512 1
shard 0 c 4096 p 2048 anon 0 mru 0 mrug 0 mfu 512 mfug 0 l2 0
count hit 1 miss 1 past 1 pool 2 l2 0 pass 0 set 0
end 1
''']),
    Row('each sync goes on behind the one before, and the group is the birth', ['run', '--events'], 4096, '''\
arc 1 1 16 1 4096 0 4096
block 0 512 1 Z
object 7 0 0
put 0 1 9 0 512 ab
patch 0 2 7 0 0 ff
txg 3
cap 8192
txg 4
put 0 5 7 0 512 cd
txg 6
read 0 7 0 0 2
get 0 8 7 0 0 1
get 0 9 9 0 0 1
''', 0, ['''\
arc 1
0 done
1 done
2 txg 1 blocks 2 bytes 1024
3 cap 8192
4 txg 3 blocks 0 bytes 0
5 done
6 txg 4 blocks 1 bytes 512
7 ok pool Z 0000
8 got 512 cd
9 got 512 ab
e 0 0 miss 0 0 512 1 2
e 0 1 arrive 0 0 512 1 Z pool
e 0 2 hand 0 0 512 1 2
e 0 3 release 2 0 512 1 sole
e 0 4 insert 2 512 512 1 R 3
e 0 5 insert 2 1024 512 1 P 3
e 0 6 resize 1 8192
e 0 7 release 2 512 512 1 sole
e 0 8 insert 2 1536 512 4 Q 6
e 0 9 miss 0 0 512 1 7
e 0 10 arrive 0 0 512 1 Z pool
e 0 11 drop 0 0 512 1
e 0 12 drop 2 1536 512 4
e 0 13 drop 2 1024 512 1
shard 0 c 8192 p 2048 anon 0 mru 1536 mrug 0 mfu 0 mfug 0 l2 0
count hit 0 miss 2 past 0 pool 2 l2 0 pass 0 set 0
end 0
'''], pool_after=bytes(512) + b'\xff' + bytes(511) + AB + CD + bytes(2048)),
    Row('blocks of several cells are written by rising object and block', ['run', '--events'], 2048, '''\
arc 1 1 16 3 8192 0 4096
put 0 1 8 0 512 cd
put 0 2 7 1 512 ab
put 0 3 7 0 512 00
put 0 4 6 5 512 ab
txg 5
''', 0, ['''\
arc 1
0 done
1 done
2 done
3 done
4 txg 1 blocks 4 bytes 2048
e 0 0 insert 4 0 512 1 P 5
e 0 1 insert 3 512 512 1 Z 5
e 0 2 insert 4 1024 512 1 P 5
e 0 3 insert 4 1536 512 1 Q 5
e 0 4 drop 3 512 512 1
e 0 5 drop 4 0 512 1
e 0 6 drop 4 1024 512 1
e 0 7 drop 4 1536 512 1
shard 0 c 8192 p 4096 anon 0 mru 2048 mrug 0 mfu 0 mfug 0 l2 0
count hit 0 miss 0 past 0 pool 0 l2 0 pass 0 set 0
end 0
'''], pool_after=AB + bytes(512) + AB + CD),
    Row('a second sync that has no room leaves what the first one wrote', ['run', '--events'], 1024, '''\
arc 1 1 16 1 4096 0 4096
put 0 1 7 0 512 ab
txg 2
put 0 3 7 1 512 cd
put 0 4 7 2 512 cd
get 0 5 7 1 0 1
txg 6
get 0 7 7 0 0 1
''', 8, ['''\
arc 1
0 done
1 txg 1 blocks 1 bytes 512
2 done
3 done
4 got 512 cd
e 0 0 insert 2 0 512 1 P 2
e 0 1 drop 2 0 512 1
shard 0 c 4096 p 2048 anon 0 mru 512 mrug 0 mfu 0 mfug 0 l2 0
count hit 0 miss 0 past 0 pool 0 l2 0 pass 0 set 0
end 8
'''], pool_after=AB + bytes(512)),
    Row('a sync of nothing, and lines behind it', ['run', '--events'], 512, '''\
arc 1 1 16 1 4096 0 4096
block 0 512 1 Z
txg 1
read 0 2 0 0 1
txg 3
''', 0, ['''\
arc 1
0 txg 1 blocks 0 bytes 0
1 ok pool Z 00
2 txg 2 blocks 0 bytes 0
e 0 0 miss 0 0 512 1 2
e 0 1 arrive 0 0 512 1 Z pool
e 0 2 drop 0 0 512 1
shard 0 c 4096 p 2048 anon 0 mru 512 mrug 0 mfu 0 mfug 0 l2 0
count hit 0 miss 1 past 0 pool 1 l2 0 pass 0 set 0
end 0
''']),
    Row('dbufs that may keep nothing', ['run', '--events'], 512, '''\
arc 1 1 16 1 4096 0 0
block 0 512 1 Z
object 7 0 0
get 0 1 7 0 0 1
get 0 2 7 0 1 1
pin 0 3 7 0
get 0 4 7 0 2 1
unpin 0 7 0
''', 0, ['''\
arc 1
0 got 512 00
1 got 512 00
2 done
3 got 512 00
4 done
e 0 0 miss 0 0 512 1 1
e 0 1 arrive 0 0 512 1 Z pool
e 0 2 hand 0 0 512 1 2
e 0 3 drop 2 0 512 1
e 0 4 hit 0 0 512 1 2
e 0 5 hand 0 0 512 1 2
e 0 6 drop 2 0 512 1
e 0 7 hit 0 0 512 1 3
e 0 8 hand 0 0 512 1 2
e 0 9 drop 2 0 512 1
shard 0 c 4096 p 2048 anon 0 mru 0 mrug 0 mfu 512 mfug 0 l2 0
count hit 2 miss 1 past 0 pool 1 l2 0 pass 0 set 0
end 0
''']),
    Row('a write of a part that reaches to the end of the block', ['run', '--events'], 512, '''\
arc 1 1 16 1 4096 0 4096
block 0 512 1 Z
object 7 0 0
patch 0 1 7 0 448 ffffffffffffffffffffffffffffffffffffffffffffffffffffffffffffffffffffffffffffffffffffffffffffffffffffffffffffffffffffffffffffffff
patch 0 2 7 0 449 ffffffffffffffffffffffffffffffffffffffffffffffffffffffffffffffffffffffffffffffffffffffffffffffffffffffffffffffffffffffffffffffff
get 0 3 7 0 447 3
''', 1, ['''\
arc 1
0 done
1 refused window 513 512
2 got 512 00ffff
e 0 0 miss 0 0 512 1 1
e 0 1 arrive 0 0 512 1 Z pool
e 0 2 hand 0 0 512 1 2
e 0 3 release 2 0 512 1 sole
shard 0 c 4096 p 2048 anon 0 mru 0 mrug 0 mfu 0 mfug 0 l2 0
count hit 0 miss 1 past 0 pool 1 l2 0 pass 0 set 0
end 1
''']),
    Row('a block comes back from the device', ['run', '--events'], 8192, '''\
arc 1 1 16 1 4096 0 4096
block 0 2048 1 X
block 2048 2048 1 X
block 4096 2048 1 X
block 6144 2048 1 X
read 0 1 0 0 0
feed
read 0 2 1 0 0
read 0 3 2 0 0
read 0 4 3 0 0
read 0 5 0 0 0
''', 0, ['''\
arc 1
0 ok pool X -
1 feed picked 1 bytes 2048 written 1 cleared 0 ok
2 ok pool X -
3 ok pool X -
4 ok pool X -
5 ok l2 X -
e 0 0 miss 0 0 2048 1 1
e 0 1 arrive 0 0 2048 1 X pool
e 0 2 drop 0 0 2048 1
e 0 3 pick 1 0 2048 1
e 0 4 feedend 1
e 0 5 set 1 0 2048 1 4096
e 0 6 miss 0 2048 2048 1 2
e 0 7 arrive 0 2048 2048 1 X pool
e 0 8 drop 0 2048 2048 1
e 0 9 miss 0 4096 2048 1 3
e 0 10 arrive 0 4096 2048 1 X pool
e 0 11 drop 0 4096 2048 1
e 0 12 miss 0 6144 2048 1 4
e 0 13 arrive 0 6144 2048 1 X pool
e 0 14 drop 0 6144 2048 1
e 0 15 miss 0 0 2048 1 5
e 0 16 arrive 0 0 2048 1 X l2
e 0 17 drop 0 0 2048 1
shard 0 c 4096 p 2048 anon 0 mru 2048 mrug 2048 mfu 2048 mfug 0 l2 0
count hit 0 miss 5 past 0 pool 4 l2 1 pass 0 set 1
rebuilt 0 header magic
end 0
'''], bytes(RING_END), device_after=fed([bytes(2048)])),
    Row('a feed of a device that is too short', ['run', '--events'], 512, '''\
arc 1 1 16 1 4096 0 4096
block 0 512 1 Z
read 0 1 0 0 0
feed
''', 0, ['''\
arc 1
0 ok pool Z -
1 feed none
e 0 0 miss 0 0 512 1 1
e 0 1 arrive 0 0 512 1 Z pool
e 0 2 drop 0 0 512 1
shard 0 c 4096 p 2048 anon 0 mru 512 mrug 0 mfu 0 mfug 0 l2 0
count hit 0 miss 1 past 0 pool 1 l2 0 pass 0 set 0
rebuilt 0 short
end 0
'''], bytes(512)),
    Row('a feed of no device', ['run', '--events'], 512, '''\
arc 1 1 16 1 4096 0 4096
block 0 512 1 Z
read 0 1 0 0 0
feed
''', 0, ['''\
arc 1
0 ok pool Z -
1 feed none
e 0 0 miss 0 0 512 1 1
e 0 1 arrive 0 0 512 1 Z pool
e 0 2 drop 0 0 512 1
shard 0 c 4096 p 2048 anon 0 mru 512 mrug 0 mfu 0 mfug 0 l2 0
count hit 0 miss 1 past 0 pool 1 l2 0 pass 0 set 0
end 0
''']),
    Row('three feeds, one block each', ['run'], 2048, '''\
arc 1 1 16 1 4096 0 4096
block 0 512 1 Z
block 512 512 1 Z
block 1024 512 1 Z
block 1536 512 1 Z
read 0 1 0 0 0
feed
read 0 2 1 0 0
feed
read 0 3 2 0 0
feed
''', 0, ['''\
arc 1
0 ok pool Z -
1 feed picked 1 bytes 512 written 1 cleared 0 ok
2 ok pool Z -
3 feed picked 1 bytes 512 written 1 cleared 0 ok
4 ok pool Z -
5 feed picked 1 bytes 512 written 1 cleared 0 ok
shard 0 c 4096 p 2048 anon 0 mru 1536 mrug 0 mfu 0 mfug 0 l2 0
count hit 0 miss 3 past 0 pool 3 l2 0 pass 0 set 3
rebuilt 0 header magic
end 0
'''], bytes(RING_END), device_after=fed([bytes(512)] * 3)),
    Row('a fourth feed wraps, and takes the place of the first block', ['run', '--events'], 2048, '''\
arc 1 1 16 1 4096 0 4096
block 0 512 1 Z
block 512 512 1 Z
block 1024 512 1 Z
block 1536 512 1 Z
read 0 1 0 0 0
feed
read 0 2 1 0 0
feed
read 0 3 2 0 0
feed
read 0 4 3 0 0
feed
''', 0, ['''\
arc 1
0 ok pool Z -
1 feed picked 1 bytes 512 written 1 cleared 0 ok
2 ok pool Z -
3 feed picked 1 bytes 512 written 1 cleared 0 ok
4 ok pool Z -
5 feed picked 1 bytes 512 written 1 cleared 0 ok
6 ok pool Z -
7 feed picked 1 bytes 512 written 1 cleared 1 ok
e 0 0 miss 0 0 512 1 1
e 0 1 arrive 0 0 512 1 Z pool
e 0 2 drop 0 0 512 1
e 0 3 pick 1 0 512 1
e 0 4 feedend 1
e 0 5 set 1 0 512 1 4096
e 0 6 miss 0 512 512 1 2
e 0 7 arrive 0 512 512 1 Z pool
e 0 8 drop 0 512 512 1
e 0 9 pick 1 512 512 1
e 0 10 feedend 1
e 0 11 set 1 512 512 1 70144
e 0 12 miss 0 1024 512 1 3
e 0 13 arrive 0 1024 512 1 Z pool
e 0 14 drop 0 1024 512 1
e 0 15 pick 1 1024 512 1
e 0 16 feedend 1
e 0 17 set 1 1024 512 1 136192
e 0 18 miss 0 1536 512 1 4
e 0 19 arrive 0 1536 512 1 Z pool
e 0 20 drop 0 1536 512 1
e 0 21 pick 1 1536 512 1
e 0 22 feedend 1
e 0 23 clear 1 0 512 1
e 0 24 set 1 1536 512 1 4096
shard 0 c 4096 p 2048 anon 0 mru 2048 mrug 0 mfu 0 mfug 0 l2 0
count hit 0 miss 4 past 0 pool 4 l2 0 pass 0 set 4
rebuilt 0 header magic
end 0
'''], bytes(RING_END), device_after=fed([bytes(512)] * 4)),
    Row('what the wrapped device has', ['run', '--events'], 2048, '''\
arc 1 1 16 1 4096 0 4096
block 0 512 1 Z
block 512 512 1 Z
block 1024 512 1 Z
block 1536 512 1 Z
read 0 1 3 0 0
read 0 2 2 0 0
read 0 3 1 0 0
read 0 4 0 0 0
''', 0, ['''\
arc 1
0 ok l2 Z -
1 ok l2 Z -
2 ok l2 Z -
3 ok pool Z -
e 0 0 restore 1 1536 512 1 4096 Z
e 0 1 restore 1 1024 512 1 136192 Z
e 0 2 restore 1 512 512 1 70144 Z
e 0 3 miss 0 1536 512 1 1
e 0 4 arrive 0 1536 512 1 Z l2
e 0 5 drop 0 1536 512 1
e 0 6 miss 0 1024 512 1 2
e 0 7 arrive 0 1024 512 1 Z l2
e 0 8 drop 0 1024 512 1
e 0 9 miss 0 512 512 1 3
e 0 10 arrive 0 512 512 1 Z l2
e 0 11 drop 0 512 512 1
e 0 12 miss 0 0 512 1 4
e 0 13 arrive 0 0 512 1 Z pool
e 0 14 drop 0 0 512 1
shard 0 c 4096 p 2048 anon 0 mru 512 mrug 0 mfu 1536 mfug 0 l2 0
count hit 0 miss 4 past 0 pool 1 l2 3 pass 0 set 0
rebuilt 3 block digest
end 0
'''], fed([bytes(512)] * 4)),
    Row('a feed of a device of the older version', ['run', '--events'], 2048, '''\
arc 1 1 16 1 4096 0 4096
block 0 512 1 Z
block 512 512 1 Z
block 1024 512 1 Z
block 1536 512 1 Z
read 0 1 3 0 0
feed
''', 0, ['''\
arc 1
0 ok pool Z -
1 feed picked 1 bytes 512 written 1 cleared 1 ok
e 0 0 restore 1 1024 512 1 136192 -
e 0 1 restore 1 512 512 1 70144 -
e 0 2 restore 1 0 512 1 4096 -
e 0 3 miss 0 1536 512 1 1
e 0 4 arrive 0 1536 512 1 Z pool
e 0 5 drop 0 1536 512 1
e 0 6 pick 1 1536 512 1
e 0 7 feedend 1
e 0 8 clear 1 0 512 1
e 0 9 set 1 1536 512 1 4096
shard 0 c 4096 p 2048 anon 0 mru 512 mrug 0 mfu 0 mfug 0 l2 1024
count hit 0 miss 1 past 0 pool 1 l2 0 pass 0 set 1
rebuilt 3 zero
end 0
'''], fed([bytes(512)] * 3, version=1), device_after=NEWER),
    Row('the device behind that', ['run', '--events'], 2048, '''\
arc 1 1 16 1 4096 0 4096
block 0 512 1 Z
block 512 512 1 Z
block 1024 512 1 Z
block 1536 512 1 Z
''', 0, ['''\
arc 1
e 0 0 restore 1 1536 512 1 4096 Z
e 0 1 restore 1 1024 512 1 136192 -
e 0 2 restore 1 512 512 1 70144 -
shard 0 c 4096 p 2048 anon 0 mru 0 mrug 0 mfu 0 mfug 0 l2 1536
count hit 0 miss 0 past 0 pool 0 l2 0 pass 0 set 0
rebuilt 3 block digest
end 0
'''], NEWER),
    Row('a feed of many small blocks, of which the bound lets two in', ['run', '--events'], 4096, '''\
arc 1 1 16 1 4096 0 4096
l2 1024 4
block 0 512 1 Z
block 512 512 1 Z
block 1024 512 1 Z
block 1536 512 1 Z
block 2048 512 1 Z
block 2560 512 1 Z
read 0 1 0 0 0
read 0 2 1 0 0
read 0 3 2 0 0
read 0 4 3 0 0
read 0 5 4 0 0
read 0 6 5 0 0
feed
feed
''', 0, ['''\
arc 1
0 ok pool Z -
1 ok pool Z -
2 ok pool Z -
3 ok pool Z -
4 ok pool Z -
5 ok pool Z -
6 feed picked 2 bytes 1024 written 2 cleared 0 ok
7 feed picked 2 bytes 1024 written 2 cleared 0 ok
e 0 0 miss 0 0 512 1 1
e 0 1 arrive 0 0 512 1 Z pool
e 0 2 drop 0 0 512 1
e 0 3 miss 0 512 512 1 2
e 0 4 arrive 0 512 512 1 Z pool
e 0 5 drop 0 512 512 1
e 0 6 miss 0 1024 512 1 3
e 0 7 arrive 0 1024 512 1 Z pool
e 0 8 drop 0 1024 512 1
e 0 9 miss 0 1536 512 1 4
e 0 10 arrive 0 1536 512 1 Z pool
e 0 11 drop 0 1536 512 1
e 0 12 miss 0 2048 512 1 5
e 0 13 arrive 0 2048 512 1 Z pool
e 0 14 drop 0 2048 512 1
e 0 15 miss 0 2560 512 1 6
e 0 16 arrive 0 2560 512 1 Z pool
e 0 17 drop 0 2560 512 1
e 0 18 pick 1 0 512 1
e 0 19 pick 1 512 512 1
e 0 20 feedend 1
e 0 21 set 1 0 512 1 4096
e 0 22 set 1 512 512 1 4608
e 0 23 pick 1 1024 512 1
e 0 24 pick 1 1536 512 1
e 0 25 feedend 1
e 0 26 set 1 1024 512 1 70656
e 0 27 set 1 1536 512 1 71168
shard 0 c 4096 p 2048 anon 0 mru 3072 mrug 0 mfu 0 mfug 0 l2 0
count hit 0 miss 6 past 0 pool 6 l2 0 pass 0 set 4
rebuilt 0 header magic
end 0
'''], bytes(RING_END), device_after=Ring().feed(((0, 512, 1), bytes(512)), ((512, 512, 1), bytes(512))).feed(((1024, 512, 1), bytes(512)), ((1536, 512, 1), bytes(512))).image),
    Row('what is held, and what was written already, is not picked', ['run', '--events'], 2048, '''\
arc 1 1 16 1 4096 0 4096
block 0 512 1 Z
block 512 512 1 Z
block 1024 512 1 Z
hold 0 1 0
read 0 2 1 0 0
feed
feed
drop 0 0
read 0 3 2 0 0
feed
''', 0, ['''\
arc 1
0 held pool
1 ok pool Z -
2 feed picked 1 bytes 512 written 1 cleared 0 ok
3 feed picked 0 bytes 0 written 0 cleared 0 ok
4 dropped
5 ok pool Z -
6 feed picked 2 bytes 1024 written 2 cleared 0 ok
e 0 0 miss 0 0 512 1 1
e 0 1 arrive 0 0 512 1 Z pool
e 0 2 miss 0 512 512 1 2
e 0 3 arrive 0 512 512 1 Z pool
e 0 4 drop 0 512 512 1
e 0 5 pick 1 512 512 1
e 0 6 feedend 1
e 0 7 set 1 512 512 1 4096
e 0 8 feedend 1
e 0 9 drop 0 0 512 1
e 0 10 miss 0 1024 512 1 3
e 0 11 arrive 0 1024 512 1 Z pool
e 0 12 drop 0 1024 512 1
e 0 13 pick 1 0 512 1
e 0 14 pick 1 1024 512 1
e 0 15 feedend 1
e 0 16 set 1 0 512 1 70144
e 0 17 set 1 1024 512 1 70656
shard 0 c 4096 p 2048 anon 0 mru 1536 mrug 0 mfu 0 mfug 0 l2 0
count hit 0 miss 3 past 0 pool 3 l2 0 pass 0 set 3
rebuilt 0 header magic
end 0
'''], bytes(RING_END), device_after=Ring().feed(((512, 512, 1), bytes(512))).feed(((0, 512, 1), bytes(512)), ((1024, 512, 1), bytes(512))).image),
    Row('the oldest of MFU are picked before those of MRU', ['run', '--events'], 2048, '''\
arc 1 1 16 1 4096 0 4096
l2 512 64
block 0 512 1 Z
block 512 512 1 Z
block 1024 512 1 Z
read 0 1 0 0 0
read 0 2 1 0 0
read 0 3 2 0 0
read 0 4 2 0 0
feed
feed
''', 0, ['''\
arc 1
0 ok pool Z -
1 ok pool Z -
2 ok pool Z -
3 ok hit Z -
4 feed picked 1 bytes 512 written 1 cleared 0 ok
5 feed picked 1 bytes 512 written 1 cleared 0 ok
e 0 0 miss 0 0 512 1 1
e 0 1 arrive 0 0 512 1 Z pool
e 0 2 drop 0 0 512 1
e 0 3 miss 0 512 512 1 2
e 0 4 arrive 0 512 512 1 Z pool
e 0 5 drop 0 512 512 1
e 0 6 miss 0 1024 512 1 3
e 0 7 arrive 0 1024 512 1 Z pool
e 0 8 drop 0 1024 512 1
e 0 9 hit 0 1024 512 1 4
e 0 10 drop 0 1024 512 1
e 0 11 pick 1 1024 512 1
e 0 12 feedend 1
e 0 13 set 1 1024 512 1 4096
e 0 14 pick 1 0 512 1
e 0 15 feedend 1
e 0 16 set 1 0 512 1 70144
shard 0 c 4096 p 2048 anon 0 mru 1024 mrug 0 mfu 512 mfug 0 l2 0
count hit 1 miss 3 past 0 pool 3 l2 0 pass 0 set 2
rebuilt 0 header magic
end 0
'''], bytes(RING_END), device_after=Ring().feed(((1024, 512, 1), bytes(512))).feed(((0, 512, 1), bytes(512))).image),
    Row('feeds of two shards, one behind the other', ['run', '--events'], 4096, '''\
arc 1 2 16 1 4096 0 4096
block 0 512 1 Z
block 512 512 1 Z
block 1024 512 1 Z
block 1536 512 1 Z
read 0 1 0 0 0
read 0 2 1 0 0
read 0 3 2 0 0
read 0 4 3 0 0
feed
''', 0, ['''\
arc 1
0 ok pool Z -
1 ok pool Z -
2 ok pool Z -
3 ok pool Z -
4 feed picked 4 bytes 2048 written 4 cleared 0 ok
e 0 0 miss 0 0 512 1 1
e 0 1 arrive 0 0 512 1 Z pool
e 0 2 drop 0 0 512 1
e 0 3 miss 0 512 512 1 2
e 0 4 arrive 0 512 512 1 Z pool
e 0 5 drop 0 512 512 1
e 0 6 miss 0 1024 512 1 3
e 0 7 arrive 0 1024 512 1 Z pool
e 0 8 drop 0 1024 512 1
e 0 9 pick 1 0 512 1
e 0 10 pick 1 512 512 1
e 0 11 pick 1 1024 512 1
e 0 12 feedend 1
e 0 13 set 1 0 512 1 4096
e 0 14 set 1 512 512 1 4608
e 0 15 set 1 1024 512 1 5120
e 1 0 miss 0 1536 512 1 4
e 1 1 arrive 0 1536 512 1 Z pool
e 1 2 drop 0 1536 512 1
e 1 3 pick 1 1536 512 1
e 1 4 feedend 1
e 1 5 set 1 1536 512 1 71168
shard 0 c 4096 p 2048 anon 0 mru 1536 mrug 0 mfu 0 mfug 0 l2 0
shard 1 c 4096 p 2048 anon 0 mru 512 mrug 0 mfu 0 mfug 0 l2 0
count hit 0 miss 4 past 0 pool 4 l2 0 pass 0 set 4
rebuilt 0 header magic
end 0
'''], bytes(RING_END), device_after=Ring().feed(((0, 512, 1), bytes(512)), ((512, 512, 1), bytes(512)), ((1024, 512, 1), bytes(512))).feed(((1536, 512, 1), bytes(512))).image),
    Row('blocks that a sync wrote are fed once no dbuf keeps them', ['run', '--events'], 1024, '''\
arc 1 1 16 1 4096 0 0
put 0 1 7 0 512 ab
put 0 2 7 1 512 cd
txg 3
feed
get 0 4 7 0 0 1
feed
''', 0, ['''\
arc 1
0 done
1 done
2 txg 1 blocks 2 bytes 1024
3 feed picked 0 bytes 0 written 0 cleared 0 ok
4 got 512 ab
5 feed picked 2 bytes 1024 written 2 cleared 0 ok
e 0 0 insert 2 0 512 1 P 3
e 0 1 insert 2 512 512 1 Q 3
e 0 2 feedend 1
e 0 3 drop 2 512 512 1
e 0 4 drop 2 0 512 1
e 0 5 pick 1 512 512 1
e 0 6 pick 1 0 512 1
e 0 7 feedend 1
e 0 8 set 1 512 512 1 4096
e 0 9 set 1 0 512 1 4608
shard 0 c 4096 p 2048 anon 0 mru 1024 mrug 0 mfu 0 mfug 0 l2 0
count hit 0 miss 0 past 0 pool 0 l2 0 pass 0 set 2
rebuilt 0 header magic
end 0
'''], bytes(RING_END), pool_after=AB + CD, device_after=Ring().feed(((512, 512, 1), CD), ((0, 512, 1), AB)).image),
    Row('the run behind it finds them by their digests', ['run', '--events'], bytes(1024), '''\
arc 1 1 16 1 4096 0 4096
block 0 512 1 P
block 512 512 1 Q
object 7 0 1
read 0 1 0 0 2
get 0 2 7 0 0 2
''', 0, ['''\
arc 1
0 ok l2 P abab
1 got 512 cdcd
e 0 0 restore 1 0 512 1 4608 P
e 0 1 restore 1 512 512 1 4096 Q
e 0 2 miss 0 0 512 1 1
e 0 3 arrive 0 0 512 1 P l2
e 0 4 drop 0 0 512 1
e 0 5 miss 0 512 512 1 2
e 0 6 arrive 0 512 512 1 Q l2
e 0 7 hand 0 512 512 1 2
e 0 8 drop 2 512 512 1
shard 0 c 4096 p 2048 anon 0 mru 0 mrug 0 mfu 1024 mfug 0 l2 0
count hit 0 miss 2 past 0 pool 0 l2 2 pass 0 set 0
rebuilt 2 zero
end 0
'''], Ring().feed(((512, 512, 1), CD), ((0, 512, 1), AB)).image),
    Row('whatever a line asks of a block, other bytes than its pointer has are refused', ['run', '--events'], 512, 'arc 1 1 16 1 4096 0 4096\n' + OTHER_BYTES, 1, [OTHER_BYTES_REFUSED]),
]

SEVERAL = [
    Row('other bytes than a pointer has are refused with two callers too', ['run', '--events'], 512, 'arc 2 1 16 1 4096 0 4096\n' + OTHER_BYTES, 1, [OTHER_BYTES_REFUSED]),
    Row('what is evicted is dropped before a capacity that comes behind', ['run', '--events'], 6144, '''\
arc 2 1 16 1 8192 0 0
block 0 2048 1 X
block 2048 2048 1 X
block 4096 2048 1 X
object 7 0 0
object 7 1 1
object 7 2 2
get 0 1 7 0 0 0
get 0 2 7 1 0 0
get 0 3 7 2 0 0
cap 4096
''', 0, ['''\
arc 1
0 got 2048 -
1 got 2048 -
2 got 2048 -
3 cap 4096
e 0 0 miss 0 0 2048 1 1
e 0 1 arrive 0 0 2048 1 X pool
e 0 2 hand 0 0 2048 1 3
e 0 3 drop 3 0 2048 1
e 0 4 miss 0 2048 2048 1 2
e 0 5 arrive 0 2048 2048 1 X pool
e 0 6 hand 0 2048 2048 1 3
e 0 7 drop 3 2048 2048 1
e 0 8 miss 0 4096 2048 1 3
e 0 9 arrive 0 4096 2048 1 X pool
e 0 10 hand 0 4096 2048 1 3
e 0 11 drop 3 4096 2048 1
e 0 12 resize 2 4096
shard 0 c 4096 p 3840 anon 0 mru 4096 mrug 0 mfu 0 mfug 0 l2 0
count hit 0 miss 3 past 0 pool 3 l2 0 pass 0 set 0
end 0
''']),
    Row('a caller that has seen a block sees it again', ['run'], 512, '''\
arc 2 1 16 1 4096 0 4096
put 0 1 7 0 512 ab
get 1 2 7 0 2000 1
get 1 3 7 0 0 0
''', 1, ['''\
arc 1
0 done
1 refused window 2001 512
2 got 512 -
shard 0 c 4096 p 2048 anon 0 mru 0 mrug 0 mfu 0 mfug 0 l2 0
count hit 0 miss 0 past 0 pool 0 l2 0 pass 0 set 0
end 1
''', '''\
arc 1
0 done
1 refused block 7 0
2 got 512 -
shard 0 c 4096 p 2048 anon 0 mru 0 mrug 0 mfu 0 mfug 0 l2 0
count hit 0 miss 0 past 0 pool 0 l2 0 pass 0 set 0
end 1
''', '''\
arc 1
0 done
1 refused block 7 0
2 refused block 7 0
shard 0 c 4096 p 2048 anon 0 mru 0 mrug 0 mfu 0 mfug 0 l2 0
count hit 0 miss 0 past 0 pool 0 l2 0 pass 0 set 0
end 1
''']),
    Row('two callers show one block of an object, and one of them reads the pool', ['run'], 512, '''\
arc 2 1 16 1 4096 0 4096
block 0 512 1 Z
object 7 0 0
get 0 1 7 0 0 1
get 1 1 7 0 1 1
''', 0, ['''\
arc 1
0 got 512 00
1 got 512 00
shard 0 c 4096 p 2048 anon 0 mru 512 mrug 0 mfu 0 mfug 0 l2 0
count hit 0 miss 1 past 0 pool 1 l2 0 pass 0 set 0
end 0
''']),
    Row('the same where a dbuf may keep nothing', ['run'], 512, '''\
arc 2 1 16 1 4096 0 0
block 0 512 1 Z
object 7 0 0
get 0 1 7 0 0 1
get 1 5 7 0 1 1
''', 0, ['''\
arc 1
0 got 512 00
1 got 512 00
shard 0 c 4096 p 2048 anon 0 mru 0 mrug 0 mfu 512 mfug 0 l2 0
count hit 1 miss 1 past 0 pool 1 l2 0 pass 0 set 0
end 0
''', '''\
arc 1
0 got 512 00
1 got 512 00
shard 0 c 4096 p 2048 anon 0 mru 512 mrug 0 mfu 0 mfug 0 l2 0
count hit 1 miss 1 past 0 pool 1 l2 0 pass 0 set 0
end 0
''']),
    Row('a block is put by one caller, and shown by another before it or behind it', ['run'], 512, '''\
arc 2 1 16 1 4096 0 4096
put 0 1 7 0 512 ab
get 1 1 7 0 0 1
''', None, ['''\
arc 1
0 done
1 got 512 ab
shard 0 c 4096 p 2048 anon 0 mru 0 mrug 0 mfu 0 mfug 0 l2 0
count hit 0 miss 0 past 0 pool 0 l2 0 pass 0 set 0
end 0
''', '''\
arc 1
0 done
1 refused block 7 0
shard 0 c 4096 p 2048 anon 0 mru 0 mrug 0 mfu 0 mfug 0 l2 0
count hit 0 miss 0 past 0 pool 0 l2 0 pass 0 set 0
end 1
''']),
    Row('the same with a sync between', ['run'], 512, '''\
arc 2 1 16 1 4096 0 4096
put 0 1 7 0 512 ab
txg 2
get 1 3 7 0 0 1
''', 0, ['''\
arc 1
0 done
1 txg 1 blocks 1 bytes 512
2 got 512 ab
shard 0 c 4096 p 2048 anon 0 mru 512 mrug 0 mfu 0 mfug 0 l2 0
count hit 0 miss 0 past 0 pool 0 l2 0 pass 0 set 0
end 0
'''], pool_after=AB),
    Row('two callers put one block, and a sync writes the one that came last', ['run'], 512, '''\
arc 2 1 16 1 4096 0 4096
put 0 1 7 0 512 ab
put 1 1 7 0 512 cd
txg 2
get 0 3 7 0 0 1
''', 0, ['''\
arc 1
0 done
1 done
2 txg 1 blocks 1 bytes 512
3 got 512 ab
shard 0 c 4096 p 2048 anon 0 mru 512 mrug 0 mfu 0 mfug 0 l2 0
count hit 0 miss 0 past 0 pool 0 l2 0 pass 0 set 0
end 0
''', '''\
arc 1
0 done
1 done
2 txg 1 blocks 1 bytes 512
3 got 512 cd
shard 0 c 4096 p 2048 anon 0 mru 512 mrug 0 mfu 0 mfug 0 l2 0
count hit 0 miss 0 past 0 pool 0 l2 0 pass 0 set 0
end 0
'''], pool_after=[AB, CD]),
    Row('two callers write parts of one block', ['run'], 1024, '''\
arc 2 1 16 1 4096 0 4096
block 0 512 1 Z
object 7 0 0
patch 0 1 7 0 0 01
patch 1 1 7 0 0 02
txg 2
get 1 3 7 0 0 1
''', 0, ['''\
arc 1
0 done
1 done
2 txg 1 blocks 1 bytes 512
3 got 512 01
shard 0 c 4096 p 2048 anon 0 mru 512 mrug 0 mfu 0 mfug 0 l2 0
count hit 0 miss 1 past 0 pool 1 l2 0 pass 0 set 0
end 0
''', '''\
arc 1
0 done
1 done
2 txg 1 blocks 1 bytes 512
3 got 512 02
shard 0 c 4096 p 2048 anon 0 mru 512 mrug 0 mfu 0 mfug 0 l2 0
count hit 0 miss 1 past 0 pool 1 l2 0 pass 0 set 0
end 0
'''], pool_after=[bytes(512) + b'\x01' + bytes(511), bytes(512) + b'\x02' + bytes(511)]),
    Row('a part is written, and another caller shows the block and reads it past the dbuf', ['run'], 512, '''\
arc 2 1 16 1 4096 0 4096
block 0 512 1 Z
object 7 0 0
patch 0 1 7 0 0 ff
get 1 1 7 0 0 1
read 1 1 0 0 1
''', 0, ['''\
arc 1
0 done
1 got 512 00
2 ok hit Z 00
shard 0 c 4096 p 2048 anon 0 mru 0 mrug 0 mfu 0 mfug 0 l2 0
count hit 1 miss 1 past 0 pool 1 l2 0 pass 0 set 0
end 0
''', '''\
arc 1
0 done
1 got 512 00
2 ok hit Z 00
shard 0 c 4096 p 2048 anon 0 mru 512 mrug 0 mfu 0 mfug 0 l2 0
count hit 1 miss 1 past 0 pool 1 l2 0 pass 0 set 0
end 0
''', '''\
arc 1
0 done
1 got 512 00
2 ok pool Z 00
shard 0 c 4096 p 2048 anon 0 mru 512 mrug 0 mfu 0 mfug 0 l2 0
count hit 0 miss 2 past 0 pool 2 l2 0 pass 0 set 0
end 0
''', '''\
arc 1
0 done
1 got 512 ff
2 ok pool Z 00
shard 0 c 4096 p 2048 anon 0 mru 512 mrug 0 mfu 0 mfug 0 l2 0
count hit 0 miss 2 past 0 pool 2 l2 0 pass 0 set 0
end 0
''']),
    Row('nobody ends the pin of another', ['run'], 512, '''\
arc 2 1 16 1 4096 0 4096
block 0 512 1 Z
object 7 0 0
pin 0 1 7 0
unpin 1 7 0
unpin 0 7 0
unpin 0 7 0
''', 1, ['''\
arc 1
0 done
1 refused pin 7 0
2 done
3 refused pin 7 0
shard 0 c 4096 p 2048 anon 0 mru 512 mrug 0 mfu 0 mfug 0 l2 0
count hit 0 miss 1 past 0 pool 1 l2 0 pass 0 set 0
end 1
''']),
    Row('a pinned dbuf stays past the limit while another caller comes and goes', ['run'], 1024, '''\
arc 2 1 16 1 4096 0 0
block 0 512 1 Z
block 512 512 1 Z
object 7 0 0
object 7 1 1
pin 0 1 7 0
cap 8192
get 1 2 7 1 0 1
get 1 3 7 0 0 1
''', 0, ['''\
arc 1
0 done
1 cap 8192
2 got 512 00
3 got 512 00
shard 0 c 8192 p 2048 anon 0 mru 1024 mrug 0 mfu 0 mfug 0 l2 0
count hit 0 miss 2 past 0 pool 2 l2 0 pass 0 set 0
end 0
''']),
    Row('what a caller keeps outlives the patch of another', ['run'], 512, '''\
arc 2 1 16 1 4096 0 4096
block 0 512 1 Z
object 7 0 0
hold 0 1 0
cap 8192
patch 1 2 7 0 0 ff
read 1 3 0 0 1
cap 4096
drop 0 0
''', 0, ['''\
arc 1
0 held pool
1 cap 8192
2 done
3 ok hit Z 00
4 cap 4096
5 dropped
shard 0 c 4096 p 2048 anon 0 mru 0 mrug 0 mfu 512 mfug 0 l2 0
count hit 2 miss 1 past 0 pool 1 l2 0 pass 0 set 0
end 0
''']),
    Row('a sync of two callers that has no room', ['run'], 1000, '''\
arc 2 1 16 1 4096 0 4096
put 0 1 7 0 512 ab
put 1 1 7 1 512 cd
txg 2
get 0 3 7 0 0 1
''', 8, ['''\
arc 1
0 done
1 done
shard 0 c 4096 p 2048 anon 0 mru 0 mrug 0 mfu 0 mfug 0 l2 0
count hit 0 miss 0 past 0 pool 0 l2 0 pass 0 set 0
end 8
''']),
    Row('blocks of three callers in three cells, written by rising object and block', ['run'], 2048, '''\
arc 3 1 16 3 4096 0 4096
put 0 1 9 0 512 ab
put 1 1 8 0 512 cd
put 2 1 7 0 512 00
txg 2
get 0 3 7 0 0 1
get 1 3 8 0 0 1
get 2 3 9 0 0 1
''', 0, ['''\
arc 1
0 done
1 done
2 done
3 txg 1 blocks 3 bytes 1536
4 got 512 00
5 got 512 cd
6 got 512 ab
shard 0 c 4096 p 2048 anon 0 mru 1536 mrug 0 mfu 0 mfug 0 l2 0
count hit 0 miss 0 past 0 pool 0 l2 0 pass 0 set 0
end 0
'''], pool_after=bytes(512) + CD + AB + bytes(512)),
    Row('three callers show, put and pin one block', ['run'], 512, '''\
arc 3 1 16 1 4096 0 4096
block 0 512 1 Z
object 7 0 0
get 0 1 7 0 0 1
put 1 1 7 0 512 ab
pin 2 1 7 0
''', 0, ['''\
arc 1
0 got 512 00
1 done
2 done
shard 0 c 4096 p 2048 anon 0 mru 0 mrug 0 mfu 0 mfug 0 l2 0
count hit 0 miss 1 past 0 pool 1 l2 0 pass 0 set 0
end 0
''', '''\
arc 1
0 got 512 ab
1 done
2 done
shard 0 c 4096 p 2048 anon 0 mru 0 mrug 0 mfu 0 mfug 0 l2 0
count hit 0 miss 0 past 0 pool 0 l2 0 pass 0 set 0
end 0
''', '''\
arc 1
0 got 512 ab
1 done
2 done
shard 0 c 4096 p 2048 anon 0 mru 0 mrug 0 mfu 0 mfug 0 l2 0
count hit 0 miss 1 past 0 pool 1 l2 0 pass 0 set 0
end 0
''']),
    Row('a feed beside two reads, and one behind them', ['run'], 1024, '''\
arc 2 1 16 1 4096 0 4096
block 0 512 1 Z
block 512 512 1 Z
read 0 1 0 0 0
read 1 1 1 0 0
feed
txg 2
feed
''', 0, ['''\
arc 1
0 ok pool Z -
1 ok pool Z -
2 feed picked 0 bytes 0 written 0 cleared 0 ok
3 txg 1 blocks 0 bytes 0
4 feed picked 2 bytes 1024 written 2 cleared 0 ok
shard 0 c 4096 p 2048 anon 0 mru 1024 mrug 0 mfu 0 mfug 0 l2 0
count hit 0 miss 2 past 0 pool 2 l2 0 pass 0 set 2
rebuilt 0 header magic
end 0
''', '''\
arc 1
0 ok pool Z -
1 ok pool Z -
2 feed picked 1 bytes 512 written 1 cleared 0 ok
3 txg 1 blocks 0 bytes 0
4 feed picked 1 bytes 512 written 1 cleared 0 ok
shard 0 c 4096 p 2048 anon 0 mru 1024 mrug 0 mfu 0 mfug 0 l2 0
count hit 0 miss 2 past 0 pool 2 l2 0 pass 0 set 2
rebuilt 0 header magic
end 0
''', '''\
arc 1
0 ok pool Z -
1 ok pool Z -
2 feed picked 2 bytes 1024 written 2 cleared 0 ok
3 txg 1 blocks 0 bytes 0
4 feed picked 0 bytes 0 written 0 cleared 0 ok
shard 0 c 4096 p 2048 anon 0 mru 1024 mrug 0 mfu 0 mfug 0 l2 0
count hit 0 miss 2 past 0 pool 2 l2 0 pass 0 set 2
rebuilt 0 header magic
end 0
'''], bytes(RING_END), device_after=[Ring().feed(((0, 512, 1), bytes(512)), ((512, 512, 1), bytes(512))).image, Ring().feed(((512, 512, 1), bytes(512)), ((0, 512, 1), bytes(512))).image, fed([bytes(512)] * 2), Ring().feed(((512, 512, 1), bytes(512))).feed(((0, 512, 1), bytes(512))).image], times=100),
    Row('a feed behind two reads, and reads behind that in a smaller cache', ['run'], 8192, '''\
arc 2 1 16 1 4096 0 4096
block 0 2048 1 X
block 2048 2048 1 X
block 4096 2048 1 X
block 6144 2048 1 X
read 0 1 0 0 0
txg 2
feed
txg 3
read 1 4 1 0 0
read 1 5 2 0 0
read 1 6 3 0 0
txg 7
read 0 8 0 0 0
''', 0, ['''\
arc 1
0 ok pool X -
1 txg 1 blocks 0 bytes 0
2 feed picked 1 bytes 2048 written 1 cleared 0 ok
3 txg 2 blocks 0 bytes 0
4 ok pool X -
5 ok pool X -
6 ok pool X -
7 txg 3 blocks 0 bytes 0
8 ok l2 X -
shard 0 c 4096 p 2048 anon 0 mru 2048 mrug 2048 mfu 2048 mfug 0 l2 0
count hit 0 miss 5 past 0 pool 4 l2 1 pass 0 set 1
rebuilt 0 header magic
end 0
'''], bytes(RING_END), device_after=fed([bytes(2048)])),
    Row('a feed while the block is read again', ['run'], 512, '''\
arc 2 1 16 1 4096 0 4096
block 0 512 1 Z
read 0 1 0 0 0
cap 8192
read 1 2 0 0 0
feed
''', 0, ['''\
arc 1
0 ok pool Z -
1 cap 8192
2 ok hit Z -
3 feed picked 0 bytes 0 written 0 cleared 0 ok
shard 0 c 8192 p 2048 anon 0 mru 0 mrug 0 mfu 512 mfug 0 l2 0
count hit 1 miss 1 past 0 pool 1 l2 0 pass 0 set 0
rebuilt 0 header magic
end 0
''', '''\
arc 1
0 ok pool Z -
1 cap 8192
2 ok hit Z -
3 feed picked 0 bytes 0 written 0 cleared 0 ok
shard 0 c 8192 p 2048 anon 0 mru 0 mrug 0 mfu 512 mfug 0 l2 0
count hit 1 miss 1 past 0 pool 1 l2 0 pass 1 set 0
rebuilt 0 header magic
end 0
''', '''\
arc 1
0 ok pool Z -
1 cap 8192
2 ok hit Z -
3 feed picked 1 bytes 512 written 1 cleared 0 ok
shard 0 c 8192 p 2048 anon 0 mru 0 mrug 0 mfu 512 mfug 0 l2 0
count hit 1 miss 1 past 0 pool 1 l2 0 pass 0 set 1
rebuilt 0 header magic
end 0
'''], bytes(RING_END), device_after=[fed([bytes(512)]), bytes(RING_END)]),
    Row('no feed of several callers without a device', ['run'], 512, '''\
arc 2 1 16 1 4096 0 4096
block 0 512 1 Z
read 0 1 0 0 0
feed
''', 0, ['''\
arc 1
0 ok pool Z -
1 feed none
shard 0 c 4096 p 2048 anon 0 mru 512 mrug 0 mfu 0 mfug 0 l2 0
count hit 0 miss 1 past 0 pool 1 l2 0 pass 0 set 0
end 0
''']),
    Row('a block that two callers wrote is fed, and a third shows it', ['run'], 512, '''\
arc 3 1 16 1 4096 0 0
put 0 1 7 0 512 ab
txg 2
get 1 3 7 0 0 1
txg 4
feed
txg 5
get 2 6 7 0 0 1
''', 0, ['''\
arc 1
0 done
1 txg 1 blocks 1 bytes 512
2 got 512 ab
3 txg 2 blocks 0 bytes 0
4 feed picked 1 bytes 512 written 1 cleared 0 ok
5 txg 3 blocks 0 bytes 0
6 got 512 ab
shard 0 c 4096 p 2048 anon 0 mru 0 mrug 0 mfu 512 mfug 0 l2 0
count hit 1 miss 0 past 0 pool 0 l2 0 pass 0 set 1
rebuilt 0 header magic
end 0
'''], bytes(RING_END), pool_after=AB, device_after=Ring().feed(((0, 512, 1), AB)).image),
    Row('an object of a key that was found is loaded from the device', ['run'], COUNTING, '''\
arc 2 1 16 1 4096 0 4096
block 0 512 1 Z
object 7 0 0
get 0 1 7 0 0 2
cap 8192
read 1 2 0 0 2
''', 0, ['''\
arc 1
0 got 512 0000
1 cap 8192
2 ok hit Z 0000
shard 0 c 8192 p 2048 anon 0 mru 0 mrug 0 mfu 512 mfug 0 l2 0
count hit 1 miss 1 past 0 pool 0 l2 1 pass 0 set 0
rebuilt 1 zero
end 0
'''], fed([bytes(512)])),
]
