"""Images of cache devices, spelled by the tables of docs/DEVICE.md: what feeds leave, and what a crash between their writes may leave."""
import hashlib

RING_END = 266240
RING_START, LOG_LEN = 4096, 65536
ENTRIES = {1: 1022, 2: 681}


def number(n):
    return n.to_bytes(8, 'little')


def changed(image, at, body):
    """The device with other bytes at a place."""
    return bytes(image[:at]) + body + bytes(image[at + len(body):])


def sealed(image):
    """The device with its header's digest made anew."""
    return changed(image, 480, hashlib.sha256(image[:480]).digest())


class Ring:
    """A device of zero bytes that is fed, with all that was asked of it: the writes as places and bytes, and None for a flush."""

    def __init__(self, end=RING_END, version=2):
        self.end, self.version, self.image, self.asked = end, version, bytearray(end), []
        self.hand = self.evict = self.top = RING_START
        self.lap, self.newest, self.second = 1, None, None

    def write(self, at, body):
        self.image[at:at + len(body)] = body
        self.asked.append((at, bytes(body)))

    def flush(self):
        self.asked.append(None)

    def pointer(self, log):
        """The pointer to a log block: its place, how many entries it has, and its bytes; none is zero bytes."""
        if log is None:
            return bytes(64)
        place, count, block = log
        return number(place) + number(LOG_LEN) + number(count) + bytes(8) + hashlib.sha256(block).digest()

    def write_header(self):
        numbers = (self.version, RING_START, self.end, self.hand, self.evict, self.top, self.lap, ENTRIES[self.version])
        header = bytes.fromhex('454843414353465a') + b''.join(map(number, numbers)) + bytes(56)
        header = (header + self.pointer(self.newest) + self.pointer(self.second)).ljust(480, b'\0')
        self.write(0, header + hashlib.sha256(header).digest())
        self.flush()

    def entry(self, key, body):
        entry = b''.join(map(number, (*key, self.hand)))
        return entry + (hashlib.sha256(body).digest() + bytes(32) if self.version == 2 else bytes(32))

    def feed(self, *blocks):
        """One feed that picked these blocks of a shard, each a key (offset, size, birth) and its bytes."""
        n = sum(key[1] for key, _ in blocks) + LOG_LEN
        if self.hand + n <= self.end:
            self.evict = max(self.evict, self.hand + n)
        else:
            self.top, self.hand, self.evict, self.lap = self.hand, RING_START, RING_START + n, self.lap + 1
        self.write_header()
        entries = b''
        for key, body in blocks:
            entries += self.entry(key, body)
            self.write(self.hand, body)
            self.hand += len(body)
        marks = number(self.lap) + number(len(blocks)) + number(2 if self.version == 2 else 0) + bytes(32)
        block = (bytes.fromhex('44484b4c42474f4c') + marks + self.pointer(self.second) + entries).ljust(LOG_LEN, b'\0')
        self.write(self.hand, block)
        self.flush()
        self.newest, self.second = (self.hand, len(blocks), block), self.newest
        self.hand += LOG_LEN
        self.write_header()
        return self

    def crashed(self, stop, keeps):
        """What is left where the device stops behind so many writes and flushes: all that was flushed, and of the writes behind it all or none."""
        image, flushed = bytearray(self.end), bytes(self.end)
        for asked in self.asked[:stop]:
            if asked is None:
                flushed = bytes(image)
            else:
                at, body = asked
                image[at:at + len(body)] = body
        return bytes(image) if keeps else flushed


def ring_of(bodies, size=512, end=RING_END, version=2):
    """A device to which these blocks were fed one by one: block i has the place size * i of the pool, and was born in group 1."""
    ring = Ring(end, version)
    for i, body in enumerate(bodies):
        ring.feed(((size * i, len(body), 1), body))
    return ring


def fed(bodies, size=512, end=RING_END, version=2):
    return bytes(ring_of(bodies, size, end, version).image)
