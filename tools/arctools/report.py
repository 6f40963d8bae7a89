"""Reports of `arc_tool POOL - run --events`, kept small: a report of a million reads has some four million events."""
import subprocess
from array import array

from .command import Fault, Progress, lines_of

# the words of events; behind the word stand who made it, mostly a key of three numbers, and what `TAILS` says
KINDS = ['hit', 'miss', 'past', 'arrive', 'fail', 'drop', 'pass', 'hand', 'insert', 'release', 'pick', 'feedend', 'set', 'leave', 'clear', 'restore', 'resize']
HIT, MISS, PAST, ARRIVE, FAIL, DROP, PASS, HAND, INSERT, RELEASE, PICK, FEEDEND, SET, LEAVE, CLEAR, RESTORE, RESIZE = range(len(KINDS))
NUMBERS = {word: number for number, word in enumerate(KINDS)}
ACCESSES = (HIT, MISS, PAST)
# how many fields stand behind the key, and which of them is kept as a number: a tick, an owner, a cell, a place; or a word that stands for 1
TAILS = {HIT: (1, 0), MISS: (1, 0), PAST: (1, None), ARRIVE: (2, 'l2'), FAIL: (1, None), DROP: (0, None), PASS: (1, 0), HAND: (1, 0), INSERT: (2, 1),
         RELEASE: (1, 'sole'), PICK: (0, None), SET: (1, 0), LEAVE: (1, None), CLEAR: (0, None), RESTORE: (2, 0)}
STATES = ['gone', 'anon', 'mru', 'mrug', 'mfu', 'mfug', 'l2']


class Events:
    """The events of one shard, side by side."""

    def __init__(self):
        self.kinds, self.who, self.keys, self.numbers = array('B'), array('B'), array('L'), array('Q')

    def __len__(self):
        return len(self.kinds)


class Report:
    """The events of each shard, what each shard ends with, and the counts and the status."""

    def __init__(self, name, lines):
        self.name = name
        self.shards, self.keys, self.ends, self.counts, self.status = [], [], [], {}, None
        self.numbers = {}  # the text of a key -> its number
        self.operations = 0
        for number, line in lines:
            try:
                self.take(line)
            except (ValueError, IndexError, KeyError, OverflowError):
                raise Fault(f'this is no line of a report that this command knows: {line[:80]!r}', name, number) from None
        if self.status is None:
            raise Fault('the report breaks off: it has no end line', name)

    def take(self, line):
        if line.startswith('e '):
            self.event(line)
        elif line[:1].isdigit():
            self.operations += 1
        elif line.startswith('shard '):
            words = line.split(' ')
            self.ends.append(dict(zip(words[2::2], map(int, words[3::2]))))
        elif line.startswith('count '):
            words = line.split(' ')
            self.counts = dict(zip(words[1::2], map(int, words[2::2])))
        elif line.startswith('end '):
            self.status = int(line[4:])
        elif line != 'arc 1' and not line.startswith(('rebuilt ', 'io ')):
            raise ValueError

    def event(self, line):
        _, shard, index, word, who, rest = (line + ' ').split(' ', 5)
        shard, kind = int(shard), NUMBERS[word]
        while len(self.shards) <= shard:
            self.shards.append(Events())
        events = self.shards[shard]
        if len(events) != int(index):
            raise ValueError
        key, number = 0, 0
        if kind == RESIZE:
            number = int(rest)
        elif kind != FEEDEND:
            count, kept = TAILS[kind]
            text, *tail = rest[:-1].rsplit(' ', count)
            if len(tail) != count:
                raise ValueError
            key = self.numbers[text] if text in self.numbers else self.new_key(text)
            number = int(tail[kept]) if isinstance(kept, int) else int(kept in tail)
        events.kinds.append(kind)
        events.who.append(int(who))
        events.keys.append(key)
        events.numbers.append(number)

    def new_key(self, text):
        offset, size, birth = map(int, text.split(' '))
        number = self.numbers[text] = len(self.keys)
        self.keys.append((offset, size, birth))
        return number


def of_file(name):
    return Report(name, lines_of(name))


def of_run(trace, pool, tool):
    """The report of a run over the pool."""
    with open(trace, 'rb') as source:
        command = subprocess.Popen([tool, pool, '-', 'run', '--events'], stdin=source, stdout=subprocess.PIPE, stderr=subprocess.PIPE, text=True)
    progress = Progress('running', 0)

    def lines():
        number = 0
        for number, line in enumerate(command.stdout, 1):
            if number % 4096 == 0:
                progress.at(number)
            yield number, line.rstrip('\n')
        progress.end()
        told = command.stderr.read().strip()
        if command.wait() not in (0, 1):
            raise Fault(f'the program ended with status {command.returncode}: {told or "it said nothing"}', trace)

    with command:
        return Report(f'the report of {trace}', lines())
