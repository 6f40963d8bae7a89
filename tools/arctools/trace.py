"""Traces and lists of pages, as far as the commands here read them: what is asked for, in which order. `arc_tool` is the judge of what a trace is."""
from array import array

from .command import Fault, lines_of

FIELDS = {'arc': 7, 'block': 4, 'read': 5, 'hold': 3, 'drop': 2}


def arc_of(name):
    """The numbers of a trace's arc line."""
    for number, line in lines_of(name):
        if line and not line.startswith('#'):
            word, *fields = line.split(' ')
            if word != 'arc' or len(fields) != FIELDS['arc'] or not all(field.isascii() and field.isdigit() for field in fields):
                raise Fault("a trace begins with its arc line, 'arc' and seven numbers, and this line is none", name, number)
            return [int(field) for field in fields]
    raise Fault('there is no line in it, and a trace begins with an arc line', name)


class Trace:
    """The sizes of a trace's `arc` line, the keys of its blocks, and the block of each operation that reads one."""

    def __init__(self, name):
        self.name = name
        self.arc = None
        self.keys = []  # block -> (offset, size, birth)
        self.reads = array('L')  # the block of each read or hold
        self.reading = array('L')  # and the operation's number
        self.operations = 0
        for number, line in lines_of(name):
            if not line or line.startswith('#'):
                continue
            word, *fields = line.split(' ')
            if word not in FIELDS:
                raise Fault(f'{word!r} is no word of a trace that this command knows', name, number)
            if len(fields) != FIELDS[word]:
                raise Fault(f"'{word}' wants {FIELDS[word]} fields, and there are {len(fields)}", name, number)
            self.take(word, fields, number)
        if self.arc is None:
            raise Fault('there is no line in it, and a trace begins with an arc line', name)

    def take(self, word, fields, number):
        numbers = [self.number_of(field, number) for field in (fields[:3] if word == 'block' else fields)]
        if (word == 'arc') != (self.arc is None):
            raise Fault('a trace begins with its one arc line', self.name, number)
        if word == 'arc':
            self.arc = numbers
        elif word == 'block':
            self.keys.append(tuple(numbers))
        else:
            block = numbers[1] if word == 'drop' else numbers[2]
            if block >= len(self.keys):
                raise Fault(f'no line in front declares block {block}', self.name, number)
            if word != 'drop':
                self.reads.append(block)
                self.reading.append(self.operations)
            self.operations += 1

    def number_of(self, field, number):
        if not (field.isascii() and field.isdigit()):
            raise Fault(f'{field!r} is no number', self.name, number)
        return int(field)

    @property
    def shards(self):
        return self.arc[1]

    def sizes(self):
        return [size for _, size, _ in self.keys]

    def arc_line(self, capacity):
        """Its arc line with another capacity of a shard."""
        return 'arc ' + ' '.join(str(number) for number in [*self.arc[:4], capacity, *self.arc[5:]])


class Pages:
    """A list of pages."""

    def __init__(self, name):
        self.name = name
        numbers = {}
        self.reads = array('L')
        for number, line in lines_of(name):
            if not line or line.startswith('#'):
                continue
            if not (line.isascii() and line.isdigit()):
                raise Fault(f'{line[:80]!r} is no page number', name, number)
            self.reads.append(numbers.setdefault(int(line), len(numbers)))
        self.pages = len(numbers)


def counted_lines(name):
    """The lines of a trace or a list of pages that are not passed over."""
    return (line for _, line in lines_of(name) if line and not line.startswith('#'))
