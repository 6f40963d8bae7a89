"""What strace writes of a program's system calls: `strace -f -e trace=desc -o LOG PROGRAM`, with any of -y, -t, -tt, -ttt, -r, -T, and with the
process's number in front of a line or without.

Where a read begins is told by pread64, and else follows from what was read of the open file and from lseek; so tables of descriptors are
kept as the kernel keeps them: dup and fork share an open file with its place, a new program loses what was to be closed."""
import os
import re

from ..access import Access
from ..command import Fault

NAMES_FILES = True
LINE = re.compile(r'\s*(?:\[pid\s+(\d+)\]\s+|(\d+)\s+)?(?:(\d\d:\d\d:\d\d(?:\.\d+)?|\d+\.\d+)\s+)?(.*)')
CALL = re.compile(r'(\w+)\((.*)', re.DOTALL)
RESUMED = re.compile(r'<\.\.\. (\w+) resumed>,? ?(.*)', re.DOTALL)
ENDED = re.compile(r'(.*)\)\s+= (-?\d+|0x[0-9a-f]+|\?)(?:<(.*?)>(?= |$))?(?: .*)?', re.DOTALL)
UNFINISHED = re.compile(r'(.*?),?\s*<unfinished \.\.\.>', re.DOTALL)
NO_CALL = re.compile(r'\+\+\+ .* \+\+\+|--- .* ---|strace: .*|<\.\.\. .*exit.*resumed>.*|\w+\(.*<detached \.\.\.>?', re.DOTALL)
DESCRIPTOR = re.compile(r'(-?\d+|AT_FDCWD)(?:<(.*?)>)?(?=,|$)')
QUOTED = re.compile(r'"((?:[^"\\]|\\.)*)"', re.DOTALL)
ESCAPE = re.compile(rb'\\([0-7]{1,3}|x[0-9a-fA-F]{2}|.)', re.DOTALL)
LAST_NUMBER = re.compile(r'.*,\s*(\d+)', re.DOTALL)
LAST_TWO = re.compile(r'.*,\s*(\d+),\s*[^,]+', re.DOTALL)
LETTERS = {b'n': b'\n', b't': b'\t', b'r': b'\r', b'v': b'\v', b'f': b'\f'}

READS = {'read', 'readv', 'pread64', 'pread', 'preadv', 'preadv2'}
WRITES = {'write', 'writev', 'pwrite64', 'pwrite', 'pwritev', 'pwritev2'}
PLACED = {'pread64', 'pread', 'preadv', 'preadv2', 'pwrite64', 'pwrite', 'pwritev', 'pwritev2'}
OPENS = {'open', 'openat', 'openat2', 'creat'}
FORKS = {'fork', 'vfork', 'clone', 'clone3'}
# what may read a file without a line that tells where
UNTOLD = {'mmap': 'maps of files, whose reads the log does not have', 'sendfile': 'sendfile', 'splice': 'splice', 'copy_file_range': 'copy_file_range',
          'io_submit': 'io_submit', 'io_uring_enter': 'io_uring_enter'}


class OpenFile:
    """An open file, which several descriptors may share: its path, and the place where it is read next, or None where that isn't known."""

    def __init__(self, path, place=0, appends=False):
        self.path, self.place, self.appends = path, place, appends


class Process:
    """A process's table of descriptors, and its working folder. Threads share one. Of a process whose beginning the log doesn't tell, it isn't known
    whether it is a thread: it sees what `others` have opened, and what it opens and closes itself is its own."""

    def __init__(self, files, folder, others=()):
        self.files, self.folder, self.others = files, folder, others  # descriptor -> (open file, whether a new program loses it)
        self.closed = set()

    def copy(self):
        return Process(dict(self.files), self.folder, self.others)

    def get(self, descriptor):
        for process in (self, *(() if descriptor in self.closed else self.others)):
            if descriptor in process.files:
                return process.files[descriptor]
        return None

    def put(self, descriptor, file, is_lost=False):
        self.files[descriptor] = (file, is_lost)
        self.closed.discard(descriptor)

    def drop(self, descriptor):
        self.files.pop(descriptor, None)
        self.closed.add(descriptor)

    def keep(self, is_kept):
        """Closes each descriptor that isn't kept."""
        for descriptor in [descriptor for descriptor, file in self.files.items() if not is_kept(descriptor, file)]:
            self.drop(descriptor)


class Calls:
    """Follows the calls of all processes of a log."""

    def __init__(self, tally, folder, wanted):
        self.tally, self.folder, self.wanted = tally, folder, wanted
        self.processes = {}
        self.strangers = []  # the first process, and those whose beginning is not in the log
        self.begun = {}  # the front of a call that others' lines interrupt, by process

    def process(self, who):
        """A process's tables. One that is seen first while another one's fork has not come back is that one's child."""
        if who not in self.processes:
            parent = next((other for other, front in self.begun.items() if front.split('(')[0] in FORKS and other in self.processes), None)
            if parent is not None:
                self.forked(self.processes[parent], self.begun[parent], who)
            else:
                if self.strangers:
                    self.tally.add('beginnings of processes, so that what these read is guessed where -y does not tell it (trace=desc,process tells of them)')
                stranger = Process({}, self.folder, self.strangers)
                self.strangers.append(stranger)
                self.processes[who] = stranger
        return self.processes[who]

    def ended(self, who):
        """The process is no more; its number may come again for another one."""
        self.processes.pop(who, None)
        self.begun.pop(who, None)

    # ---- what a call does to the tables

    def opened(self, process, name, args, result, told):
        if name in ('openat', 'openat2') and (base := DESCRIPTOR.match(args)):
            at = self.base(process, base)
        else:
            at = process.folder
        path = QUOTED.search(args)
        if not path and not told:
            return
        flags = args[path.end():] if path else args
        full = told or os.path.normpath(os.path.join(at, unescaped(path[1])))
        file = OpenFile(full.removesuffix(' (deleted)'), appends='O_APPEND' in flags)
        process.put(result, file, 'O_CLOEXEC' in flags)

    def base(self, process, descriptor):
        if descriptor[2]:
            return descriptor[2]
        if descriptor[1] == 'AT_FDCWD':
            return process.folder
        file = process.get(int(descriptor[1]))
        return file[0].path if file else process.folder

    def copied(self, process, name, args, result):
        """dup, dup2, dup3 and the fcntl that does the same."""
        old = DESCRIPTOR.match(args)
        known = old and self.known(process, old)
        if known:
            process.put(result, known, 'CLOEXEC' in args)
        else:
            process.drop(result)

    def known(self, process, descriptor):
        """The open file of a descriptor. One that was opened before the log began is known by the path that -y tells."""
        if descriptor[1] == 'AT_FDCWD':
            return None
        number = int(descriptor[1])
        file, path = process.get(number), (descriptor[2] or '').removesuffix(' (deleted)')
        if path.startswith('/') and (file is None or (file[0].path != path and process.others)):
            process.put(number, OpenFile(path, place=None))
            file = process.get(number)
        return file[0] if file else None

    def forked(self, process, args, child):
        if child > 0 and child not in self.processes:
            self.processes[child] = process if 'CLONE_FILES' in args else process.copy()

    def change(self, who, name, args, result, told):
        """What a call that succeeded does to the tables. Whether it was such a call."""
        process = self.process(who)
        descriptor = DESCRIPTOR.match(args)
        number = int(descriptor[1]) if descriptor and descriptor[1] != 'AT_FDCWD' else None
        if name in OPENS:
            self.opened(process, name, args, result, told)
        elif name == 'close':
            process.drop(number)
        elif name == 'close_range' and (ends := re.match(r'(\d+), (\d+|~0U?)', args)):
            last = int(ends[2]) if ends[2].isdigit() else 1 << 32
            process.keep(lambda fd, file: not int(ends[1]) <= fd <= last)
        elif name in ('dup', 'dup2', 'dup3') or (name == 'fcntl' and 'F_DUPFD' in args):
            self.copied(process, name, args, result)
        elif name == 'fcntl' and 'F_SETFD' in args and (file := process.get(number)):
            process.put(number, file[0], 'FD_CLOEXEC' in args)
        elif name in ('lseek', '_llseek') and number is not None:
            file = self.known(process, descriptor)
            place = re.search(r'\[(\d+)\]', args) if name == '_llseek' else None
            if file:
                file.place = int(place[1]) if place else result
        elif name in FORKS:
            self.forked(process, args, result)
        elif name in ('execve', 'execveat'):
            process.keep(lambda fd, file: not file[1])
        elif name == 'chdir' and (path := QUOTED.search(args)):
            process.folder = os.path.normpath(os.path.join(process.folder, unescaped(path[1])))
        elif name in UNTOLD and result >= 0 and (name != 'mmap' or self.maps_file(process, args)):
            self.tally.add(UNTOLD[name])

    def maps_file(self, process, args):
        fields = args.rsplit(', ', 2)
        descriptor = DESCRIPTOR.match(fields[-2]) if len(fields) == 3 else None
        file = self.known(process, descriptor) if descriptor else None
        return file is not None and self.wanted(file.path)

    # ---- reads and writes

    def moved(self, who, name, args, size, number, time):
        """The access that a read or a write of so many bytes is, or None."""
        descriptor = DESCRIPTOR.match(args)
        file = descriptor and self.known(self.process(who), descriptor)
        kind = 'writes' if name in WRITES else 'reads'
        if not file:
            self.tally.add(f'{kind} of what is no file of the log (terminals, pipes, sockets)', size)
            return None
        if name in PLACED:
            place = (LAST_TWO if name.endswith('v2') else LAST_NUMBER).fullmatch(args)
            offset = int(place[1]) if place else None
        else:
            offset = None if file.appends and name in WRITES else file.place
            file.place = offset + size if offset is not None else None
        if offset is None:
            self.tally.add(f'{kind} at a place that the log does not tell', size)
            return None
        return Access(number, name in WRITES, file.path, offset, size, time, who)


def unescaped(text):
    """The characters that a quoted text of strace stands for."""
    def one(found):
        spelled = found[1]
        if spelled[:1].isdigit():
            return bytes([int(spelled, 8) & 255])
        return bytes([int(spelled[1:], 16)]) if spelled[:1] == b'x' and len(spelled) > 1 else LETTERS.get(spelled, spelled)
    return ESCAPE.sub(one, text.encode('utf-8', 'surrogateescape')).decode('utf-8', 'surrogateescape')


def milliseconds(stamp):
    if ':' not in stamp:
        return float(stamp) * 1000
    hours, minutes, seconds = stamp.split(':')
    return (int(hours) * 3600 + int(minutes) * 60 + float(seconds)) * 1000


def accesses(lines, tally, name, options):
    calls = Calls(tally, os.path.abspath(options.folder or '.'), options.wanted)
    for number, line in lines:
        if not line.strip():
            continue
        who, time, text = parted(line)
        if unfinished := UNFINISHED.fullmatch(text):
            calls.begun[who] = unfinished[1]
            calls.process(who)
            continue
        if resumed := RESUMED.fullmatch(text):
            front = calls.begun.pop(who, None)
            if front is None:
                tally.add('ends of calls whose beginning is not in the log')
                continue
            text = joined(front, resumed[2])
        call = CALL.fullmatch(text)
        ended = call and ENDED.fullmatch(call[2])
        if not ended:
            if NO_CALL.fullmatch(text):
                if text.startswith('+++'):
                    calls.ended(who)
                continue
            raise Fault("here a line of strace is wanted, as 'pread64(3, \"..\", 4096, 8192) = 4096'", name, number)
        if ended[2] == '?' or ended[2].startswith('-'):
            continue
        result = int(ended[2], 0)
        if call[1] not in READS and call[1] not in WRITES:
            calls.change(who, call[1], ended[1], result, ended[3])
        elif result > 0 and (access := calls.moved(who, call[1], ended[1], result, number, time)):
            yield access
    if calls.begun:
        tally.add('calls whose end is not in the log', times=len(calls.begun))


def parted(line):
    """A line's process, its time in milliseconds or None, and what stands behind them."""
    found = LINE.fullmatch(line)
    return int(found[1] or found[2] or 0), milliseconds(found[3]) if found[3] else None, found[4]


def joined(front, rest):
    """A call of two lines as one: a comma between where arguments stand on both sides."""
    between = '' if front.endswith('(') or rest.startswith(')') else ', '
    return front + between + rest
