"""How each command ends and what it says on the way: faults with their line, progress on a terminal, outputs that are whole or not there."""
import contextlib
import gzip
import os
import sys
import tempfile
import time

LONGEST_LINE = 1 << 20


class Fault(Exception):
    """Ends a command with status 2: what is wrong, with the file and the line where they are known."""

    def __init__(self, reason, name=None, line=None):
        place = ''.join([f'{name}: ' if name else '', f'line {line}: ' if line else ''])
        super().__init__(place + reason)


def end_with(main):
    """Runs a command. Bad input and files that fail end it with status 2 and one line on the standard error."""
    name = os.path.basename(sys.argv[0])
    try:
        main()
        sys.stdout.flush()
    except Fault as fault:
        sys.exit(say(f'{name}: {fault}') or 2)
    except BrokenPipeError:
        # whoever read the standard output wanted no more of it; nothing is left for Python to flush at its end
        os.dup2(os.open(os.devnull, os.O_WRONLY), sys.stdout.fileno())
        sys.exit(2)
    except OSError as error:
        sys.exit(say(f'{name}: {error.filename or "a file"}: {error.strerror or error}') or 2)
    except KeyboardInterrupt:
        sys.exit(130)


def say(line):
    """Writes a line to the standard error, where the progress bar may stand."""
    clear = '\r\033[K' if sys.stderr.isatty() else ''
    print(clear + line, file=sys.stderr)


class Progress:
    """A bar on the standard error, where that is a terminal: drawn ten times a second at most."""

    def __init__(self, what, total):
        self.what, self.total = what, total
        self.drawn = 0.0 if sys.stderr.isatty() else float('inf')

    def at(self, done):
        now = time.monotonic()
        if now < self.drawn + 0.1:
            return
        self.drawn = now
        part = min(1.0, done / self.total) if self.total else 0.0
        bar = '#' * int(part * 30)
        sys.stderr.write(f'\r\033[K{self.what} [{bar:30}] {part:4.0%}' if self.total else f'\r\033[K{self.what} {done:,}')
        sys.stderr.flush()

    def end(self):
        if self.drawn != float('inf'):
            sys.stderr.write('\r\033[K')
            sys.stderr.flush()


def is_gzip(name):
    with open(name, 'rb') as file:
        return file.read(2) == b'\x1f\x8b'


def lines_of(name, most=None):
    """The lines of a text, numbered from 1, without their ends: of a file, which may be compressed by gzip, or of the standard input at '-'."""
    source = sys.stdin.buffer if name == '-' else open(name, 'rb')
    total = os.fstat(source.fileno()).st_size
    text = gzip.GzipFile(fileobj=source) if name != '-' and is_gzip(name) else source
    progress = Progress(f'reading {name}', total if name != '-' else 0)
    number = 0
    with contextlib.closing(source):
        try:
            while line := text.readline(LONGEST_LINE + 1):
                number += 1
                if len(line) > LONGEST_LINE:
                    raise Fault(f'the line has more than {LONGEST_LINE:,} bytes', name, number)
                if number % 4096 == 0:
                    progress.at(source.tell() if name != '-' else number)
                yield number, line.decode('utf-8', 'surrogateescape').rstrip('\r\n')
        except (EOFError, gzip.BadGzipFile) as error:
            raise Fault(f'the compressed text breaks off: {error}', name, number + 1) from error
        finally:
            progress.end()


@contextlib.contextmanager
def whole(*names, mode='w'):
    """Opens outputs that appear under their names only once all of them are written; until then, and after a fault, what stood there stays."""
    with contextlib.ExitStack() as stack:
        files = []
        for name in names:
            folder = os.path.dirname(os.path.abspath(name))
            handle, made = tempfile.mkstemp(prefix='.' + os.path.basename(name) + '.', dir=folder)
            stack.callback(remove, made)
            options = {} if 'b' in mode else {'encoding': 'utf-8', 'errors': 'surrogateescape', 'newline': '\n'}
            files.append((stack.enter_context(os.fdopen(handle, mode, **options)), made))
        yield files[0][0] if len(files) == 1 else [file for file, _ in files]
        for (file, made), name in zip(files, names):
            file.close()
            os.chmod(made, 0o666 & ~umask())
            os.replace(made, name)


def remove(name):
    with contextlib.suppress(FileNotFoundError):
        os.remove(name)


def umask():
    mask = os.umask(0)
    os.umask(mask)
    return mask


def program(given):
    """The cache's program: the one given, or the one that ARC_TOOL names, or the built one of this repository."""
    built = os.path.join(os.path.dirname(os.path.abspath(__file__)), '../../crates/arc_tool/out/arc_tool')
    name = given or os.environ.get('ARC_TOOL') or os.path.normpath(built)
    if not os.access(name, os.X_OK) or os.path.isdir(name):
        raise Fault(f'there is no program {name}: examples/run.sh scan proves and builds it, and --program or ARC_TOOL names another one')
    return name
