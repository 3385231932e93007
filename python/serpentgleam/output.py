"""What the command writes: to standard output, whole answers even where other processes write there too; to a file,
which appears whole or not at all; and messages on standard error.
"""
import contextlib
import fcntl
import os
import select
import stat

ENOUGH = 65_536  # bytes that are collected before they are written


class Unwritten(Exception):
    """Output that could not be written to its end; the message says where and why."""


def show(text):
    """Writes a text on standard error. Where that fails nobody is there to be told."""
    with contextlib.suppress(OSError):
        write_whole(2, text.encode('utf-8', 'backslashreplace'))


def say(sentence):
    """Writes a line on standard error."""
    show(f'serpentgleam: {sentence}\n')


def keep_standard_files_apart():
    """Puts /dev/null in the place of a standard file that is closed, so that no file opened later takes its number.

    It is opened for the other direction: what is then read or written there fails, as it would have.
    """
    for number, direction in ((0, os.O_WRONLY), (1, os.O_RDONLY), (2, os.O_RDONLY)):
        try:
            os.fstat(number)
        except OSError:
            os.open('/dev/null', direction)


def write_whole(number, data):
    """Writes all bytes to an open file, however few of them each call of the operating system takes."""
    rest = memoryview(data)
    while rest:
        try:
            rest = rest[os.write(number, rest):]
        except BlockingIOError:
            select.select([], [number], [])


@contextlib.contextmanager
def alone_on(number):
    """Waits until no other process that does the same writes to the same file or pipe.

    A pipe takes at most 4,096 bytes in one piece. The lock is one by process (fcntl): processes that were started with
    one output share its open file, and a lock by open file (flock) would let them all in. Devices are not locked, for
    everything shares them.
    """
    mode = os.fstat(number).st_mode
    locked = stat.S_ISFIFO(mode) or stat.S_ISREG(mode)
    if locked:
        with contextlib.suppress(OSError):  # a file that cannot be locked is written as it is
            fcntl.lockf(number, fcntl.LOCK_EX)
    try:
        yield
    finally:
        if locked:
            with contextlib.suppress(OSError):
                fcntl.lockf(number, fcntl.LOCK_UN)


class Output:
    """Collects whole answers and writes them, many at a time, to an open file. `failing` names it where that fails."""

    def __init__(self, number, failing):
        self.number, self.failing = number, failing
        self.collected, self.size = [], 0
        self.at_once = os.isatty(number)

    def write(self, answer):
        """Takes the bytes of a whole answer."""
        self.collected.append(answer)
        self.size += len(answer)
        if self.at_once or self.size >= ENOUGH:
            self.flush()

    def flush(self):
        """Writes what is collected."""
        if not self.collected:
            return
        data = b''.join(self.collected)
        self.collected, self.size = [], 0
        with self.failing, alone_on(self.number):
            write_whole(self.number, data)


class Failing:
    """Gives an error of the operating system as Unwritten, with the name of the output and what has become of it."""

    def __init__(self, name, outcome):
        self.name, self.outcome = name, outcome

    def __enter__(self):
        return self

    def __exit__(self, _kind, error, _traceback):
        if isinstance(error, BrokenPipeError):
            raise Unwritten(f'{self.name} was closed before all was written') from error
        if isinstance(error, (OSError, ValueError)):  # ValueError: a name with a zero byte
            raise Unwritten(f'{self.name}: {getattr(error, "strerror", None) or error}; {self.outcome}') from error


@contextlib.contextmanager
def standard_output():
    """Standard output as an Output. Some file systems tell of a failed write only when the file is closed."""
    output = Output(1, Failing('standard output', 'the output is not whole'))
    yield output
    output.flush()
    with output.failing:
        os.close(os.dup(1))


def put_in_place(number, temporary, target):
    """Puts the temporary file in the place of the target, on disk, with the target's permissions if it was there."""
    with contextlib.suppress(FileNotFoundError):
        os.fchmod(number, stat.S_IMODE(os.stat(target).st_mode))
    os.fsync(number)
    os.replace(temporary, target)
    with contextlib.suppress(OSError):  # not every file system can do it, and the file is in its place
        folder = os.open(os.path.dirname(target), os.O_RDONLY)
        try:
            os.fsync(folder)
        finally:
            os.close(folder)


@contextlib.contextmanager
def opened(path, flags, failing, when_done):
    """An Output to a file that is opened so; `when_done` is called with its number when all is written."""
    with failing:
        number = os.open(path, os.O_WRONLY | os.O_CLOEXEC | flags, 0o666)
    try:
        output = Output(number, failing)
        yield output
        output.flush()
        with failing:
            when_done(number)
    finally:
        os.close(number)


@contextlib.contextmanager
def whole_file(path, name):
    """An Output to a file that appears whole when all is written, and not at all where something failed before."""
    target = os.path.realpath(path)
    temporary = os.path.join(os.path.dirname(target), f'.serpentgleam-{os.urandom(8).hex()}.part')
    try:
        with opened(temporary, os.O_CREAT | os.O_EXCL, Failing(name, 'the file is not written'),
                    lambda number: put_in_place(number, temporary, target)) as output:
            yield output
    except BaseException:
        with contextlib.suppress(OSError):
            os.unlink(temporary)
        raise


def output_to(path, name):
    """The Output for a path, by its name for messages, or standard output where the path is None."""
    if path is None:
        return standard_output()
    if os.path.exists(path) and not os.path.isfile(path):  # a device or a pipe
        return opened(path, 0, Failing(name, 'the output is not whole'), lambda number: None)
    return whole_file(path, name)
