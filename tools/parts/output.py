"""Where a tool's output goes: never over what is read, whole or not at all; where it can't be written, one sentence says so.

A file is written beside its place, and takes its name when all is there. Links are followed: a file is known by its device and inode.
"""
import errno
import os
import re
import signal
import stat
import sys
import tempfile
from contextlib import contextmanager
from pathlib import Path

from capture import captures_of
from files import Refused

WRITING = 5                 # the status where something can't be written, as of sqrun
STANDARD_IN, STANDARD_OUT = 0, 1
FULL = (errno.ENOSPC, errno.EDQUOT, errno.EFBIG)


def begin():
    """To be called first: told to stop, a tool removes what it has half written; and a standard end that is closed is never another file."""
    for asks in (signal.SIGTERM, signal.SIGHUP):
        if signal.getsignal(asks) is signal.SIG_DFL:
            signal.signal(asks, lambda number, _: sys.exit(128 + number))
    for end in (0, 1, 2):
        try:
            os.fstat(end)
        except OSError:
            os.open(os.devnull, os.O_RDONLY)
    sys.stderr = sys.stderr or open(os.devnull, "w", encoding="utf-8")


def at_work():
    """To be called where Control-C is caught: until then it ends a tool without a word."""
    if signal.getsignal(signal.SIGINT) is signal.SIG_DFL:
        signal.signal(signal.SIGINT, signal.default_int_handler)


def shown(path):
    """A file's name in a sentence; standard input and output by theirs."""
    return {"-": "standard input", STANDARD_IN: "standard input", STANDARD_OUT: "standard output", None: "standard output"}.get(path) or repr(str(path))


def identity(path):
    """What is the same of two names for one plain file; of a name that is free, its place; None of a device or a pipe."""
    try:
        state = os.fstat(STANDARD_IN) if path == "-" else os.stat(path)
    except OSError:
        return os.path.realpath(path) if isinstance(path, (str, Path)) else None
    return (state.st_dev, state.st_ino) if stat.S_ISREG(state.st_mode) else None


def read_files(inputs):
    """The files that are read: those named, and those of a folder of sqshard's."""
    for name in filter(None, inputs):
        yield name
        if name != "-" and (Path(name) / "captures.json").is_file():
            yield from captures_of(Path(name))


def check(outputs, inputs):
    """Refuses, before there is anything to write, an output that is read, or that is another output, or where nothing can be written.

    An output without a name is standard output.
    """
    inputs = list(read_files(inputs))
    taken = {found: (path, "is read") for path in inputs if (found := identity(path)) is not None}
    folders = [os.path.realpath(path) for path in inputs if path != "-" and os.path.isdir(path)]
    for path in outputs:
        found = identity(path or STANDARD_OUT)
        if found is not None and found in taken:
            other, why = taken[found]
            raise Refused(f"{shown(path)} {f'is {shown(other)}, which ' * (shown(other) != shown(path))}{why}: write to another file", 2)
        for folder in folders if path else ():
            if os.path.realpath(path).startswith(folder + os.sep):
                raise Refused(f"{shown(path)} stands in {shown(folder)}, which is read: write to another folder", 2)
        if path:
            taken[found] = path, "is written already"
            writable(path)


def writable(path):
    """Refuses a place where nothing can be written."""
    if os.path.isdir(path):
        raise Refused(f"{shown(path)}: it is a folder", 2)
    if not os.access(os.path.dirname(os.path.realpath(path)) if is_plain(path) else path, os.W_OK):
        raise Refused(f"{shown(path)}: nothing can be written there", 2)


def is_plain(path):
    """Whether it's a plain file, or none yet."""
    return not os.path.exists(path) or os.path.isfile(path)


def named(path, ending):
    """Where what wasn't named goes on a terminal: into a file beside one, named after its capture, and never one that is there. Elsewhere to standard output."""
    if not (sys.stdout and sys.stdout.isatty()):
        return None
    name = re.sub(r"(\.(gz|xz|bz2|zst))?$", "", Path(path).name if path != "-" else "capture")
    to = re.sub(r"\.(pcap|pcapng|cap)$", "", name) + ending
    if os.path.lexists(to):
        raise Refused(f"{to!r} is there already: name a file by -o", 2)
    check([to], ())
    return to


@contextmanager
def faults(path):
    """A fault of writing as a sentence with the file's name."""
    try:
        yield
    except OSError as fault:
        raise Refused(f"{shown(path)}: {fault.strerror}", WRITING) from None


class Out:
    """Takes bytes. A fault of it is a fault of writing, and names the file."""

    def __init__(self, out, path):
        self.out, self.path = out, path

    def write(self, data):
        with faults(self.path):
            self.out.write(data)

    def writelines(self, pieces):
        for piece in pieces:
            self.write(piece)

    def flush(self):
        with faults(self.path):
            self.out.flush()


@contextmanager
def to_standard():
    """Standard output, which is given up behind a fault: what is left in it can't be written either."""
    if sys.stdout is None:
        raise Refused("standard output is closed", WRITING)
    out = Out(sys.stdout.buffer, None)
    try:
        with faults(None):
            sys.stdout.flush()
        yield out
        out.flush()
    except Refused as fault:
        if fault.status == WRITING:
            sys.stdout = None
        raise


@contextmanager
def written(path=None):
    """Where to write: a file that gets its name once all is there, or without a name standard output. Of what fails nothing is left."""
    if not path:
        with to_standard() as out:
            yield out
        return
    with beside(path, os.path.realpath(path)) if is_plain(path) else to_device(path) as out:
        yield out


@contextmanager
def to_device(path):
    """A device or a pipe, which has no place beside it."""
    with faults(path):
        end = open(path, "wb")
    try:
        yield (out := Out(end, path))
        out.flush()
    finally:
        closed(end)


def closed(end):
    """Closes it, whatever is left in it."""
    try:
        end.close()
    except OSError:
        pass


@contextmanager
def beside(path, place):
    """A plain file beside its place, which goes there at the end."""
    with faults(path):
        number, part = tempfile.mkstemp(dir=os.path.dirname(place), prefix=f".{os.path.basename(place)[:80]}.", suffix=".part")
    end = os.fdopen(number, "wb")
    try:
        yield (out := Out(end, path))
        out.flush()
        with faults(path):
            os.fchmod(number, mode_of(place))
            end.close()
            os.replace(part, place)
    except BaseException:
        closed(end)
        os.unlink(part)
        raise


def mode_of(place):
    """The rights of the file that stood there, or those of a new one."""
    try:
        return stat.S_IMODE(os.stat(place).st_mode)
    except OSError:
        mask = os.umask(0)
        os.umask(mask)
        return 0o666 & ~mask


def put(path, pieces):
    """Writes the pieces, of bytes or of text, to the path, or to standard output."""
    with written(path) as out:
        out.writelines(piece.encode(errors="replace") if isinstance(piece, str) else piece for piece in pieces)


def told(fault):
    """A fault as a sentence, and its status. A full disk that isn't the output's is that of temporary files."""
    if isinstance(fault, Refused):
        return str(fault), fault.status
    if fault.errno in FULL:
        return f"{shown(tempfile.gettempdir())}, for temporary files: {fault.strerror}; TMPDIR names another folder", WRITING
    return f"{fault.strerror or fault}" + f": {shown(fault.filename)}" * bool(fault.filename), 1
