"""The log of connections that end: a file that grows by a line for each."""
import errno
import os
import re
import socket
import stat
import struct
import time

from telling import tell

# A line, and what a full disk or a fall of the machine may leave of one.
LINE = re.compile(rb"\d{4}-\d\d-\d\dT\d\d:\d\d:\d\d\.\d{3}Z \d+\.\d+\.\d+\.\d+:\d+ \d+ \d+\.\d{3} [a-z-]+")
CUT = re.compile(rb"\d[-0-9TZ:. a-z]{0,99}")
# So many bytes of a file's end are looked at.
END = 400


class NoLog(Exception):
    """Why a file can't be a log."""


def opened_to_write(path, more=0):
    """A file, which is made where there is none. A pipe that nobody reads isn't waited for: it is an OSError."""
    file = os.open(path, os.O_WRONLY | os.O_CREAT | os.O_CLOEXEC | os.O_NONBLOCK | more, 0o644)
    os.set_blocking(file, True)
    return file


def why_unopened(error):
    """The cause of an OSError of this."""
    return "no program reads this pipe" if error.errno == errno.ENXIO else error.strerror


def is_cut(path):
    """Whether a plain file ends in the middle of a line of a log. Another one than a log is refused."""
    with open(path, "rb") as reads:
        reads.seek(max(0, os.fstat(reads.fileno()).st_size - END))
        *lines, rest = reads.read().split(b"\n")
    if (lines and not LINE.fullmatch(lines[-1])) or (rest and not CUT.fullmatch(rest)):
        raise NoLog("it ends with no line of a log: name another file, or move it away")
    return bool(rest)


def so_many(count):
    return f"{count} line{'s' * (count > 1)}"


class Log:
    """A line for each connection that was open, when it ends: the time, the client, the port, for how many seconds, and how it ended.

    A line stands there whole or not at all. `.lacks` counts those that couldn't be written; when that begins and when it is over is told. Where the
    file has another name, or none, the next line begins a new one. Without a path nothing is kept.
    """
    def __init__(self, path=None):
        self.path, self.lacks, self.fails = path, 0, False
        if path is not None:
            self.open()

    def open(self):
        """Opens the file, where it is a log, or empty, or no plain file."""
        file = opened_to_write(self.path, os.O_APPEND)
        try:
            self.cut = stat.S_ISREG(os.fstat(file).st_mode) and is_cut(self.path)
        except BaseException:
            os.close(file)
            raise
        self.file = file

    def follow(self):
        """Opens the file anew, where the open one hasn't its name any more."""
        ours = os.fstat(self.file)
        if not stat.S_ISREG(ours.st_mode):
            return
        try:
            if os.path.samestat(ours, os.stat(self.path)):
                return
        except FileNotFoundError:
            pass
        left = self.file
        self.open()
        os.close(left)

    def write(self, line):
        """Appends a line, or nothing."""
        line, written = b"\n" * self.cut + line, 0
        try:
            while written < len(line):
                written += os.write(self.file, line[written:])
            self.cut = False
        except OSError:
            self.take_back(written)
            raise

    def take_back(self, written):
        """Cuts off so many bytes, the last that were written. Where that can't be, or somebody else has gone on behind them, the next line begins a new one."""
        try:
            end = os.lseek(self.file, 0, os.SEEK_CUR)
            if written and end == os.fstat(self.file).st_size:
                os.ftruncate(self.file, end - written)
            elif written:
                self.cut = True
        except OSError:
            self.cut = written > 0

    def append(self, line):
        try:
            self.follow()
            self.write(line)
        except (OSError, NoLog) as error:
            if not self.fails:
                tell(f"the log can't be written: {why_unopened(error) if isinstance(error, OSError) else error}")
            self.fails, self.lacks = True, self.lacks + 1
            return
        if self.fails:
            tell(f"the log goes on; it lacks {so_many(self.lacks)}")
        self.fails = False

    def facts(self):
        return {} if self.path is None else {"unlogged": self.lacks}

    def tell(self, ends, since, how):
        if self.path is None:
            return
        client, theirs, ours = socket.inet_ntoa(ends[:4]), *struct.unpack(">HH", ends[4:])
        at = time.time()
        clock = f"{time.strftime('%Y-%m-%dT%H:%M:%S', time.gmtime(at))}.{int(at * 1000) % 1000:03}Z"
        self.append(f"{clock} {client}:{theirs} {ours} {time.monotonic() - since:.3f} {how}\n".encode())
