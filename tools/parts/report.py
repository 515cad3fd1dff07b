"""A report of sqrun, version 1 or 2 (with marks), read line by line, and joined with the capture that it is of.

A report may come from anybody: each number has a bound, a range of feeds stays a range until a capture says that there are so many, and
what stands in a line is shown in quotes.
"""
import io
import re
from dataclasses import dataclass, field

from capture import Connection, tcp_segment
from files import Refused
from packets import KINDS

STATES = "LISTEN|SYN-RECEIVED|ESTABLISHED|FIN-WAIT-1|FIN-WAIT-2|CLOSE-WAIT|CLOSING|LAST-ACK|TIME-WAIT"
N = r"\d{1,20}"             # a number: no more than 64 bits have
ENDPOINT = r"(?:\d{1,3}\.){3}\d{1,3}:\d{1,5}"
LINES = {name: re.compile(form, re.ASCII) for name, form in {
    "records": rf"records ({N}) tail ([01]) " + " ".join(rf"{kind} ({N})" for kind in KINDS) + rf" connections ({N})",
    "conn": rf"conn ({N}) ({ENDPOINT} {ENDPOINT}) (echo|discard)",
    "order": rf"order((?: f{N}(?:-{N})?| c[0-3]\.{N})+)",
    "reply": rf"reply ({N}) ((?:[0-9a-f]{{2}}){{40,}})",
    "answer": rf"answer ([0-3]) ({N}) ((?:{STATES}) {N} {N} {N}|ok|notopen|already)",
    "end": rf"end ({STATES})",
    "setup": rf"setup squeues (\d{{1,2}}) rings (\d) mode (process|nodrain|fill) budget (\d{{1,5}}) spread ({N}) verify ([01])",
    "call": rf"call ([0-3]):({N}):(status|close|buffer={N})",
    "squeue": rf"squeue (\d{{1,2}}) marks ({N})"}.items()}
ENTERED = re.compile(rf"(?: {N}\.{N})+", re.ASCII)
LEFT = re.compile(rf"none|away|call {N} [0-3] {N}|out {N}|in {N}", re.ASCII)
MOST_SQUEUES, MOST_RINGS, THREADS = 16, 8, 4


@dataclass
class Served:
    """What the report says of one connection."""
    tuple: str
    service: str
    order: list = field(default_factory=list)       # ranges of feeds, and (thread, call)
    replies: list = field(default_factory=list)     # Segments
    answers: dict = field(default_factory=dict)     # (thread, call) -> text
    end: str = ""

    def acts(self):
        """A feed's number, or (thread, call), one by one."""
        for one in self.order:
            if isinstance(one, range):
                yield from one
            else:
                yield one

    def ended(self):
        """How it stands at the end: sqrun is in LISTEN again behind a close or a reset, and where nothing was ever opened."""
        if self.end != "LISTEN":
            return self.end
        return "closed" if any(r.flags & 2 for r in self.replies) else "never open"

    def feeds(self):
        """One more than the greatest feed's number."""
        return max((one.stop for one in self.order if isinstance(one, range)), default=0)


@dataclass(slots=True)
class Mark:
    kind: str
    p: int                  # the pass that made it
    entries: tuple = ()     # (connection, feed), or ("ask", pass)
    rest: int = 0           # how much of the owner's hand went back
    act: tuple = ()         # what a synchronous owner did
    j: int = -1             # the pass that it was granted to


@dataclass
class Report:
    counts: dict
    conns: list = field(default_factory=list)
    setup: dict | None = None
    calls: dict = field(default_factory=dict)       # (thread, call) -> text
    called: dict = field(default_factory=dict)      # (thread, call) -> the connection
    squeues: list = field(default_factory=list)     # lists of Marks

    def verified(self):
        """Whether segments with a wrong checksum were left out, or there were none."""
        return self.counts["badsum"] > 0 or bool(self.setup and self.setup["verify"])

    def most(self):
        """How many connections of the capture are served: all, or where some had no place, those of the report."""
        return self.counts["connections"] if self.counts["nofit"] else None


def acts(words):
    """The order's words as ranges and calls; feeds rise."""
    out, least = [], 0
    for word in words.split():
        if word[0] == "c":
            j, _, k = word[1:].partition(".")
            out.append((int(j), int(k)))
        else:
            first, _, last = word[1:].partition("-")
            one = range(int(first), int(last or first) + 1)
            if one.start < least or not one:
                raise ValueError
            out.append(one)
            least = one.stop
    return out


def number(word):
    if not word.isdecimal() or len(word) > 20:
        raise ValueError
    return int(word)


def mark(line):
    kind, _, rest = line.partition(" ")
    first, _, more = rest.partition(" ")
    p = number(first)
    if kind in ("take", "ask", "accept", "work", "close") and not more:
        return Mark(kind, p)
    if kind == "claim" and more == "ask":
        return Mark(kind, p, (("ask", p),))
    if kind in ("fill", "fast", "claim") and ENTERED.fullmatch(" " + more):
        return Mark(kind, p, tuple(tuple(map(int, feed.split("."))) for feed in more.split(" ")))
    if kind == "grant":
        j, left = more.split(" ")
        return Mark(kind, p, j=number(j), rest=number(left))
    left, _, act = more.partition(" ")
    if kind == "leave" and LEFT.fullmatch(act):
        name, *numbers = act.split(" ")
        return Mark(kind, p, rest=number(left), act=(name, *map(int, numbers)))
    raise ValueError


class Reader:
    """Takes a report's lines one after another. A line that can't stand where it stands raises ValueError."""

    def __init__(self, version, datagrams=True):
        self.version, self.report, self.threads, self.due, self.ended, self.datagrams = version, None, {}, 0, True, datagrams
        self.passes = 0

    def line(self, line):
        if self.due:
            found = mark(line)
            if max(found.p, found.j) >= self.passes:
                raise ValueError
            self.report.squeues[-1].append(found)
            self.due -= 1
            return
        name = line.partition(" ")[0]
        found = LINES[name].fullmatch(line) if name in LINES else None
        if not found or (self.report is None) != (name == "records") or self.report and self.report.setup and name not in ("call", "squeue"):
            raise ValueError
        getattr(self, "take_" + name)(found)

    def take_records(self, found):
        self.report = Report(dict(zip(("records", "tail", *KINDS, "connections"), map(int, found.groups()))))

    def take_conn(self, found):
        if int(found[1]) != len(self.report.conns) or not self.ended:
            raise ValueError
        self.report.conns.append(Served(found[2], found[3]))
        self.ended = False

    def current(self):
        if self.ended:
            raise ValueError
        return self.report.conns[-1]

    def take_order(self, found):
        if self.current().order:
            raise ValueError
        self.current().order = acts(found[1])

    def take_reply(self, found):
        data = bytes.fromhex(found[2])
        segment = tcp_segment(int(found[1]), data, 20)
        if data[0] != 0x45 or segment.length < 0 or data[32] < 0x50 or segment.at >= 2 ** 63:
            raise ValueError
        if not self.datagrams:
            segment.datagram = b""
        self.current().replies.append(segment)

    def take_answer(self, found):
        self.current().answers[int(found[1]), int(found[2])] = found[3]

    def take_end(self, found):
        self.current().end = found[1]
        self.ended = True

    def take_setup(self, found):
        if self.version != 2 or not self.ended:
            raise ValueError
        squeues, rings, mode, budget, spread, verify = found.groups()
        if not 1 <= int(squeues) <= MOST_SQUEUES or not 1 <= int(rings) <= MOST_RINGS:
            raise ValueError
        self.report.setup = {"squeues": int(squeues), "rings": int(rings), "mode": mode, "budget": int(budget),
                             "spread": int(spread), "verify": int(verify)}
        self.passes = int(rings) + THREADS + 1

    def take_call(self, found):
        j = int(found[1])
        k = self.threads[j] = self.threads.get(j, -1) + 1
        if self.report.setup is None or self.report.squeues:
            raise ValueError
        self.report.calls[j, k], self.report.called[j, k] = found[3], int(found[2])

    def take_squeue(self, found):
        if self.report.setup is None or int(found[1]) != len(self.report.squeues):
            raise ValueError
        self.report.squeues.append([])
        self.due = int(found[2])

    def is_whole(self):
        return (self.report is not None and self.ended and not self.due and len(self.report.conns) == self.report.counts["connections"]
                and (self.version == 1 or self.report.setup is not None and len(self.report.squeues) == self.report.setup["squeues"]))


def read_lines(lines, name, datagrams=True):
    """The report in these lines of bytes, each with its end. One that isn't a report's is refused by its number.

    Without `datagrams` each reply's bytes are forgotten when it has been read.
    """
    reader, done, number = None, False, 0
    for number, line in enumerate(lines, 1):
        if not line.isascii():
            raise Refused(f"{name}: a report has plain ASCII alone, and line {number} has more")
        line = line.decode("ascii")
        if reader is None:
            if line not in ("report 1\n", "report 2\n"):
                raise Refused(f"{name}: line 1 isn't `report 1` or `report 2`")
            reader = Reader(int(line[-2]), datagrams)
            continue
        try:
            if done or line[-1:] != "\n":
                raise ValueError
            if line == "done\n" and not reader.due:
                done = True
            else:
                reader.line(line[:-1])
        except ValueError:
            if line[-1:] != "\n":
                break
            raise Refused(f"{name}: line {number} isn't a report's, or not there: {line[:60].rstrip()!r}") from None
    if reader is None:
        raise Refused(f"{name}: line 1 isn't `report 1` or `report 2`")
    if not done:
        raise Refused(f"{name}: the report isn't whole: its last line isn't `done`")
    if not reader.is_whole():
        raise Refused(f"{name}: the report isn't whole: lines are missing before `done`")
    return reader.report


def read(text, name):
    """The report in a text."""
    return read_lines(io.BytesIO(text.encode()), name)


def join(report, capture, name, capture_name):
    """The captured connections, if the report is of this capture."""
    if capture.records != report.counts["records"]:
        raise Refused(f"{name} is of {report.counts['records']} records, and {capture_name} has {capture.records}")
    if len(capture.conns) != len(report.conns):
        raise Refused(f"{name} has {len(report.conns)} connections, and {capture_name} has {len(capture.conns)}")
    for c, (served, captured) in enumerate(zip(report.conns, capture.conns)):
        if served.tuple != captured.tuple:
            raise Refused(f"connection {c} is {served.tuple} in {name} and {captured.tuple} in {capture_name}")
        if served.feeds() > len(captured.items):
            raise Refused(f"connection {c} is fed {served.feeds()} times in {name}, and {capture_name} has {len(captured.items)} of it")
    return capture.conns


def without_capture(report):
    return [Connection(served.tuple, served.service) for served in report.conns]
