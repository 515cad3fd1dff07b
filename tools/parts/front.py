"""From a person's files to a report: opens what is compressed, turns links and ports that sqrun leaves out, runs sqrun or sqshard."""
import bz2
import gzip
import lzma
import os
import re
import shlex
import shutil
import subprocess
import sys
import time
from contextlib import contextmanager, nullcontext
from dataclasses import dataclass, field
from pathlib import Path

import builds
import drawing
import links
import output
from capture import captures_of
from files import MAGICS, SECTION, Refused, map_file, plain, standard_in
from packets import KINDS, SERVICES
from refusals import explained

TOOLS = Path(__file__).resolve().parents[1]
TOP = TOOLS.parent
MOST_BYTES = 67_108_864
PACKED = ((b"\x1f\x8b", gzip.open), (b"\xfd7zXZ\0", lzma.open), (b"BZh", bz2.open), (b"\x28\xb5\x2f\xfd", None))
PIECE = 1 << 20
MOST_UNPACKED = 1 << 30     # bytes of what is unpacked, so that a small file can't fill a disk
STARTS = (*MAGICS, SECTION)
COUNTS = re.compile(rb"report [12]\nrecords (\d+) tail ([01]) " + b" ".join(kind.encode() + rb" (\d+)" for kind in KINDS) + rb" connections (\d+)\n")


class Progress:
    """One line on a terminal that says how far something is. On no terminal it says nothing."""

    def __init__(self, out=None, terminal=None):
        self.out = out or sys.stderr
        self.terminal = self.out.isatty() if terminal is None else terminal
        self.begin("", 0)

    def begin(self, what, whole):
        """`whole` is how much there is to do; 0 where nobody knows."""
        self.what, self.whole, self.begun, self.said, self.length = what, whole, time.monotonic(), 0.0, 0

    def tell(self, done, records=0):
        whole = f" of {self.whole / 1e6:,.1f}" if self.whole else ""
        self.say(done, f"{done / 1e6:,.1f}{whole} MB" + (f", {records:,} records" if records else ""))

    def step(self, done, unit):
        """For what isn't bytes: so many of the whole are done."""
        self.say(done, f"{done:,} of {self.whole:,} {unit}")

    def say(self, done, text):
        now = time.monotonic()
        if not self.terminal or now - self.said < 0.2:
            return
        self.said, took = now, now - self.begun
        left = f", {took * (self.whole - done) / done:.0f} s left" if 0 < done < self.whole and took > 1 else ""
        self.line(f"{self.what}: {text}{left}")

    def tick(self):
        """For what can't be measured: how long it takes so far."""
        now = time.monotonic()
        if self.terminal and now - self.said >= 0.2:
            self.said = now
            self.line(f"{self.what}{f' {self.whole / 1e6:,.1f} MB' if self.whole else ''}: {now - self.begun:.0f} s")

    def line(self, text):
        self.out.write("\r" + text + " " * max(0, self.length - len(text)))
        self.out.flush()
        self.length = len(text)

    def end(self):
        if self.terminal and self.length:
            self.out.write("\r" + " " * self.length + "\r")
            self.out.flush()
        self.length = 0


@dataclass
class Asked:
    """What is to be served, and how."""
    files: list
    words: list = field(default_factory=list)       # of sqrun
    ports: dict = field(default_factory=dict)
    sqrun: str = ""
    work: str = ""                                  # sqshard's folder, where it is to be kept


@dataclass
class Run:
    """A report, and the captures that it is of, as every tool here reads them."""
    report: Path
    captures: list
    counts: dict
    ports: links.Ports | None = None
    notes: list = field(default_factory=list)       # what was done beside plain serving, in words
    files: list = field(default_factory=list)       # the captures that were named, unpacked, with their links and ports


class Explained(Refused):
    """A line of sqrun's in place of a report, with what it means."""

    def __init__(self, line, status):
        super().__init__(line.removeprefix("sqrun: ") or f"sqrun ended with {status}", status if status > 0 else 1)
        self.meaning = explained(line)


def complain(tool, fault):
    """Tells a fault in one line or two; its status."""
    text, status = output.told(fault)
    meaning = getattr(fault, "meaning", "")
    print(f"{tool}: {plain(text)}" + (f"\n{meaning}" if meaning else ""), file=sys.stderr)
    return status


def opened(path, folder, number, told):
    """The file itself, or its bytes in the folder, unpacked. `-` is standard input, any pipe will do, and a folder may be a shard of sqshard's."""
    try:
        if (Path(path) / "0-head").is_file():
            return joined(Path(path), place(folder, f"shard-{number}", Path(path).name))
        path = kept(path, folder, number, told)
        with open(path, "rb") as data:
            start = data.read(8)
        packed = [opener for magic, opener in PACKED if start.startswith(magic)]
        if not packed:
            return Path(path)
        told.begin("unpacking", 0)
        return unpacked(path, packed[0], place(folder, f"unpacked-{number}", Path(path).name), told)
    except (EOFError, gzip.BadGzipFile, lzma.LZMAError, OSError, ValueError) as fault:
        if getattr(fault, "errno", None) in output.FULL:
            raise
        raise Refused(f"{str(path)!r}: {getattr(fault, 'strerror', None) or fault}", 4) from None
    finally:
        told.end()


def kept(path, folder, number, told):
    """A file that can be read again: standard input and pipes are copied."""
    if path != "-" and (os.path.isfile(path) or os.path.isdir(path) or not os.path.exists(path)):
        return path
    told.begin("reading", 0)
    name = "standard input" if path == "-" else Path(path).name
    with nullcontext(standard_in()) if path == "-" else open(path, "rb") as source:
        return copied(source, place(folder, f"input-{number}", name), told)


def joined(shard, end):
    """A shard of sqshard's as one capture."""
    with open(end, "wb") as out:
        for piece in sorted(shard.iterdir()):
            with open(piece, "rb") as data:
                shutil.copyfileobj(data, out)
    return end


def place(folder, stage, name):
    """A file in a folder of its own, with the name that people know."""
    (folder / stage).mkdir(exist_ok=True)
    return folder / stage / name


def copied(source, end, told):
    with open(end, "wb") as out:
        while piece := source.read(PIECE):
            out.write(piece)
            told.tell(out.tell())
    return end


def unpacked(path, opener, end, told):
    """What the opener reads, as a file; Zstandard is unpacked by its own program. What begins as no capture does isn't unpacked any further."""
    if opener is None and not shutil.which("zstd"):
        raise Refused(f"{str(path)!r} is a Zstandard file: needs the Debian package zstd", 2)
    with bounded(path, opener) as source, open(end, "wb") as out:
        while piece := source.read(PIECE):
            if out.tell() + len(piece) > MOST_UNPACKED:
                raise Refused(f"{str(path)!r} has more than {MOST_UNPACKED >> 30} GiB in it: unpack it by hand, and name what comes out", 7)
            if not out.tell() and piece[:4] not in STARTS:
                raise Refused(f"{str(path)!r} has no capture in it: it begins with {piece[:4].hex()}", 6)
            out.write(piece)
            told.tell(out.tell())
    return end


@contextmanager
def bounded(path, opener):
    """What is in a compressed file, as something to read from; no more of it is unpacked than is read."""
    if opener:
        with opener(path, "rb") as source:
            yield source
        return
    with open(path, "rb") as data, subprocess.Popen(["zstd", "-dcq"], stdin=data, stdout=subprocess.PIPE, stderr=subprocess.PIPE) as running:
        try:
            yield running.stdout
            said = running.stderr.read()
        except Refused:
            running.kill()
            raise
    if running.returncode:
        raise Refused(f"{str(path)!r}: {said.decode(errors='replace').strip()[:200]!r}", 4)


def files_of(names):
    """The files of these names; a folder of sqshard's stands for its captures."""
    for name in names:
        if name != "-" and (Path(name) / "captures.json").is_file():
            yield from map(str, captures_of(Path(name)))
        else:
            yield name


def plain_files(names, folder, told):
    """The captures of these names, each as a plain file."""
    return [opened(path, folder, n, told) for n, path in enumerate(files_of(names))]


def prepared(asked, folder, told):
    """The captures as sqrun reads them: the files themselves, or one of raw IP in the folder. Answers them, the ports, and notes."""
    paths = plain_files(asked.files, folder, told)
    if not asked.ports and len(paths) == 1 and links.is_plain(paths[0], map_file(paths[0])):
        return paths, None, []
    return convert(paths, folder, asked.ports, told)


def convert(paths, folder, table, told):
    ports = links.Ports(table) if table else None
    told.begin("reading", sum(os.stat(path).st_size for path in paths))
    end = place(folder, "raw", paths[0].name)
    links.convert(paths, end, ports, told.tell)
    told.end()
    unused = [f"no segment to or from port {real}" for real in table if ports and real not in ports.real.values()]
    notes = [f"{'its packets' if len(paths) == 1 else f'{len(paths)} captures'} turned into raw IP" + "".join(
        f", port {real} into {port}" for real, port in table.items())]
    return [end], ports, notes + unused


def run(asked, folder, told):
    """Serves the files. Refused with sqrun's line and what it means, where there is no report."""
    files = plain_files(asked.files, folder, told)
    captures, ports, notes = prepared(Asked(files, asked.words, asked.ports), folder, told)
    made = serve(asked, captures, folder, told)
    if made is not None and made.counts["other"] and not notes and any(links.has_stacked_tags(path) for path in captures):
        captures, ports, notes = convert(captures, folder, {}, told)
        made = serve(asked, captures, folder, told)
    if made is None:
        made = shard(asked, captures, folder, told)
        notes = notes + ["served in shards, since one run is limited"]
    made.ports, made.files = ports, files
    made.notes = notes + [builds.NOTE] * builds.is_unproved(builds.command("sqrun", asked.sqrun))
    return made


def split(asked):
    """Whether shards may serve it: they have neither CALLs nor marks."""
    return not any(word == "--trace" or not word.startswith("-") and ":" in word for word in asked.words)


def without(captures, records, folder, told):
    """The captures as one, without these records, which keep their places."""
    end = place(folder, "received", Path(captures[0]).name)
    told.begin("reading", sum(os.stat(path).st_size for path in captures))
    links.convert(captures, end, None, told.tell, records)
    told.end()
    return end


def nothing_served(run):
    """What is there instead, where nothing was served, and what to do."""
    seen = links.Seen(run.captures)
    if run.counts["cut"] and any(port in seen.tcp for port in SERVICES):
        return (f"nothing whole to port 7 or 9: {drawing.plural(run.counts['cut'], 'packet')} {'is' if run.counts['cut'] == 1 else 'are'} cut short. "
                "Capture again with whole packets: `tcpdump -s 0`")
    busiest = seen.tcp.most_common(1)
    if run.counts["server"] and busiest and busiest[0][0] in SERVICES:
        return f"nothing to port 7 or 9: the capture has only what their servers sent. Capture both directions: `tcpdump port {busiest[0][0]}`"
    advice = f"--port {busiest[0][0]}=9 serves the first as discard, ={7} as echo" if busiest else "sqrun serves TCP over IPv4"
    mistaken = "; UDP to port 7 or 9 is sqmore's" if {7, 9, 19} & set(seen.udp) else ""
    return f"nothing to port 7 or 9: the capture has {seen.words()}. {advice}{mistaken}"


def serve(asked, captures, folder, told):
    """One run of sqrun, or None where only shards can serve what is asked."""
    size = sum(os.stat(path).st_size for path in captures)
    if size > MOST_BYTES and split(asked):
        return None
    report = folder / "report"
    told.begin("serving", size)
    with open(captures[0], "rb") as data, open(report, "wb") as out:
        done = subprocess.Popen([*builds.command("sqrun", asked.sqrun), *asked.words], stdin=data, stdout=out, stderr=subprocess.PIPE)
        try:
            said = waited(done, told)
        finally:
            done.kill()                 # where this tool is told to stop before it ends
            done.wait()
    told.end()
    if done.returncode == 7 and "marks" not in said and split(asked):
        return None
    if done.returncode:
        raise Explained(said, done.returncode)
    counts = counted(report)
    if counts["nofit"] and split(asked):
        return None
    return Run(report, captures, counts)


def last_line(said):
    """What a program said last, without its own name."""
    lines = said.decode(errors="replace").strip().splitlines() or ["it failed, and said nothing"]
    return lines[-1].removeprefix("sqshard: ")


def waited(running, told):
    """What a program says on its error output until it ends."""
    while running.poll() is None:
        try:
            running.wait(0.2)
        except subprocess.TimeoutExpired:
            told.tick()
    return running.stderr.read().decode(errors="replace").strip()


def counted(report):
    with open(report, "rb") as data:
        found = COUNTS.match(data.read(1024))
    if not found:
        raise Refused("sqrun ended well, and wrote no report")
    return dict(zip(("records", "tail", *KINDS, "connections"), map(int, found.groups())))


def shard(asked, captures, folder, told):
    """One report by sqshard."""
    work, report = Path(asked.work) if asked.work else folder / "shards", folder / "report"
    told.begin("serving in shards", 0)
    words = [sys.executable, TOOLS / "sqshard", "run", *["--verify"] * ("--verify" in asked.words), "--sqrun", shlex.join(builds.command("sqrun", asked.sqrun)), work, *captures]
    with open(report, "wb") as out:
        done = subprocess.run(list(map(str, words)), stdin=subprocess.DEVNULL, stdout=out, stderr=None if told.terminal else subprocess.PIPE)
    told.end()
    if done.returncode:
        raise Refused(last_line(done.stderr or b"sqshard failed"), done.returncode)
    return Run(report, captures, counted(report))
