"""A set of captures as shards, each small enough for one sqrun: begin, scan, plan, deal and merge over a directory of plain files.

The captures are one capture: their whole records, in the order given, with times in whole microseconds. Connections are numbered as
one run would number them, and a shard holds neighbouring ones, so the shards' reports follow one another in the whole report.

    captures.json       what is to be done: files with size and time of change, and whether checksums are verified
    words               the words for sqrun
    pieces              a line for each part of a file that is scanned alone: its name N, the file's number, first byte, last, records before
    tables/N/           of piece N: about.json; connections (each as struct connection of records.c: addresses and ports, and what is known);
                        owners (by record a 32-bit number, the connection within this piece, or -1); capture.pcap, if it was a pcapng
    plan.json           the counts, each shard's first connection, the counts that each shard's report must have, and about its size at most
    tuples              by number 12 bytes: client address, server address, client port, server port
    files/N.json, N.shards    where piece N's records go: by its connections a 32-bit shard number
    shards/S/           0-head, 1-N (the records of piece N), 2-tail: together a capture
    logs/               what the tasks of a Slurm array said
    reports/S, sums/S   what sqrun said of it, and the BLAKE2 sum of that as b2sum prints it
All numbers in binary files are little-endian, but those in tuples, which are as in a packet.
"""
import hashlib
import json
import os
import re
import shutil
import stat
import sys
from array import array
from struct import Struct

from drawing import plural
from files import MOST_BODY, Records, Refused, header, is_pcapng
from packets import KINDS, LINK_SIZE, OTHER
from records import CONNECTION, LINE, Mapped, One, TooLong, deal as deal_records, little, packets_of, scan as scan_records, walk

MOST_BYTES, MOST_RECORDS, MOST_CONNECTIONS = 67_108_864, 1_048_576, 4_096      # of one run
MOST_REPORT = 640 << 20             # bytes of a shard's report, at most about, unless one connection alone may make more
MEMORY_BASE, MEMORY_IN, MEMORY_OUT = 32 << 20, 6, 1.6       # of a run: so much, and times the bytes that it reads and writes
PIECE_BYTES = 64 << 20
RECORD = Struct("<IIII")
REST_WEIGHT = MOST_BYTES - MOST_BODY - 1024
HELD_BYTES = 64 << 20
READ_BYTES = 4 << 20
FILE_HEAD = Struct("<IHHIIII")
FOLDERS = ("tables", "files", "dealt", "shards", "reports", "sums", "logs")


def replace(path, data):
    """Writes a file whole or not at all, so that a stage can be done again."""
    spare = path.with_name(f"{path.name}.{os.getpid()}")
    spare.write_bytes(data if isinstance(data, bytes) else json.dumps(data).encode() + b"\n")
    spare.rename(path)


def numbers(code, data):
    """The array of little-endian numbers in these bytes."""
    out = array(code, data)
    if sys.byteorder == "big":
        out.byteswap()
    return out


def name(number):
    return f"{number:06}"


def tuple_text(key):
    a, b = (".".join(map(str, key[i:i + 4])) for i in (0, 4))
    return f"{a}:{key[8] << 8 | key[9]} {b}:{key[10] << 8 | key[11]}"


def megabytes(size):
    return f"{size / 1e6:,.1f} MB" if size < 1e8 else f"{size / 1e6:,.0f} MB"


# What is to be done.

def begin(work, captures, verify, piece_bytes=PIECE_BYTES):
    """Writes it down, or refuses where the directory is of other captures."""
    listed = []
    for path in captures:
        state = os.stat(path)
        if not stat.S_ISREG(state.st_mode):
            raise Refused(f"{path!r} is no plain file, and sqshard reads each more than once: keep it in a file first", 2)
        listed.append({"path": os.path.abspath(path), "size": state.st_size, "changed": state.st_mtime_ns})
    asked = {"verify": verify, "captures": listed}
    if work.is_dir() and not (work / "captures.json").exists() and (others := sorted(path.name for path in work.iterdir() if not is_ours(path))):
        raise Refused(f"{str(work)!r} is no folder of sqshard's, and has {others[0]!r}: name a new one", 2)
    for folder in FOLDERS:
        (work / folder).mkdir(parents=True, exist_ok=True)
    if not (work / "captures.json").exists():
        replace(work / "words", b"--verify\n" if verify else b"\n")
        replace(work / "captures.json", asked)
    if json.loads((work / "captures.json").read_text()) != asked:
        raise Refused(f"{work} is of other captures, or of these before they changed: take a new directory", 2)
    if not (work / "pieces").exists():
        lines, count = [], 0
        for number, one in enumerate(listed):
            for piece in cut(one["path"], one["size"], piece_bytes):
                lines.append(" ".join(map(str, (name(count), number, *piece))))
                count += 1
        replace(work / "pieces", "".join(f"{line}\n" for line in lines).encode())


def is_ours(path):
    """Whether it's what a stage leaves that was ended while it began."""
    if path.is_dir():
        return path.name in FOLDERS
    return path.name.split(".")[0] in ("words", "captures") and path.read_bytes()[:10] in (b"", b"\n", b"--verify\n", b'{"verify":')


def cut(path, size, piece_bytes):
    """(first byte, last, records before) of each piece of a file. A small file, and a pcapng, are one piece."""
    if size <= piece_bytes:
        return [(0, size, 0)]
    mapped = Mapped(path)
    if is_pcapng(mapped.data):
        return [(0, size, 0)]
    form, out, at, before = header(path, mapped.data), [], 24, 0
    while size - at > piece_bytes:
        to, records = walk(mapped, at, size, at + piece_bytes, form)
        if to < at + piece_bytes:           # a record that is cut or too long: what is left is one piece, and the scan says so
            break
        out.append((at, to, before))
        at, before = to, before + records
    return out + [(at, size, before)] * (at < size or not out)


def pieces(work):
    """(name, capture's number, first byte, last, records before) of each piece."""
    return [(line.split()[0], *map(int, line.split()[1:])) for line in (work / "pieces").read_text().splitlines()]


def piece(work, wanted):
    for one in pieces(work):
        if one[0] == wanted:
            return one
    raise Refused(f"{work} has no piece {wanted!r}", 2)


# Scan: one piece.

def as_pcap(path, folder):
    """A pcapng's records as a pcap in the folder, and whether the last one was cut."""
    mapped = Mapped(path)
    with open(folder / "capture.pcap", "wb") as out:
        out.write(bytes(24))
        records = Records(path, mapped.data, packets_of(mapped, out.write))
        for time, body in records:
            seconds = min(time // 1_000_000, 0xffff_ffff)
            if time - seconds * 1_000_000 > 0xffff_ffff:
                raise Refused(f"{path}: a time of {time} microseconds is past what a pcap says", 6)
            out.write(RECORD.pack(seconds, time - seconds * 1_000_000, len(body), len(body)) + body)
        out.seek(0)
        out.write(FILE_HEAD.pack(0xa1b2c3d4, 2, 4, 0, 0, MOST_BODY, records.link))
    return records.cut


def scan(work, wanted):
    asked = json.loads((work / "captures.json").read_text())
    _, number, at, to, before = piece(work, wanted)
    path, whole = asked["captures"][number]["path"], asked["captures"][number]["size"]
    folder, spare = work / "tables" / wanted, work / "tables" / f"{wanted}.{os.getpid()}"
    if folder.exists():
        return
    spare.mkdir()
    try:
        mapped, cut_block, source = Mapped(path), False, path
        pcapng = is_pcapng(mapped.data)
        if pcapng:
            cut_block, source = as_pcap(path, spare), spare / "capture.pcap"
            mapped, at = Mapped(source), 0
            to = whole = mapped.size
        form = header(path, mapped.data)
        try:
            found = scan_records(path, mapped, max(at, 24), to, form, asked["verify"])
        except TooLong as fault:
            raise Refused(f"{path}: record {before + fault.args[0]} has length {fault.args[1]}", 6) from None
        if found.end < to < whole:
            raise Refused(f"{path} isn't what it was when it was cut into pieces: take a new directory", 2)
        replace(spare / "about.json", {"path": path, "link": form[2], "counts": found.counts, "last": found.last, "cut": cut_block or found.end < to,
                                       "rest": found.rest, "pcapng": pcapng, "from": max(at, 24)})
        replace(spare / "connections", found.connections)
        replace(spare / "owners", bytes(found.owners))
        spare.rename(folder)
    finally:
        shutil.rmtree(spare, ignore_errors=True)


# Plan: all pieces.

class Whole:
    """The connections of all pieces, numbered by their first served segment."""

    def __init__(self):
        self.numbers = {}
        self.ones = []              # by number what is known of it
        self.files = []             # about each piece
        self.mine = []              # by piece: its connections' numbers among all

    def add(self, work, wanted):
        about = json.loads((work / "tables" / wanted / "about.json").read_text())
        self.files.append(about)
        if about["link"] != self.files[0]["link"]:
            raise Refused(f"{about['path']}: second link type {about['link']}", 6)
        local = array("I")
        for fields in CONNECTION.iter_unpack((work / "tables" / wanted / "connections").read_bytes()):
            c = self.numbers.setdefault(fields[0], len(self.numbers))
            if c == len(self.ones):
                self.ones.append(One(*fields))
            else:
                self.join(self.ones[c], One(*fields))
            local.append(c)
        self.mine.append(local)

    @staticmethod
    def join(one, more):
        """What is known of it in two pieces, one behind the other."""
        one.wait(more.first)
        one.records, one.octets, one.report = one.records + more.records, one.octets + more.octets, one.report + more.report
        one.text, one.again, one.last = max(one.text, more.text), more.again, max(one.last, more.last)

    def fill(self, room, wanted_bytes, wanted_connections):
        """Each shard's first connection, each connection's shard, and each shard's bytes and report: neighbours, filled in order."""
        last, shard_of, shards = max(about["last"] for about in self.files), array("I"), []
        for c, one in enumerate(self.ones):
            one.wait(last)
            report = one.report + 4 * LINE + 12 * one.records
            if one.octets > room or one.records > MOST_RECORDS - 1:
                raise Refused(f"connection {c} {tuple_text(one.ends)} alone has {one.records:,} records in {one.octets:,} bytes, more than one run takes: "
                              "cut the capture by time, as by `editcap -B TIME IN OUT`", 7)
            now = shards[-1] if shards else None
            if not now or now["bytes"] + one.octets > min(room, wanted_bytes) or now["records"] + one.records > MOST_RECORDS - 1 or \
                    now["report"] + report > MOST_REPORT or c - now["first"] == wanted_connections:
                now = {"first": c, "bytes": 0, "records": 0, "report": 0}
                shards.append(now)
            now["bytes"] += one.octets
            now["records"] += one.records
            now["report"] += report
            shard_of.append(len(shards) - 1)
        return shards, shard_of


def last_record(link, time):
    """A record that counts as other, at the greatest time of all: so each shard's connections are told it."""
    size = LINK_SIZE[link]
    body = bytes(size - 2) + b"\x86\xdd" if size else b"\x60"
    seconds = min(time // 1_000_000, 0xffff_ffff)
    return RECORD.pack(seconds, time - seconds * 1_000_000, len(body), len(body)) + body


def memory(size_in, size_out):
    """About how much a run with so many bytes of capture and of report takes."""
    return int(MEMORY_BASE + MEMORY_IN * size_in + MEMORY_OUT * size_out)


def plan(work, shard_bytes=MOST_BYTES, shard_conns=MOST_CONNECTIONS):
    """Numbers the connections and fills the shards; says what came of it in a line."""
    whole, names = Whole(), [one[0] for one in pieces(work)]
    for wanted in names:
        whole.add(work, wanted)
    link = whole.files[0]["link"]
    tail = last_record(link, max(about["last"] for about in whole.files))
    shards, shard_of = whole.fill(MOST_BYTES - 24 - len(tail), shard_bytes, min(shard_conns, MOST_CONNECTIONS))
    rest = 0
    for wanted, about, local in zip(names, whole.files, whole.mine):
        replace(work / "files" / f"{wanted}.shards", little(array("I", (shard_of[c] for c in local))))
        replace(work / "files" / f"{wanted}.json", {"rest_from": rest, "first_rest": len(shards), "pcapng": about["pcapng"], "path": about["path"],
                                                    "from": about["from"]})
        rest += about["rest"]
    rests = -(-rest // REST_WEIGHT)
    make_shards(work, len(shards) + rests, FILE_HEAD.pack(0xa1b2c3d4, 2, 4, 0, 0, MOST_BODY, link), tail)
    replace(work / "tuples", b"".join(whole.numbers))
    needed = max([memory(one["bytes"], one["report"]) for one in shards] + [memory(min(rest, MOST_BYTES), 0)])
    replace(work / "plan.json", {
        "link": link, "connections": len(whole.ones), "firsts": [one["first"] for one in shards], "rests": rests, "served": [one["records"] for one in shards],
        "reports": [one["report"] for one in shards], "memory": needed, "cut": any(about["cut"] for about in whole.files),
        "counts": [sum(about["counts"][k] for about in whole.files) for k in range(len(KINDS))]})
    largest = max(shards, key=lambda one: one["report"], default={"bytes": 0, "report": 0})
    return (f"{sum(sum(about['counts']) for about in whole.files):,} records, {plural(len(whole.ones), 'connection')}: {plural(len(shards), 'shard')}, and {rests} of what is "
            f"served nowhere; no report has more than about {megabytes(largest['report'])}, and no shard needs more than about {megabytes(needed)} of memory")


def make_shards(work, count, head, tail):
    for s in range(count):
        folder = work / "shards" / name(s)
        folder.mkdir(exist_ok=True)
        (folder / "0-head").write_bytes(head)       # plan.json is written last, so a stage that was killed does it again
        (folder / "2-tail").write_bytes(tail)


# Deal: one piece.

def deal(work, wanted):
    """Copies each record, unchanged but for its header's form, to its shard."""
    if (work / "dealt" / wanted).exists():
        return
    about, planned = (json.loads(path.read_text()) for path in (work / "files" / f"{wanted}.json", work / "plan.json"))
    owners = numbers("i", (work / "tables" / wanted / "owners").read_bytes())
    shards = numbers("I", (work / "files" / f"{wanted}.shards").read_bytes())
    path = work / "tables" / wanted / "capture.pcap" if about["pcapng"] else about["path"]
    mapped, begun = Mapped(path), set()

    def give(shard, piece):
        with open(work / "shards" / name(shard) / f"1-{wanted}", "ab" if shard in begun else "wb") as out:
            out.write(piece)
        begun.add(shard)
    rest = about["first_rest"], REST_WEIGHT, about["rest_from"], len(planned["firsts"]) + planned["rests"]
    deal_records(path, mapped, about["from"], header(path, mapped.data), owners, shards, rest, HELD_BYTES, give)
    (work / "dealt" / wanted).touch()


# Merge.

COUNTS = re.compile(rb"report 1\nrecords (\d+) tail 0 " + b" ".join(kind.encode() + rb" (\d+)" for kind in KINDS) + rb" connections (\d+)\n")


ENDED = re.compile(rb"\nend [A-Z0-9-]{1,20}\n\Z")
LAST = 40                           # so many bytes of the end of a report hold its last two lines


class Damaged(Refused):
    """A shard's report that isn't what it has to be: serve it again."""

    def __init__(self, shard, text):
        super().__init__(f"{text}; serve it again: `sqshard run` does, or remove it")
        self.shard = shard


def counts_of(path):
    """The counts of a report, and how long its head is."""
    try:
        with open(path, "rb") as f:
            found = COUNTS.match(f.read(512))
    except FileNotFoundError:
        raise Damaged(path.name, f"{path}: no report") from None
    if not found:
        raise Damaged(path.name, f"{path}: no whole report")
    counts = [int(n) for n in found.groups()][1:-1]
    counts[OTHER] -= 1                  # the record at the greatest time
    return counts, found.end()


def looks_whole(work, shard):
    """Whether a report begins and ends as one, and its sum is there."""
    path = work / "reports" / shard
    try:
        counts_of(path)
        with open(path, "rb") as f:
            f.seek(-6, os.SEEK_END)
            return f.read() == b"\ndone\n" and (work / "sums" / shard).stat().st_size >= 64
    except (Damaged, OSError):
        return False


def sum_of(path):
    with open(path, "rb") as f:
        return hashlib.file_digest(f, hashlib.blake2b).hexdigest()


def parts_of(path, at, seen):
    """A report from a byte on, in parts: (text before a connection's line, that line), and at the end (text, nothing)."""
    with open(path, "rb") as f:
        seen(f.read(at))
        text, begin = b"\n", 1                  # so that each line of a connection stands behind a line's end
        while more := f.read(READ_BYTES):
            seen(more)
            text, search = text + more, 0
            while (found := text.find(b"\nconn ", search)) >= 0 and (end := text.find(b"\n", found + 1)) >= 0:
                yield text[begin:found + 1], text[found + 1:end]
                begin = search = end
            keep = found if found >= 0 else max(begin, len(text) - 6)
            yield text[begin:keep], b""
            text, begin = text[keep:], max(begin - keep, 0)
        yield text[begin:], b""


class Shard:
    """One shard's report: its connections `first` to `end` of all, which `tuples` names."""

    def __init__(self, work, s, first, end, tuples, planned):
        self.shard, self.path, self.sum = name(s), work / "reports" / name(s), work / "sums" / name(s)
        self.first, self.end, self.tuples, self.planned = first, end, tuples, planned

    def damaged(self, text):
        return Damaged(self.shard, f"{self.path}: {text}")

    def parts(self, seen=lambda data: None):
        """The text of the connections as it stands in the whole report; refuses unless they are the plan's, and each has its end."""
        at, c, last = counts_of(self.path)[1], self.first, b"\nend -\n"
        for text, line in parts_of(self.path, at, seen):
            last = (last + text)[-LAST:]
            if c == self.first < self.end and text:
                raise self.damaged("no connection where one has to be")
            yield text
            if line:
                said = line.split(b" ")
                if c == self.end or said[1:4] != [b"%d" % (c - self.first), *tuple_text(self.tuples[12 * c:12 * c + 12]).encode().split(b" ")]:
                    raise self.damaged(f"{line.decode(errors='replace')[:80]!r} isn't connection {c}")
                if not ENDED.search(last):
                    raise self.damaged(f"no end before connection {c}")
                yield b" ".join([b"conn", b"%d" % c, *said[2:]])
                c, last = c + 1, b""
        if c != self.end:
            raise self.damaged(f"{c - self.first} connections, not {self.end - self.first}")
        if not last.endswith(b"\ndone\n") or not ENDED.search(last[:-5]):
            raise self.damaged("no whole report")

    def check(self):
        """Reads it once; its counts, and whether it has a sum that it was compared with."""
        digest, (counts, _) = hashlib.blake2b(), counts_of(self.path)
        if self.planned and counts != self.planned:
            raise self.damaged(f"counts {counts}, the plan has {self.planned}")
        for _ in self.parts(digest.update):
            pass
        try:
            wanted = self.sum.read_text(errors="replace").split()[:1]
        except FileNotFoundError:
            return counts, False
        if wanted != [digest.hexdigest()]:
            raise self.damaged("isn't what it was when it was served, by its BLAKE2 sum")
        return counts, True


class Merge:
    """The shards' reports on their way into one."""

    def __init__(self, work):
        self.work, self.about = work, json.loads((work / "plan.json").read_text())
        firsts, all_of_them, tuples = self.about["firsts"], self.about["connections"], (work / "tuples").read_bytes()
        none = [0] * (len(KINDS) - 1)
        self.shards = [Shard(work, s, first, end, tuples, [served, *none]) for s, (first, end, served) in enumerate(
            zip(firsts, firsts[1:] + [all_of_them], self.about["served"]))]
        self.rests = [Shard(work, len(firsts) + r, all_of_them, all_of_them, tuples, None) for r in range(self.about["rests"])]

    def check(self):
        """Refuses unless each report is whole and its shard's, and all counts are those of the scans. How many have no sum."""
        sums, without = [0] * len(KINDS), 0
        for shard in self.shards + self.rests:
            counts, has_sum = shard.check()
            sums = [a + b for a, b in zip(sums, counts)]
            without += not has_sum
        if sums != self.about["counts"]:
            raise Refused(f"{self.work}: counts {sums}, the scans have {self.about['counts']}")
        return without

    def damaged(self):
        """The shards to be served again."""
        out = []
        for shard in self.shards + self.rests:
            try:
                shard.check()
            except Damaged as damaged:
                out.append(damaged)
        return out

    def write(self, out):
        about = self.about
        counts = " ".join(f"{kind} {n}" for kind, n in zip(KINDS, about["counts"]))
        out.write(f"report 1\nrecords {sum(about['counts'])} tail {int(about['cut'])} {counts} connections {about['connections']}\n".encode())
        for shard in self.shards:
            held = b""
            for part in shard.parts():
                held += part
                if len(held) > 6:
                    out.write(held[:-6])
                    held = held[-6:]
            out.write(held.removesuffix(b"\ndone\n") + b"\n")
        out.write(b"done\n")
        out.flush()


def merge(work, out):
    """All reports are checked before the first byte is written. How many of them have no sum."""
    merging = Merge(work)
    without = merging.check()
    merging.write(out)
    return without
