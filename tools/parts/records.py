"""The records of pcap files at the speed of C: scanned, and copied to shards. records.c does the work; it is compiled once for each user,
with cc, and kept in the user's cache. Without cc the same is done here in Python, some twenty times slower.
"""
import ctypes
import mmap
import os
import sys
from array import array
from ctypes import Structure, byref, c_uint8, c_uint32, c_uint64, c_void_p
from itertools import accumulate
from pathlib import Path
from struct import Struct

from compiled import compiled
from files import MOST_BODY, Refused
from packets import KINDS, SERVED, classify

SOURCE = Path(__file__).resolve().parent / "records.c"
RECORD = Struct("<IIII")
CONNECTION = Struct("<12sHHQQQQQ")      # struct connection of records.c
LEAST_WEIGHT = 64                       # so a shard of records that are served nowhere has at most 2^20 - 1 of them
PACKETS_ROOM = 16 << 20
GAP = 100_000                           # microseconds, after which a connection is told the time
MOST_AGAIN, LONGEST_WAIT, MOST_TEXT, USUAL_TEXT, LINE = 64, 60, 1460, 536, 108
FIN, SYN = 1, 2


def timeouts(time):
    """How often a retransmission timer that begins at a second and doubles runs out in so many microseconds."""
    left, wait, n = time // 1_000_000, 1, 0
    while left >= wait and n < MOST_AGAIN:
        left, wait, n = left - wait, min(2 * wait, LONGEST_WAIT), n + 1
    return n


class One:
    """What is known of one connection in a part of a file: struct connection of records.c."""
    __slots__ = ("ends", "text", "again", "records", "octets", "report", "first", "last")

    def __init__(self, ends, text=0, again=0, records=0, octets=0, report=0, first=0, last=0):
        self.ends, self.text, self.again, self.records, self.octets, self.report = ends, text, again, records, octets, report
        self.first, self.last = first, last

    def pack(self):
        return CONNECTION.pack(*(getattr(self, name) for name in self.__slots__))

    def wait(self, until):
        """What the report grows by, at most, while nothing comes from it until then."""
        if self.text and until >= self.last and until - self.last >= GAP:
            again = min(timeouts(until - self.last), MOST_AGAIN - self.again)
            self.again += again
            self.report += again * (LINE + 2 * self.text)

    def segment(self, time, size, data, tcp, end):
        self.wait(time)
        flags = data[tcp + 13]
        if flags & SYN:
            self.again = self.text = 0
        text = end - tcp - (data[tcp + 12] >> 2 & 60) if data[tcp + 3] == 7 else 0
        text += flags & (SYN | FIN) != 0
        self.text = min(self.text + text, MOST_TEXT)
        self.report += LINE * (1 + text // USUAL_TEXT) + 2 * text
        self.first = self.first if self.records else time
        self.last = max(self.last, time)
        self.records += 1
        self.octets += size


class Found:
    """What a part of a file has: `connections` packed in order, `owners` by record the connection's number here or -1."""

    def __init__(self):
        self.counts, self.records, self.last, self.rest, self.end = [0] * len(KINDS), 0, 0, 0, 0
        self.connections, self.owners = b"", b""


# In Python.

def scan_slowly(path, data, at, end, form, verify):
    """The same as scan, in Python."""
    order, unit, link = form
    head, out, ones, owners = Struct(order + "III").unpack_from, Found(), {}, array("i")
    while end - at >= 16:
        seconds, fraction, length = head(data, at)
        if length > MOST_BODY:
            raise TooLong(len(owners), length)
        body = at + 16
        if body + length > end:
            break
        at = body + length
        time = seconds * 1_000_000 + fraction // unit
        out.last = max(out.last, time)
        kind, ip, tcp, stop = classify(data, body, at, link, verify)
        out.counts[kind] += 1
        if kind == SERVED:
            ends = data[ip + 12:ip + 20] + data[tcp:tcp + 4]
            if ends not in ones:
                ones[ends] = len(ones), One(ends)
            c, one = ones[ends]
            one.segment(time, 16 + length, data, tcp, stop)
            owners.append(c)
        else:
            owners.append(-1)
            out.rest += max(16 + length, LEAST_WEIGHT)
    out.records, out.end = len(owners), at
    out.connections, out.owners = b"".join(one.pack() for _, one in ones.values()), little(owners)
    return out


def walk_slowly(data, at, end, wanted, form):
    head, records = Struct(form[0] + "I").unpack_from, 0
    while at < wanted and end - at >= 16:
        length, = head(data, at + 8)
        if length > MOST_BODY or end - at - 16 < length:
            break
        at, records = at + 16 + length, records + 1
    return at, records


def deal_slowly(data, at, form, owners, shards, rest, room, give):
    """The same as deal, in Python."""
    order, unit, _ = form
    first_rest, rest_weight, weight, _ = rest
    head, same, held, pieces = Struct(order + "IIII").unpack_from, (order, unit) == ("<", 1), 0, {}
    for owner in owners:
        seconds, fraction, length, original = head(data, at)
        end = at + 16 + length
        if held and held + end - at > room:
            give_all(pieces, give)
            held = 0
        if owner >= 0:
            s = shards[owner]
        else:
            s = first_rest + weight // rest_weight
            weight += max(16 + length, LEAST_WEIGHT)
        pieces.setdefault(s, []).append(data[at:end] if same else RECORD.pack(seconds, fraction // unit, length, original) + data[at + 16:end])
        held += end - at
        at = end
    give_all(pieces, give)


def give_all(pieces, give):
    for s, listed in sorted(pieces.items()):
        give(s, b"".join(listed))
    pieces.clear()


# In C.

class Form(Structure):
    _fields_ = [(name, c_uint32) for name in ("swapped", "unit", "link", "verify")]


class Seen(Structure):
    _fields_ = [("counts", c_uint64 * len(KINDS))] + [(name, c_uint64) for name in ("records", "last", "rest", "end", "failed", "conns", "room", "seed")] + [
        ("conn", c_void_p), ("places", c_void_p), ("owners", c_void_p)]


class Packets(Structure):
    _fields_ = [(name, c_uint64) for name in ("at", "end", "made", "room", "count", "last")] + [("swapped", c_uint32), ("interfaces", c_uint32), ("ticks", c_void_p)]


class Dealing(Structure):
    _fields_ = [("shards", c_void_p)] + [(name, c_uint64) for name in ("conns", "total", "first_rest", "rest_weight", "weight", "end")]


def load():
    if os.environ.get("SQSHARD_PYTHON") or sys.byteorder != "little":
        return None
    try:
        library = ctypes.CDLL(str(compiled(SOURCE, "-O2", "-shared", "-fPIC")))
    except (OSError, RuntimeError):         # no cc, or no place to keep it
        return None
    library.walk.restype = library.measure.restype = library.scatter.restype = c_uint64
    library.scan.restype = library.forget.restype = library.take_packets.restype = None
    return library


LIBRARY = load()


class TooLong(Exception):
    """A record's number in its part, and its length."""


def little(numbers):
    """An array's bytes, little-endian."""
    if sys.byteorder == "big":
        numbers = array(numbers.typecode, numbers)
        numbers.byteswap()
    return numbers.tobytes()


class Mapped:
    """A file's bytes where C can see them."""

    def __init__(self, path):
        self.size = os.stat(path).st_size
        self.data, self.at = b"", 0
        if self.size:
            with open(path, "rb") as f:
                self.data = mmap.mmap(f.fileno(), 0, access=mmap.ACCESS_COPY if LIBRARY else mmap.ACCESS_READ)
            self.at = ctypes.addressof(c_uint8.from_buffer(self.data)) if LIBRARY else 0


def form_of(form, verify=False):
    order, unit, link = form
    return Form(int(order == ">"), unit, link, int(verify))


def scan(path, mapped, at, end, form, verify):
    """What the records from `at` to `end` are. `form` is order, unit and link of the file."""
    if not LIBRARY:
        return scan_slowly(path, mapped.data, at, end, form, verify)
    room = max(end - at, 0) // 16 + 1
    owners, seen = mmap.mmap(-1, 4 * room), Seen(seed=int.from_bytes(os.urandom(8), "little"))
    place = c_uint8.from_buffer(owners)
    seen.owners = ctypes.addressof(place)
    LIBRARY.scan(c_void_p(mapped.at), c_uint64(at), c_uint64(end), byref(form_of(form, verify)), byref(seen))
    try:
        if seen.failed == 1:
            raise TooLong(seen.records, Struct(form[0] + "I").unpack_from(mapped.data, seen.end + 8)[0])
        if seen.failed:
            raise Refused(f"{path}: out of memory", 3)
        out = Found()
        out.counts, out.records, out.last, out.rest, out.end = list(seen.counts), seen.records, seen.last, seen.rest, seen.end
        out.connections = ctypes.string_at(seen.conn, CONNECTION.size * seen.conns) if seen.conns else b""
        out.owners = owners[:4 * seen.records]
        return out
    finally:
        LIBRARY.forget(byref(seen))
        del place


def walk(mapped, at, end, wanted, form):
    """Where the first record at or behind `wanted` begins, and how many are before it."""
    if not LIBRARY:
        return walk_slowly(mapped.data, at, end, wanted, form)
    records = c_uint64(0)
    at = LIBRARY.walk(c_void_p(mapped.at), c_uint64(at), c_uint64(end), c_uint64(wanted), byref(form_of(form)), byref(records))
    return at, records.value


def packets_of(mapped, write):
    """For files.Records: takes a pcapng's packets as a pcap's records, and gives them to write. None without cc."""
    if not LIBRARY:
        return None
    out = mmap.mmap(-1, PACKETS_ROOM)
    place = c_uint8.from_buffer(out)

    def quick(at, order, ticks, time):
        if max(ticks) >= 2 ** 64:
            return at, 0, time
        table, count = (c_uint64 * len(ticks))(*ticks), 0
        while True:
            now = Packets(at, mapped.size, 0, PACKETS_ROOM, 0, time, int(order == ">"), len(ticks), ctypes.addressof(table))
            LIBRARY.take_packets(c_void_p(mapped.at), byref(now), byref(place))
            write(out[:now.made])
            at, time, count = now.at, now.last, count + now.count
            if now.made < PACKETS_ROOM - 2 * MOST_BODY:
                return at, count, time
    return quick


def deal(path, mapped, at, form, owners, shards, rest, room, give):
    """Gives each shard its records, with `give(shard, bytes)`, in order, holding at most so many bytes.

    `owners` is an array, by record; `shards` an array, by connection; `rest` what records that are served nowhere need: the first shard for
    them, the weight of each such shard, the weight of such records before these, and the number of all shards.
    """
    if not LIBRARY:
        return deal_slowly(mapped.data, at, form, owners, shards, rest, room, give)
    first_rest, rest_weight, weight, total = rest
    shard_numbers = (c_uint32 * max(len(shards), 1))(*shards)
    dealing = Dealing(ctypes.addressof(shard_numbers), len(shards), total, first_rest, rest_weight, weight, mapped.size)
    data, shapes, done, out = c_void_p(mapped.at), form_of(form), 0, mmap.mmap(-1, room)
    place = c_uint8.from_buffer(out)
    begin, _ = owners.buffer_info()
    while done < len(owners):
        sizes, mine = (c_uint64 * total)(), c_void_p(begin + 4 * done)
        n = LIBRARY.measure(data, c_uint64(at), byref(shapes), mine, c_uint64(len(owners) - done), byref(dealing), c_uint64(room), sizes)
        if not n:
            raise Refused(f"{path} isn't what it was when it was scanned: take a new directory", 2)
        places = (c_uint64 * total)(*accumulate(sizes[:-1], initial=0))
        starts = list(places)
        at = LIBRARY.scatter(data, c_uint64(at), byref(shapes), mine, c_uint64(n), byref(dealing), places, byref(place))
        for s, (start, size) in enumerate(zip(starts, sizes)):
            if size:
                give(s, out[start:start + size])
        done += n
