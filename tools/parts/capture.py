"""A capture: the segments of each connection that sqrun serves, and of the captured server.

Several files are one capture: all whole records of the first, then those of the second, and so on. A folder of sqshard stands for the
captures that it is of, and one shard's folder (WORK/shards/S) for that shard.
"""
import json
from array import array
from bisect import bisect_right
from dataclasses import dataclass, field
from pathlib import Path
from struct import unpack_from

from files import Records, Refused, map_file
from packets import CUT, FRAGMENT, MALFORMED, SERVED, SERVICES, classify, ends_of

FIN, SYN, RST, PSH, ACK = 1, 2, 4, 8, 16
TIMER_GAP = 100_000         # microseconds without a segment, after which sqrun is told the time
MOST_CONNECTIONS = 4_096    # of one run


@dataclass(slots=True)
class Segment:
    at: int                 # microseconds
    seq: int
    ack: int
    flags: int
    window: int
    length: int             # of the text, in bytes
    scale: int | None = None
    mss: int | None = None
    datagram: bytes = b""   # the IPv4 datagram that brought it
    record: int = -1        # its place among all records, from 0
    real: int | None = None # its time in the capture, where sqrun is told a later one

    def has(self, flag):
        return bool(self.flags & flag)

    def span(self):
        return self.length + self.has(SYN) + self.has(FIN)


@dataclass
class Connection:
    tuple: str
    service: str
    client: list = field(default_factory=list)      # Segments of the client
    server: list = field(default_factory=list)      # Segments of the captured server
    items: list = field(default_factory=list)       # what sqrun is fed: a Segment of the client, or a time
    broken: array = field(default_factory=lambda: array("Q"))       # of its ends, what is no whole segment: of each the time and the record
    shared: array = field(default_factory=lambda: array("Q"))       # the same of its two addresses, where the ports aren't told


@dataclass
class Capture:
    conns: list
    records: int
    last: int               # the greatest time
    files: list = field(default_factory=list)       # (name, its first record) of each file
    cut: bool = False       # whether a file ends inside a record

    def frame(self, record):
        """The file that a record stands in, and its number there as Wireshark counts, from 1."""
        at = bisect_right(self.files, record, key=lambda file: file[1]) - 1
        return self.files[at][0], record - self.files[at][1] + 1


def options(data):
    """Maximum segment size and window scale of a TCP header's options."""
    mss = scale = None
    at = 0
    while at < len(data) and data[at]:
        if data[at] == 1:
            at += 1
            continue
        if at + 1 >= len(data) or data[at + 1] < 2 or at + data[at + 1] > len(data):
            break
        kind, length = data[at], data[at + 1]
        if (kind, length) == (2, 4) and mss is None:
            mss, = unpack_from(">H", data, at + 2)
        if (kind, length) == (3, 3) and scale is None:
            scale = data[at + 2]
        at += length
    return mss, scale


def tcp_segment(at, datagram, header):
    """The segment of a datagram whose IPv4 header has this length."""
    seq, ack, offset, flags, window = unpack_from(">4xIIBBH", datagram, header)
    text = header + (offset >> 2 & 60)
    mss, scale = options(datagram[header + 20:text]) if text > header + 20 else (None, None)
    return Segment(at, seq, ack, flags & 63, window, len(datagram) - text, scale, mss, datagram)


def address(data, at, port_at):
    return ".".join(map(str, data[at:at + 4])) + f":{data[port_at] << 8 | data[port_at + 1]}"


def captures_of(folder):
    """The captures of a folder of sqshard, by its own list of them."""
    try:
        names = [one["path"] for one in json.loads((folder / "captures.json").read_text())["captures"]]
        if not all(isinstance(name, str) and "\0" not in name for name in names):
            raise ValueError
        return [Path(name) for name in names]
    except (ValueError, KeyError, TypeError, RecursionError):
        raise Refused(f"{folder / 'captures.json'} isn't one of sqshard's") from None


def sources(names):
    """(name, bytes) of each file, in order."""
    for name in map(Path, names):
        if (name / "captures.json").is_file():
            yield from ((path, map_file(path)) for path in captures_of(name))
        elif (name / "0-head").is_file():
            yield name, b"".join(piece.read_bytes() for piece in sorted(name.iterdir()))
        else:
            yield name, map_file(name)


def read(names, verify=False, most=MOST_CONNECTIONS):
    """The connections in order of first appearance, of one file or a list of files that are one capture.

    `verify` leaves out segments with a wrong checksum, as sqrun --verify does. At most `most` connections are kept, as in one run;
    None keeps all, as in a merged report.
    """
    conns, files, broken, number, last, link, cut = {}, [], {}, 0, 0, None, False
    for name, data in sources([names] if isinstance(names, (str, Path)) else names):
        records = Records(name, data)
        files.append((name, number))
        for at, body in records:
            last = max(last, at)
            kind, ip, tcp, end = classify(body, 0, len(body), records.link, verify)
            if ip is not None:
                segment = tcp_segment(at, body[ip:end], tcp - ip)
                segment.record = number
                place(conns, kind, body[ip + 12:ip + 20] + body[tcp:tcp + 4], segment, most)
            elif kind in (CUT, FRAGMENT, MALFORMED):
                broken.setdefault(ends_of(body, 0, len(body), records.link), array("Q")).extend((at, number))
            number += 1
        if link not in (None, records.link):
            raise Refused(f"{name}: second link type {records.link}", 6)
        link, cut = records.link, cut or records.cut
    place_broken(conns, broken)
    for conn in conns.values():
        conn.items = items(conn.client, last)
    return Capture(list(conns.values()), number, last, files, cut)


def place(conns, kind, ends, segment, most):
    """Puts a segment to or from a served port where it belongs. `ends` are the two addresses and the two ports."""
    if kind == SERVED:
        if ends in conns:
            conns[ends].client.append(segment)
        elif most is None or len(conns) < most:
            key = f"{address(ends, 0, 8)} {address(ends, 4, 10)}"
            conns[ends] = Connection(key, SERVICES[ends[11]], [segment])
    else:
        conn = conns.get(turned(ends))
        if conn:
            conn.server.append(segment)


def turned(ends):
    """The same ends from the other side."""
    return ends[4:8] + ends[:4] + ends[10:] + ends[8:10]


def place_broken(conns, broken):
    """Notes at each connection what may belong to it, and is no whole segment."""
    shared = {}
    broken.pop(None, None)
    for (addresses, ports), listed in broken.items():
        conn = conns.get(addresses + ports) or conns.get(turned(addresses + ports)) if ports else None
        if conn:
            conn.broken.extend(listed)
        elif not ports:
            shared.setdefault(frozenset((addresses[:4], addresses[4:])), array("Q")).extend(listed)
    for ends, conn in conns.items() if shared else ():
        conn.shared = shared.get(frozenset((ends[:4], ends[4:8])), conn.shared)


def items(segments, last):
    """What sqrun is fed for a connection, in order: its segments, with times that never fall, and times after a gap and at the end."""
    out, clock = [], None
    for segment in segments:
        at = segment.at if clock is None else max(clock, segment.at)
        if clock is not None and at - clock >= TIMER_GAP:
            out.append(at)
        if at != segment.at:
            segment.real = segment.at
        clock = segment.at = at
        out.append(segment)
    return out + [last]
