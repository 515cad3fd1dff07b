"""The records of a capture file: pcap (microseconds or nanoseconds, both byte orders) or pcapng.

What a capture file is, and which ones are refused, follows sqrun and its definitions; times are whole microseconds. Limits of size
are not checked here: what is past them sqrun itself refuses.
"""
import mmap
import os
import stat
import sys
from struct import Struct, unpack_from

from packets import LINK_SIZE

MOST_BODY = 262_144
MAGICS = {b"\xd4\xc3\xb2\xa1": ("<", 1), b"\xa1\xb2\xc3\xd4": (">", 1),
          b"\x4d\x3c\xb2\xa1": ("<", 1000), b"\xa1\xb2\x3c\x4d": (">", 1000)}
SECTION = b"\x0a\x0d\x0d\x0a"
BLOCK_ORDERS = {b"\x1a\x2b\x3c\x4d": ">", b"\x4d\x3c\x2b\x1a": "<"}
INTERFACE, SIMPLE_PACKET, PACKET = 1, 3, 6
LEAST = {INTERFACE: 20, SIMPLE_PACKET: 16, PACKET: 32}
PACKET_KINDS = (b"\6\0\0\0", b"\0\0\0\6")
QUICK_INTERFACES = 64
LAST_TIME = 2 ** 53                 # pcapng's times are at most this


def plain(text):
    """The text as a terminal may show it: what would move its cursor or change its colours is written out."""
    return "".join(c if c.isprintable() else c.encode("unicode_escape").decode() for c in str(text))


class Refused(Exception):
    """What the user is told, and the status that goes with it."""

    def __init__(self, text, status=1):
        super().__init__(plain(text))
        self.status = status


def standard_in():
    """Standard input, as bytes."""
    if sys.stdin is None:
        raise Refused("standard input is closed", 4)
    return sys.stdin.buffer


def map_file(path):
    """A file's bytes, without a copy of them in memory where it is a plain file; `-` is standard input."""
    if str(path) == "-":
        return standard_in().read()
    with open(path, "rb") as f:
        state = os.fstat(f.fileno())
        if not stat.S_ISREG(state.st_mode):
            return f.read()
        return mmap.mmap(f.fileno(), 0, access=mmap.ACCESS_READ) if state.st_size else b""


def is_pcapng(data):
    return data[:4] == SECTION


def header(path, data, links=LINK_SIZE):
    """Byte order, divisor to microseconds, and link type of a pcap file, which is one of `links`."""
    if len(data) < 24:
        raise Refused(f"{path}: short header of {len(data)} bytes", 6)
    if data[:4] not in MAGICS:
        raise Refused(f"{path}: magic {data[:4].hex()} is no capture's", 6)
    order, unit = MAGICS[data[:4]]
    major, minor, link = unpack_from(order + "4xHH12xI", data)
    if (major, minor) != (2, 4):
        raise Refused(f"{path}: version {major}.{minor}", 6)
    if link not in links:
        raise Refused(f"{path}: link type {link}", 6)
    return order, unit, link


class Records:
    """The whole records of a file, as (microseconds, body). `cut` and `link` are known once all were taken, `at` is how far it was read."""

    links, mixed = LINK_SIZE, False     # the link types that are taken, and whether one file may have several

    def __init__(self, path, data, quick=None):
        """`quick(at, order, ticks, time)` may take blocks of packets of a pcapng itself; it gives where it stopped, how many, and the last time."""
        self.path, self.data, self.cut, self.link, self.quick, self.at = path, data, False, 101, quick, 0
        self.from_file = self.pcapng() if is_pcapng(data) else self.pcap()

    def __iter__(self):
        return self.from_file

    def pcap(self):
        order, unit, self.link = header(self.path, self.data, self.links)
        head = Struct(order + "III").unpack_from
        data, at, size, number = self.data, 24, len(self.data), 0
        while size - at >= 16:
            seconds, fraction, length = head(data, at)
            if length > MOST_BODY:
                raise Refused(f"{self.path}: record {number} has length {length}", 6)
            if size - at - 16 < length:
                break
            self.at = at
            yield seconds * 1_000_000 + fraction // unit, data[at + 16:at + 16 + length]
            at += 16 + length
            number += 1
        self.cut = at < size

    def pcapng(self):
        if len(self.data) < 28:
            self.refuse(f"short section of {len(self.data)} bytes")
        at, index, order = 0, 0, "<"
        interfaces, first, time = [], None, 0
        while at < len(self.data):
            if self.quick and 0 < len(interfaces) <= QUICK_INTERFACES and self.data[at:at + 4] in PACKET_KINDS:
                at, taken, time = self.quick(at, order, [ticks for _, ticks, _ in interfaces], time)
                index += taken
                if at == len(self.data):
                    return
            order, kind, length = self.block(at, index, order)
            if length == 0:
                self.cut = True
                return
            if kind == SECTION:
                interfaces = []
            elif kind == INTERFACE:
                link, snapshot = unpack_from(order + "H2xI", self.data, at + 8)
                first = link if first is None else first
                if link not in self.links or link != first and not self.mixed:
                    self.refuse(f"{'second ' * (link in self.links)}link type {link} in block {index}")
                self.link = link
                interfaces.append((snapshot, self.ticks_a_second(at + 16, at + length - 4, order), link))
            elif kind in (PACKET, SIMPLE_PACKET):
                time, start, size, room = self.packet(kind, at, index, order, length, interfaces, time)
                if size > MOST_BODY or (size + 3 & ~3) > room:
                    self.refuse(f"packet of {size} bytes in block {index}")
                self.at = at
                yield time, self.data[start:start + size]
            at += length
            index += 1

    def refuse(self, text):
        raise Refused(f"{self.path}: pcapng {text}", 6)

    def block(self, at, index, order):
        """Byte order, kind and length of a block; length 0 where the file ends inside it."""
        data, left = self.data, len(self.data) - at
        section = data[at:at + 4] == SECTION
        if left < (12 if section else 8):
            return order, 0, 0
        if section:
            if data[at + 8:at + 12] not in BLOCK_ORDERS:
                self.refuse(f"magic {data[at + 8:at + 12].hex()} in block {index}")
            order = BLOCK_ORDERS[data[at + 8:at + 12]]
        kind, length = unpack_from(order + "II", data, at)
        if length % 4 or length < (28 if section else LEAST.get(kind, 12)):
            self.refuse(f"block {index} has length {length}")
        if length > left:
            return order, 0, 0
        end, = unpack_from(order + "I", data, at + length - 4)
        if end != length:
            self.refuse(f"block {index} ends with length {end}")
        if section:
            major, minor = unpack_from(order + "HH", data, at + 12)
            if major != 1:
                self.refuse(f"version {major}.{minor} in block {index}")
        return order, SECTION if section else kind, length

    def ticks_a_second(self, at, end, order):
        """By the first resolution option of an interface."""
        while end - at >= 4:
            code, length = unpack_from(order + "HH", self.data, at)
            if code == 0 or at + 4 + (length + 3 & ~3) > end:
                break
            if code == 9 and length == 1:
                value = self.data[at + 4]
                return 10 ** value if value < 128 else 2 ** (value - 128)
            at += 4 + (length + 3 & ~3)
        return 1_000_000

    def packet(self, kind, at, index, order, length, interfaces, before):
        """Time, place and size of a packet's bytes, and the room that the block has for them."""
        if kind == PACKET:
            number, high, low, size = unpack_from(order + "IIII", self.data, at + 8)
        else:
            number, size = 0, unpack_from(order + "I", self.data, at + 8)[0]
        if number >= len(interfaces):
            self.refuse(f"interface {number} in block {index}")
        self.link = interfaces[number][2]
        if kind == PACKET:
            return min((high << 32 | low) * 1_000_000 // interfaces[number][1], LAST_TIME), at + 28, size, length - 32
        snapshot = interfaces[0][0]
        return before, at + 12, min(size, snapshot) if snapshot else size, length - 16
