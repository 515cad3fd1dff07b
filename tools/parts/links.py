"""Captures of any link type as raw IPv4, which sqrun and every tool here read.

For each record one record comes out, in its place and with its time, so the numbers of frames stay. A record without an IPv4 datagram
becomes one byte that sqrun counts as `other`, and one that ends before its datagram an empty body, which counts as `cut`.
"""
import struct
from collections import Counter

from files import MOST_BODY, SECTION, Records, Refused, header, map_file
from packets import LINK_SIZE, SERVICES

RAW_IP = 101
SYN, ACK = 2, 16            # in the header's byte 13
IPV4, TAGS, PPPOE = b"\x08\0", (b"\x81\0", b"\x88\xa8", b"\x91\0"), b"\x88\x64"
AROUND = (*TAGS, PPPOE)
NOTHING, WRONG_VERSION = b"\x60", b"\0"
HEAD = struct.Struct("<IIII")
PORTS = struct.Struct(">HH")


class AnyRecords(Records):
    """The records of a capture whose interfaces may have any link types. `link` is that of the record taken last."""

    @property
    def links(self):
        return BEFORE

    mixed = True


def after_tags(body, at):
    """Where a packet begins whose type stands at `at`, behind any number of VLAN tags and one PPPoE header; and whether it is IPv4."""
    kind, at = body[at:at + 2], at + 2
    while kind in TAGS:
        kind, at = body[at + 2:at + 4], at + 4
    if kind == PPPOE:
        return at + 8, body[at + 6:at + 8] == b"\0\x21"
    return at, kind == IPV4 or len(kind) < 2


def ethernet(body):
    return after_tags(body, 12)


def cooked(body):
    return after_tags(body, 14)


def cooked_2(body):
    at, held = after_tags(body[:2] + body[20:28], 0)         # the type stands first, its tags behind the header
    return at + 18, held


def loopback(body):
    """The family is the capturing host's: 2 in either byte order."""
    return 4, body[:4] in (b"\0\0\0\2", b"\2\0\0\0") or len(body) < 4


def raw(body):
    return 0, not body or body[0] >> 4 != 6


BEFORE = {0: loopback, 1: ethernet, 12: raw, 14: raw, 101: raw, 108: loopback, 113: cooked, 228: raw, 229: raw, 276: cooked_2}


def packet(link, body):
    """The bytes from the IPv4 header on, or the body that stands for none."""
    at, held = BEFORE[link](body)
    if not held:
        return NOTHING
    data = body[at:]
    return WRONG_VERSION if at and data[:1] and data[0] >> 4 == 6 else data


def reads(records):
    """Whether the whole file can be read."""
    try:
        for _ in records:
            pass
    except Refused:
        return False
    return True


def is_plain(path, data):
    """Whether sqrun is to get the file as it stands. So is one that nothing here reads: sqrun says why."""
    if data[:4] == SECTION:
        return reads(Records(path, data)) or not reads(AnyRecords(path, data))
    try:
        return header(path, data, BEFORE)[2] in LINK_SIZE
    except Refused:
        return True


def has_stacked_tags(path):
    """Whether a frame has an IPv4 datagram behind tags that sqrun doesn't skip. The file has one link type."""
    records = AnyRecords(path, map_file(path))
    for _, body in records:
        at = {1: 12, 113: 14}.get(records.link)
        if at is None:
            return False
        kind = body[at:at + 2]
        if kind in AROUND and (at == 14 or kind != TAGS[0] or body[16:18] in AROUND) and packet(records.link, body) != NOTHING:
            return True
    return False


class Ports:
    """Turns segments to and from other ports into those of a service, by a table like {80: 7}."""

    def __init__(self, table):
        self.table, self.real = table, {}           # by the ends in the result the port that it really is

    def turned(self, datagram):
        """The datagram with its service's port, and its checksum as right or wrong as it was (RFC 1624)."""
        if len(datagram) < 20 or datagram[0] >> 4 != 4 or datagram[9] != 6 or datagram[6] & 0x1f or datagram[7]:
            return datagram
        at = 4 * (datagram[0] & 15)
        if len(datagram) < at + 18:
            return datagram
        source, destination = PORTS.unpack_from(datagram, at)
        up = destination in self.table or destination in SERVICES
        if not up and source not in self.table and source not in SERVICES:
            return datagram
        real = destination if up else source
        port = self.table.get(real, real)
        self.note(datagram, at, up, real, port)
        if port == real:
            return datagram
        place = at + 2 if up else at
        total = 0xffff ^ int.from_bytes(datagram[at + 16:at + 18], "big")
        total += (0xffff ^ real) + port
        total = (total & 0xffff) + (total >> 16)
        total = 0xffff ^ (total & 0xffff) + (total >> 16) & 0xffff
        return datagram[:place] + port.to_bytes(2, "big") + datagram[place + 2:at + 16] + total.to_bytes(2, "big") + datagram[at + 18:]

    def note(self, datagram, at, up, real, port):
        """Refuses two connections that would become one."""
        one, other = (datagram[12:16] + datagram[at:at + 2], datagram[16:20]) if up else (datagram[16:20] + datagram[at + 2:at + 4], datagram[12:16])
        before = self.real.setdefault((one, other, port), real)
        if before != real:
            client = ".".join(map(str, one[:4])) + f":{int.from_bytes(one[4:], 'big')}"
            raise Refused(f"{client} speaks to the ports {before} and {real} of one host, and both would be port {port}: turn one of them at a time")

    def real_port(self, client, server):
        """The port in the file of a connection, whose ends are texts like 10.0.0.1:4000."""
        address, _, port = client.partition(":")
        host, _, mapped = server.partition(":")
        one = bytes(map(int, address.split("."))) + int(port).to_bytes(2, "big")
        return self.real.get((one, bytes(map(int, host.split("."))), int(mapped)), int(mapped))

    def real_ends(self, ends):
        """The two ends of a connection, as they are in the file."""
        client, server = ends.split(" ")
        return f"{client} {server.partition(':')[0]}:{self.real_port(client, server)}"


def convert(paths, to, ports, told, without=frozenset()):
    """Writes the records of all files as one pcap of raw IP. Answers how many there are, and whether a tail was cut.

    `told` is called with the bytes and records done so far. Of the records in `without`, numbered from 0, nothing is left but their place.
    """
    done = number = 0
    cut = False
    with open(to, "wb") as out:
        out.write(struct.pack("<IHHIIII", 0xa1b2c3d4, 2, 4, 0, 0, MOST_BODY, RAW_IP))
        for path in paths:
            records = AnyRecords(path, map_file(path))
            for at, body in records:
                data = NOTHING if number in without else packet(records.link, body)
                data = ports.turned(data) if ports else data
                seconds = min(at // 1_000_000, 0xffff_ffff)
                if at - seconds * 1_000_000 > 0xffff_ffff:
                    raise Refused(f"{path}: a time of {at} microseconds is past what a pcap file says", 6)
                out.write(HEAD.pack(seconds, at - seconds * 1_000_000, len(data), len(data)) + data)
                number += 1
                if number % 4096 == 0:
                    told(done + records.at, number)
            done += len(records.data)
            cut = cut or records.cut
        if cut:
            out.write(b"\0")                # so the result has a cut tail too
    return number, cut


class Seen:
    """What captures have, where nothing of them is served."""

    def __init__(self, paths):
        self.pairs, self.asked, self.udp, self.other = Counter(), set(), Counter(), Counter()
        for path in paths:
            records = AnyRecords(path, map_file(path))
            for _, body in records:
                self.count(packet(records.link, body), body, records.link)
        # A server's port is one that a SYN went to; where none shows it, the lower of the two.
        self.tcp = Counter()
        for (source, destination), count in self.pairs.items():
            self.tcp[min([port for port in (source, destination) if port in self.asked] or (source, destination))] += count

    def count(self, data, body, link):
        if data == NOTHING or not data:
            self.other["IPv6" if b"\x86\xdd" in body[:24] or link == 229 or link in (12, 14, 101) and body[:1] == NOTHING else "not IPv4"] += 1
            return
        at = 4 * (data[0] & 15)
        if len(data) < 20 or data[9] not in (6, 17) or len(data) < at + 4 or data[6] & 0x1f or data[7]:
            self.other["other IPv4"] += 1
            return
        ports = PORTS.unpack_from(data, at)
        if data[9] == 17:
            self.udp[min(ports)] += 1
            return
        self.pairs[ports] += 1
        flags = data[at + 13] if len(data) > at + 13 else 0
        if flags & SYN:
            self.asked.add(ports[0 if flags & ACK else 1])

    def words(self, most=6):
        """`TCP ports 443 (1,000 segments), 22 (17); UDP ports 53 (8); 12 of IPv6`."""
        def listed(name, ports, unit):
            shown = ", ".join(f"{port} ({count:,}{unit if n == 0 else ''})" for n, (port, count) in enumerate(ports.most_common(most)))
            return f"{name} {shown}" + (f" and {len(ports) - most:,} more" if len(ports) > most else "")
        parts = [listed("TCP ports", self.tcp, " segments")] if self.tcp else []
        parts += [listed("UDP ports", self.udp, " datagrams")] if self.udp else []
        parts += [f"{count:,} {'records' if count != 1 else 'record'} {'of ' * (kind != 'not IPv4')}{kind}" for kind, count in self.other.items()]
        return "; ".join(parts) or "no record"
