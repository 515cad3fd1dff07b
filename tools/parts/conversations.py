"""All TCP connections of captures, whatever their ports, over IPv4 and IPv6: the segments of both directions, in order.

An IPv6 segment stands behind an IPv4 header of our own, whose addresses are numbers: so all that looks at segments takes both. Its checksum
is looked at before.
"""
from collections import Counter
from dataclasses import dataclass, field
from ipaddress import ip_address

from capture import ACK, SYN, tcp_segment
from files import map_file
from links import BEFORE, AnyRecords
from packets import total

TCP, FRAGMENT = 6, 44
EXTENSIONS = (0, 43, 60)                        # hop by hop, routing, destination: each tells its length
FAMILIES = (10, 24, 28, 30)                     # of IPv6 behind a loopback header
NUMBERED = b"\x45" + bytes(11)


@dataclass
class Conversation:
    """A connection between two ends; the client is who asked for it."""
    client_end: tuple               # (address, port)
    server_end: tuple
    client: list = field(default_factory=list)
    server: list = field(default_factory=list)
    broken: list = field(default_factory=list)      # (time, record) of what is no whole segment
    short: list = field(default_factory=list)       # (whose, bytes of text by its lengths) of each of these that the capture cut

    @property
    def tuple(self):
        return f"{shown(self.client_end)} {shown(self.server_end)}"


def shown(end):
    address = ip_address(end[0])
    return f"{f'[{address}]' if address.version == 6 else address}:{end[1]}"


@dataclass
class Read:
    """What captures have of TCP."""
    conversations: list
    last: int = 0                   # the greatest time
    cut: bool = False               # whether a file ends inside a record
    card: set = field(default_factory=set)          # records of segments that the sender's card was to finish
    spoilt: set = field(default_factory=set)        # those with another wrong checksum
    unsummed: set = field(default_factory=set)      # of all these the ones whose checksum isn't what a card is left


def packet_at(link, body):
    """Where an IP packet begins, and its version; 0 where there is none."""
    at, is_v4 = BEFORE[link](body)
    version = body[at] >> 4 if len(body) > at else 0
    if version == 6 and link in (1, 113, 276):
        return at, 6 * (b"\x86\xdd" in (body[at - 2:at], body[:2]) or body[at - 2:at] == b"\0\x57")     # the latter is PPP's number
    if version == 6 and link in (0, 108):
        return at, 6 * (body[0] in FAMILIES or body[3] in FAMILIES)
    return at, version if version == 6 or version == 4 and is_v4 else 0


@dataclass
class Place:
    """Where a body has a TCP segment."""
    source: bytes               # the two addresses
    destination: bytes
    header: int                 # of TCP
    end: int | None             # None where the segment isn't whole
    packet: int | None = None   # where an IPv4 header stands
    first: bool = True          # whether it begins with a TCP header, and isn't a later fragment
    cut: int | None = None      # of a segment that the capture cut, its bytes of text by the lengths that it tells

    def ends(self, body):
        """(address, port) of both ends, or None where the ports aren't there."""
        ports = body[self.header:self.header + 4]
        if len(ports) < 4 or not self.first:
            return None
        return (self.source, int.from_bytes(ports[:2], "big")), (self.destination, int.from_bytes(ports[2:], "big"))


def tcp_of(link, body):
    """The TCP segment of a body, or None."""
    at, version = packet_at(link, body)
    if version == 4 and len(body) >= at + 20 and body[at + 9] == TCP:
        tcp, end = at + 4 * (body[at] & 15), at + (int.from_bytes(body[at + 2:at + 4], "big") or len(body) - at)
        whole = tcp >= at + 20 and not (body[at + 6] & 0x3f or body[at + 7])
        return Place(bytes(body[at + 12:at + 16]), bytes(body[at + 16:at + 20]), tcp, end_of(body, tcp, end) if whole else None, at,
                     not (body[at + 6] & 0x1f or body[at + 7]), cut_text(body, tcp, end) if whole else None)
    return tcp_of_6(body, at) if version == 6 and len(body) >= at + 40 else None


def tcp_of_6(body, at):
    """The same of an IPv6 packet, behind whatever extensions (RFC 8200, 4)."""
    kind, tcp, whole, first = body[at + 6], at + 40, True, True
    end = tcp + (int.from_bytes(body[at + 4:at + 6], "big") or len(body) - tcp)
    while kind in (*EXTENSIONS, FRAGMENT) and len(body) >= tcp + 8:
        whole = whole and (kind != FRAGMENT or not (body[tcp + 2] or body[tcp + 3] & 0xf9))
        first = first and (kind != FRAGMENT or not (body[tcp + 2] or body[tcp + 3] & 0xf8))
        kind, tcp = body[tcp], tcp + (8 if kind == FRAGMENT else 8 + 8 * body[tcp + 1])
    if kind != TCP:
        return None
    return Place(bytes(body[at + 8:at + 24]), bytes(body[at + 24:at + 40]), tcp, end_of(body, tcp, end) if whole else None, None, first, cut_text(body, tcp, end) if whole else None)


def pseudo(place, size):
    """What a checksum sums beside the segment (RFC 9293, 3.1; RFC 8200, 8.1)."""
    if len(place.source) == 16:
        return place.source + place.destination + size.to_bytes(4, "big") + bytes((0, 0, 0, TCP))
    return place.source + place.destination + bytes((0, TCP)) + (size & 0xffff).to_bytes(2, "big")


def end_of(body, tcp, end):
    """The segment's end, where all of it is there and its header fits."""
    return end if end <= len(body) and end - tcp >= 20 and 20 <= (body[tcp + 12] >> 2 & 60) <= end - tcp else None


def cut_text(body, tcp, end):
    """How much text a segment has that isn't all there, where its header is."""
    return max(0, end - tcp - (body[tcp + 12] >> 2 & 60)) if end > len(body) > tcp + 12 else None


class Reader:
    """Takes records one after another."""

    def __init__(self, texts):
        self.texts = texts
        self.numbers, self.open, self.out, self.sent, self.wrong = {}, {}, Read([]), Counter(), {}
        self.shared = {}            # by two addresses what is no whole segment, and tells no ports

    def record(self, number, at, link, body):
        self.out.last = max(self.out.last, at)
        found = tcp_of(link, body)
        if found is None:
            return
        ends = found.ends(body)
        if ends is None:
            self.shared.setdefault(frozenset((found.source, found.destination)), []).append((at, number))
            return
        if found.end is None:
            if conversation := self.open.get(frozenset(ends)):
                conversation.broken.append((at, number))
                conversation.short += [(ends[0], found.cut)] * (found.cut is not None)
            return
        tcp = body[found.header:found.end]
        segment = tcp_segment(at, bytes(body[found.packet:found.end] if found.packet is not None else self.numbered(ends) + tcp),
                              20 if found.packet is None else found.header - found.packet)
        segment.record = number
        if self.texts:
            self.note_sum(found, tcp, segment)
        else:
            segment.datagram = b""
        self.place(ends, segment)

    def numbered(self, ends):
        """An IPv4 header with numbers for the two addresses."""
        return NUMBERED + b"".join(self.numbers.setdefault(address, len(self.numbers)).to_bytes(4, "big") for address, _ in ends)

    def note_sum(self, found, tcp, segment):
        beside = pseudo(found, len(tcp))
        self.sent[found.source] += 1
        if total(beside + tcp) != 0xffff:
            self.wrong[segment.record] = found.source, int.from_bytes(tcp[16:18], "big") == total(beside)

    def place(self, ends, segment):
        key = frozenset(ends)
        conversation = self.open.get(key)
        asks = segment.flags & (SYN | ACK) == SYN
        if conversation is None:
            client, server = ends if asks or not segment.has(SYN) and ends[0][1] >= ends[1][1] else ends[::-1]
            conversation = self.open[key] = Conversation(client, server)
            self.out.conversations.append(conversation)
        elif asks and conversation.client_end != ends[0] and not any(s.has(SYN) for s in conversation.client):
            conversation.client_end, conversation.server_end = ends
            conversation.client, conversation.server = conversation.server, conversation.client
        (conversation.client if conversation.client_end == ends[0] else conversation.server).append(segment)

    def read(self):
        failed, out = Counter(host for host, _ in self.wrong.values()), self.out
        for record, (host, begun) in self.wrong.items():
            (out.card if begun or 2 * failed[host] > self.sent[host] else out.spoilt).add(record)
            out.unsummed |= set() if begun else {record}
        for one in out.conversations if self.shared else ():
            one.broken += self.shared.get(frozenset((one.client_end[0], one.server_end[0])), ())
        return out


def read(paths, told, texts=True):
    """The connections of these captures, which are one, in order of their first segment. Without `texts` the bytes of each are forgotten, and no checksum is looked at."""
    reader, number = Reader(texts), 0
    for path in paths:
        records = AnyRecords(path, map_file(path))
        for at, body in records:
            reader.record(number, at, records.link, body)
            number += 1
            if number % 4096 == 0:
                told.tell(records.at, number)
        reader.out.cut = reader.out.cut or records.cut
    return reader.read()


