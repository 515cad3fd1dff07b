"""What a record's bytes hold, and what sqrun counts it as: link, IPv4, TCP, in sqrun's order of refusals."""
from struct import Struct

KINDS = ("served", "nofit", "server", "other", "fragment", "cut", "malformed", "badsum")
SERVED, NOFIT, SERVER, OTHER, FRAGMENT, CUT, MALFORMED, BADSUM = range(8)
SERVICES = {7: "echo", 9: "discard"}
IPV4 = Struct(">B1xH2xHxB")         # version and header length, total length, fragment, protocol
LINK_SIZE = {1: 14, 101: 0, 113: 16}     # by link type the bytes before the datagram: Ethernet, raw IP, Linux cooked


def total(data):
    """The ones' complement sum (RFC 1071), not complemented."""
    n = int.from_bytes(data + b"\0" * (len(data) & 1), "big")
    return (n - 1) % 0xffff + 1 if n else 0


def datagram_at(data, at, end, link):
    """Where the network's packet begins; or what the body counts as, with no place."""
    if end - at < LINK_SIZE[link]:
        return CUT, None
    if not LINK_SIZE[link]:
        return (OTHER, None) if at < end and data[at] >> 4 == 6 else (None, at)
    kind, at = data[at + LINK_SIZE[link] - 2:at + LINK_SIZE[link]], at + LINK_SIZE[link]
    if link == 1 and kind == b"\x81\0":
        if end - at < 4:
            return CUT, None
        kind, at = data[at + 2:at + 4], at + 4
    return (None, at) if kind == b"\x08\0" else (OTHER, None)


def classify(data, at, end, link, verify):
    """What the body data[at:end] counts as; and where its IPv4 header, its TCP header and the datagram's end stand, if it has a segment."""
    none = None, None, None
    kind, ip = datagram_at(data, at, end, link)
    if ip is None:
        return kind, *none
    if ip == end:
        return CUT, *none
    if data[ip] >> 4 != 4 or data[ip] & 15 < 5:
        return MALFORMED, *none
    if end - ip < 20:
        return CUT, *none
    first, length, fragment, protocol = IPV4.unpack_from(data, ip)
    header = 4 * (first & 15)
    if length and length < header:
        return MALFORMED, *none
    if fragment & 0x3fff:
        return FRAGMENT, *none
    if protocol != 6:
        return OTHER, *none
    length = length or end - ip             # an offloaded datagram is as long as it was captured
    if end - ip < length or end - ip < header:
        return CUT, *none
    return segment(data, ip, ip + header, ip + length, verify)


def ends_of(data, at, end, link):
    """Of a body that is no whole segment the two addresses, and the two ports where they are there; None where it's no TCP, or tells no address."""
    _, ip = datagram_at(data, at, end, link)
    if ip is None or end - ip < 20 or data[ip] >> 4 != 4:
        return None
    first, _, fragment, protocol = IPV4.unpack_from(data, ip)
    tcp = ip + max(20, 4 * (first & 15))
    ports = b"" if fragment & 0x1fff or end - tcp < 4 else bytes(data[tcp:tcp + 4])
    return (bytes(data[ip + 12:ip + 20]), ports) if protocol == 6 else None


def segment(data, ip, tcp, end, verify):
    """The same for the TCP part of a whole datagram."""
    size = end - tcp
    if size < 20 or not 20 <= (data[tcp + 12] >> 2 & 60) <= size:
        return MALFORMED, None, None, None
    if verify:
        pseudo = data[ip + 12:ip + 20] + bytes((0, 6, size >> 8 & 255, size & 255))
        if size > 65_535 or total(data[ip:tcp]) != 0xffff or total(pseudo + data[tcp:end]) != 0xffff:
            return BADSUM, None, None, None
    if data[tcp + 2] == 0 and data[tcp + 3] in SERVICES:
        return SERVED, ip, tcp, end
    if data[tcp] == 0 and data[tcp + 1] in SERVICES:
        return SERVER, ip, tcp, end
    return OTHER, None, None, None
