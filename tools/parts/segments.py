"""What a segment's bytes say beyond its numbers: options, text, checksum."""
from capture import ACK, RST, SYN
from drawing import seconds
from packets import total

USUAL_MSS, ETHERNET_MOST = 536, 1_500
MSS, SCALE, SACK_PERMITTED, SACK, TIMESTAMP = 2, 3, 4, 5, 8
SIZES = {MSS: 4, SCALE: 3, SACK_PERMITTED: 2, TIMESTAMP: 10}
URG, ECE, CWR = 32, 64, 128
SOON = 1_000                # microseconds, below which no timer sends again


def header(segment):
    """The bytes from the TCP header on."""
    return segment.datagram[4 * (segment.datagram[0] & 15):]


def all_flags(segment):
    return header(segment)[13]


def options(segment):
    """The options of a segment by number: the first of each with its right size."""
    return parsed_options(segment)[0]


def parsed_options(segment):
    """The same, and what is said of the first one whose length isn't one, or None."""
    tcp, out = header(segment), {}
    data, at = tcp[20:tcp[12] >> 2 & 60], 0
    while at < len(data) and data[at]:
        if data[at] == 1:
            at += 1
            continue
        if at + 1 >= len(data) or data[at + 1] < 2 or at + data[at + 1] > len(data):
            return out, f"option {data[at]} of length {data[at + 1]}" if at + 1 < len(data) else f"option {data[at]} without a length"
        kind, length = data[at], data[at + 1]
        if SIZES.get(kind, length) == length:
            out.setdefault(kind, data[at + 2:at + length])
        at += length
    return out, None


def text(segment):
    tcp = header(segment)
    start = tcp[12] >> 2 & 60
    return tcp[start:start + segment.length]


def opens(segment):
    """Whether it asks for a connection: a SYN that is neither an answer nor a reset."""
    return segment.flags & (SYN | ACK | RST) == SYN


def accepts(segment):
    """Whether it's a SYN,ACK."""
    return segment.flags & (SYN | ACK | RST) == SYN | ACK


def room(segment, shift):
    return segment.window << (0 if segment.has(SYN) else shift)


def option_text(kind, held):
    if kind not in held:
        return "none"
    return str(int.from_bytes(held[kind], "big")) if kind in (MSS, SCALE) else "yes"


def copies(segments):
    """The segments that the capture holds a second time, and in words why: the same datagram but for what a router changes.

    A host may give all datagrams one identification (RFC 6864, 4.1). Then two of one time are taken for one where they have text or SYN, which no timer
    sends again so soon.
    """
    seen, told = {}, len({s.datagram[4:6] for s in segments} - {b"\0\0"}) > 1
    for s in segments:
        ip = s.datagram[:2] + s.datagram[4:8] + s.datagram[12:]
        before, seen[ip] = seen.get(ip), s.at
        if before is not None and told and s.datagram[4:6] != b"\0\0":
            yield s, "the same datagram"
        elif before is not None and s.at - before < SOON and (s.length or s.has(SYN)):
            yield s, f"the same bytes {seconds(s.at - before)} later, without an identification"
