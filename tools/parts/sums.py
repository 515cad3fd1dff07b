"""Segments with a wrong checksum, and what a capture can tell of them: a network card fills them in later, or the wire has spoilt them.

A receiver drops what is spoilt, so nothing is judged by it. That a sender computes wrong can't be told from a wire that spoils bits. What the
capture holds twice is found here too.
"""
from collections import Counter
from dataclasses import dataclass, field

import capture
from packets import total
from segments import copies, header


@dataclass
class Sums:
    card: set = field(default_factory=set)          # records of segments that the sender's card was to finish
    spoilt: dict = field(default_factory=dict)      # by a connection's two ends the segments that are left out
    copies: set = field(default_factory=set)        # records of the clients' segments that no server got: the capture has most of a connection twice

    def records(self):
        return {s.record for segments in self.spoilt.values() for s in segments}


def right(segment):
    """Whether the checksums of both headers are right. A card may be left the IP header's as 0."""
    data, tcp = segment.datagram, header(segment)
    ip = data[:len(data) - len(tcp)]
    return total(pseudo(segment) + tcp) == 0xffff and (total(ip) == 0xffff or ip[10:12] == b"\0\0")


def pseudo(segment):
    return segment.datagram[12:20] + bytes((0, 6)) + len(header(segment)).to_bytes(2, "big")


def begun(segment):
    """Whether the checksum is the one that a host leaves to its card: of the addresses and the size alone."""
    return int.from_bytes(header(segment)[16:18], "big") == total(pseudo(segment))


def judged(conns):
    """Of all connections the segments with a wrong checksum. Where most of a host's are wrong, its card was to fill them in."""
    sent, wrong = Counter(), []
    for conn in conns:
        for segment in conn.client + conn.server:
            sent[segment.datagram[12:16]] += 1
            if not right(segment):
                wrong.append((conn.tuple, segment))
    failed = Counter(segment.datagram[12:16] for _, segment in wrong)
    out = Sums(copies={record for conn in conns for record in doubled(conn)})
    for ends, segment in wrong:
        host = segment.datagram[12:16]
        if begun(segment) or 2 * failed[host] > sent[host]:
            out.card.add(segment.record)
        else:
            out.spoilt.setdefault(ends, []).append(segment)
    return out


def doubled(conn):
    """The client's copies, where most segments of both directions are there twice: else the wire may have doubled them, and the server got both."""
    mine, theirs = ([s.record for s, _ in copies(segments)] for segments in (conn.client, conn.server))
    both = len(mine) + len(theirs)
    return mine if mine and theirs and 3 * both > len(conn.client) + len(conn.server) else ()


def of(captures):
    """The same of captures as sqrun reads them."""
    return judged(capture.read(captures, most=None).conns)
