"""How many answers a server of pages gave, by their status: the kernel counts them as they pass, since there can be too many to look at each.

A counted answer is a segment from the web port whose text begins with a status line of HTTP. So an answer that stands behind another one in its
segment, as pipelined ones may, isn't counted; and one whose first segment is sent again counts twice.
"""
import socket
import struct

import seen
from seen import PACKET_STATISTICS, SOL_PACKET

PACKET_FANOUT, PACKET_FANOUT_DATA, BY_FILTER, NEW_GROUP, LEAST_ROOM = 18, 22, 6, 0x2000 << 16, 1
STATUSES = (200, 206, 301, 304, 400, 404, 405, 412, 413, 414, 416, 431, 501, 505)
# One for what isn't counted, one for each of these, and one for any other.
TAPS = 2 + len(STATUSES)


def place_of(server, port):
    """The place of an answer's status among these, behind 0, or the next one for any other; 0 for each other datagram: BPF, as (code, where to if
    so, if not, number). It looks for `HTTP` and, eight bytes behind its begin, for a space and the status."""
    each = [step for place, status in enumerate(STATUSES)
            for step in ((0x15, 0, 1, int.from_bytes(b" %d" % status, "big")), (0x06, 0, 0, 1 + place))]
    return ((0x20, 0, 0, 12), (0x15, 1, 0, int(server)), (0x06, 0, 0, 0),
            (0x30, 0, 0, 9), (0x15, 1, 0, socket.IPPROTO_TCP), (0x06, 0, 0, 0),
            (0xB1, 0, 0, 0), (0x48, 0, 0, 0), (0x15, 1, 0, port), (0x06, 0, 0, 0),
            (0x50, 0, 0, 12), (0x54, 0, 0, 0xF0), (0x74, 0, 0, 2), (0x0C, 0, 0, 0), (0x07, 0, 0, 0),
            (0x40, 0, 0, 0), (0x15, 1, 0, int.from_bytes(b"HTTP", "big")), (0x06, 0, 0, 0),
            (0x40, 0, 0, 8), *each, (0x06, 0, 0, 1 + len(STATUSES)))


class Answers:
    """The counts at a device. Nobody reads what its taps get."""
    def __init__(self, device, server, port):
        self.taps, self.counts = [seen.tap(device) for _ in range(TAPS)], dict.fromkeys((*STATUSES, "other"), 0)
        group = NEW_GROUP
        for tap in self.taps:
            tap.setsockopt(socket.SOL_SOCKET, socket.SO_RCVBUF, LEAST_ROOM)
            tap.setsockopt(SOL_PACKET, PACKET_FANOUT, BY_FILTER << 16 | group)
            group = tap.getsockopt(SOL_PACKET, PACKET_FANOUT) & 0xFFFF
        seen.attach(self.taps[0], place_of(server, port), SOL_PACKET, PACKET_FANOUT_DATA)
        seen.attach(self.taps[0], seen.NOTHING)
        self.passed()

    def passed(self):
        """How many datagrams each tap got since this was asked."""
        return [struct.unpack("II", tap.getsockopt(SOL_PACKET, PACKET_STATISTICS, 8))[0] for tap in self.taps]

    def facts(self):
        for status, count in zip(self.counts, self.passed()[1:]):
            self.counts[status] += count
        return {"answers": sum(self.counts.values()), **{f"answers_{status}": count for status, count in self.counts.items() if count}}
