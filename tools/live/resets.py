"""What the clients of a live server get when it has ended: a reset of each connection that was seen open, which the launcher writes to the device.

A client takes a reset whose sequence number is the next that it awaits (RFC 9293, 3.10.7.4). That is its last acknowledgement number, or a later
one where it hasn't acknowledged all yet. So a keep-alive (RFC 9293, 3.8.4) goes behind each reset: by its answer the number is seen, or that the
connection is over. A connection that isn't seen any more gets nothing.
"""
import os
import struct
import time

import tcp_segments
from tcp_segments import ACK, RST

# In seconds: how long the clients have for an answer before the next round, and after which time no more is written.
ROUND, LONGEST = 0.05, 0.5


def reset_and_keep_alive(server, ends, found):
    """Both segments for a connection between these ends."""
    port, service = struct.unpack(">HH", ends[4:])
    return [tcp_segments.segment(server, service, ends[:4], port, seq, ack, flags)
            for seq, ack, flags in ((found.acked, 0, RST), (found.acked - 1, found.began + 1, ACK))]


def reset_all(device, head, taps, connections, most):
    """Resets those of the connections that were seen open, the youngest first and so many at most, until these taps show that all are over. On
    the device each datagram stands behind this head."""
    end = time.monotonic() + LONGEST
    taps.catch_up(end)
    connections.left = True
    while (still := connections.still_open(most)) and time.monotonic() < end:
        for ends, found in still:
            for segment in reset_and_keep_alive(connections.server, ends, found):
                os.write(device, head + segment)
            if time.monotonic() > end:
                return
        time.sleep(ROUND)
        taps.catch_up(end)
