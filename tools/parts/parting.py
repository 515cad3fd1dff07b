"""Where a captured connection leaves the reference, or the capture ends first: from there on the two servers can't be compared."""
from dataclasses import dataclass, replace

from capture import ACK, FIN, RST, SYN
from segments import room, text
from timeseq import near
from watching import LATE, Stream

QUIET = 1_000_000           # microseconds without a segment, after which a server that hasn't answered isn't going to


@dataclass
class Ending:
    """Where the capture ends."""
    at: int                     # microseconds

    def comes_first(self, life, is_last):
        """Whether it ends while a connection is at work, which neither side has reset and the server hasn't closed."""
        both = life.client + life.server
        if not is_last or any(s.has(RST) for s in both) or any(s.has(FIN) for s in life.server):
            return False
        return self.at - max((s.at for s in both), default=self.at) < QUIET


@dataclass
class Parting:
    """The first segment of the client that the reference can't follow."""
    segment: object
    captured: str
    reference: str
    left: int                   # of 100 segments of both sides, how many stand there and behind

    def before(self, life):
        """The life up to there. The reference's answers are those of that time."""
        return replace(life, client=[s for s in life.client if s.record < self.segment.record], server=[s for s in life.server if s.record < self.segment.record],
                       replies=[s for s in life.replies if s.at < self.segment.at])


class Reach:
    """How far one server has sent, and had room for, as time goes on. Numbers count from the first of their direction."""

    def __init__(self, segments, irs, iss, shift):
        self.segments, self.irs, self.iss, self.shift = sorted(segments, key=lambda s: s.at), irs, iss, shift
        self.at, self.sent, self.edge = 0, 0, 0

    def until(self, time):
        """Takes what was sent up to this time."""
        while self.at < len(self.segments) and self.segments[self.at].at <= time:
            s = self.segments[self.at]
            self.at += 1
            if s.has(RST):
                continue
            self.sent = max(self.sent, near(s.seq, self.iss) + s.span())
            if s.has(ACK):
                self.edge = max(self.edge, near(s.ack, self.irs) + room(s, self.shift))


def parting(life, shake, ours):
    """Where the client acknowledges what the captured server has sent and the reference hasn't, or sends what only the captured server has room for.

    `shake` is the captured handshake, `ours` the reference's. RFC 9293, 3.10.7.4: such a segment is dropped, such text too.
    """
    captured = Reach(life.server, life.irs, shake.answer.seq, shake.server_shift)
    reference = Reach(life.replies, life.irs, ours.answer.seq, ours.server_shift)
    whole = Reach(life.server, life.irs, shake.answer.seq, shake.server_shift)
    whole.until(1 << 63)
    for s in life.client:
        if s.has(RST) or s.has(SYN) or not s.has(ACK):
            continue
        captured.until(s.at + LATE)
        reference.until(s.at)
        ack, end = near(s.ack, ours.answer.seq), near(s.seq, life.irs) + s.length
        if reference.sent < ack <= whole.sent:
            return part(life, s, f"acknowledged up to {ack:,}", f"sent up to {reference.sent:,}")
        if s.length and reference.edge < end <= captured.edge:
            return part(life, s, f"sent text up to {end:,}", f"has room up to {reference.edge:,}")
    return None


def part(life, segment, captured, reference):
    both = life.client + life.server
    left = sum(s.record >= segment.record for s in both)
    return Parting(segment, captured, reference, 100 * left // len(both))


def service_text(life, service):
    """The text that a server of this service sends back to what the client sent, as far as the capture has it without a gap."""
    if service != "echo":
        return b""
    stream = Stream()
    for s in life.client:
        if s.length and not s.has(RST):
            stream.put(near(s.seq, life.irs) - 1 + s.has(SYN), text(s))
    return stream.whole()


def told(parting):
    """What a person is told of it."""
    return f"{parting.captured}; {parting.left} % not compared"
