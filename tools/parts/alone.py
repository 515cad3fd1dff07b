"""What stands in the segments alone: any TCP connection, whatever its port and service, is judged in both directions by the rules that need no reference.

Each side is watched as a server is beside the reference (watching.Watch); what the standards leave free isn't told.
"""
from collections import defaultdict
from dataclasses import dataclass

from compare import handshakes, judge_handshake, once
from drawing import plural
from findings import Found
from segments import opens
from timeseq import Life, near
from watching import LATE, Handshake, Watch

SIDES = "server", "client"
TIMES = 3                   # a text that was sent so often, each time with a wrong checksum, wasn't spoilt by the wire
TOLD = "MUST", "SHOULD", "unjudged"


@dataclass
class Judged:
    """One side of one life of a connection, with what it does against a rule."""
    ends: str
    life: int
    side: str
    differences: list
    begun: int                  # microseconds
    number: int | None = None   # in the report, where the connection is served


class Swapped(Handshake):
    """A handshake seen from the client: its SYN stands in the place of the answer."""

    def __init__(self, shake):
        super().__init__(shake.answers, shake.all_syns)
        self.trip, self.back = shake.back, shake.trip


class Sides:
    """The two sides of a conversation, without what no receiver takes, and without what the capture holds a second time."""

    def __init__(self, conversation, read):
        self.ends, self.read, self.both = conversation.tuple, read, {}
        self.left_out, self.broken = {"server": Found(), "client": Found()}, conversation.broken
        for side, segments in (("server", conversation.server), ("client", conversation.client)):
            found = self.left_out[side]
            for s in segments:
                if s.record in read.spoilt:
                    found.add("wrong checksum", s, "not what the segment has", "")
            self.both[side] = once([s for s in segments if s.record not in read.spoilt], found)
        for side, segments in (("server", conversation.server), ("client", conversation.client)):
            self.sums(segments, side)

    def sums(self, segments, side):
        """A text that went several times, always with a wrong checksum, and that the other side never took (MUST-2)."""
        tried = defaultdict(list)
        for s in segments:
            if s.length:
                tried[s.seq].append(s)
        for seq, listed in tried.items():
            if len(listed) >= TIMES and all(s.record in self.read.unsummed for s in listed):
                self.untaken(side, seq, listed)

    def untaken(self, side, seq, listed):
        behind = [s for s in self.both["client" if side == "server" else "server"] if s.record > listed[-1].record]
        if behind and all(near(s.ack, seq) <= 0 for s in behind):
            self.left_out[side].add("checksum wrong each time", listed[0], f"{plural(len(listed), 'time')}, never taken", "")

    def lives(self):
        """(life, handshake, when the capture ends for it) of each handshake."""
        syn = next(filter(opens, self.both["client"]), None)
        if syn is None or not self.both["server"]:
            return
        stretches = handshakes(Life(self.both["client"], [], self.both["server"], syn.seq, 0))
        for n, (life, shake) in enumerate(stretches):
            yield life, shake, self.read.last if n + 1 == len(stretches) else 1 << 63

    def judge(self, side, life, shake, until):
        """What one side of a life does against a rule."""
        found = Found()
        found.doubt = bool(self.broken) or any(one.by_kind for one in self.left_out.values())
        other = Swapped(shake)
        found.wire = max(shake.trip, other.trip) >= LATE
        listed = sorted(life.client + life.server, key=lambda s: s.record)
        card = any(s.record in self.read.card for s in listed)
        if side == "server":
            judge_handshake(life, shake, found)
            watch = Watch(life, shake, found, card, until)
        else:
            watch = Watch(Life(life.server, [], life.client, shake.answer.seq, life.irs), other, found, card, until, SIDES[::-1])
        for segment in listed:
            watch.take(segment)
        watch.end()
        return found.differences()


def judge(conversation, read, served):
    """Each side of each life of a conversation whose handshake is there. `read` is what the captures have (conversations.Read).

    The server of a connection that is served is judged beside the reference; here only where one of its checksums is wrong.
    """
    both = Sides(conversation, read)
    for n, (life, shake, until) in enumerate(both.lives()):
        for side in SIDES if not served or both.left_out["server"].by_kind else SIDES[1:]:
            found = both.judge(side, life, shake, until) + (both.left_out[side].differences() if n == 0 else [])
            yield Judged(both.ends, n, side, [d for d in found if d.verdict in TOLD], shake.syns[0].at)
