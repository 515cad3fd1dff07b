"""The differences of one life of a connection, by kind; and what a capture that leaves doubts can't tell."""
from dataclasses import dataclass, field

from standards import KINDS

FRAMES = 20                 # that are named of one kind
# What a capture with gaps, or of segments that changed places, can't tell: there it is unjudged.
DOUBTS = {"not whole in the capture": "the capture isn't whole", "acknowledged what isn't captured": "the capture lacks text", "text isn't captured": "the capture lacks text",
          "acknowledgement went back": "segments may have changed places", "wrong checksum": "some sums are wrong"}
NEEDS_WHOLE = ("SYN acknowledged wrongly", "acknowledged too late", "acknowledged too seldom", "acknowledged before it came", "gap not acknowledged",
               "window shrunk", "window opened by little", "past the window", "window not probed", "sent again early", "reset with a wrong number", "SYN not challenged")
# What a long or lossy wire can do to a right server: unjudged where it's far, or where either side sent again.
NEEDS_WIRE = ("acknowledged too late", "acknowledged too seldom", "acknowledged before it came", "gap not acknowledged", "window not probed")

# What a card that cuts and joins segments does to a right server: what it acknowledges at once came at once.
NEEDS_PACKETS = ("acknowledged too seldom", "gap not acknowledged")

# What a capture that lacks a single segment makes of a right server: unjudged, unless more of the connection speaks for it (`Found.sure`).
NEEDS_MORE = {"acknowledged too late": "the capture may lack the one in time", "past the window": "the capture may lack a wider window"}
# What depends on the window's scale: unjudged where SYNs differ in it.
NEEDS_SCALE = ("window shrunk", "window opened by little", "past the window", "window not probed")


@dataclass
class Difference:
    kind: str
    verdict: str
    frame: int | None           # of the capture, from 1
    at: int | None              # microseconds
    captured: str
    reference: str
    count: int = 1
    frames: list = field(default_factory=list)
    times: list = field(default_factory=list)       # of these frames
    why: str = ""               # it's unjudged, where its kind isn't so always


class Found:
    def __init__(self):
        self.by_kind = {}
        self.wire = False           # the wire may count: the server is far, or something was sent again
        self.doubt = False          # the capture isn't whole
        self.offloaded = False      # a card cuts and joins segments
        self.sure = set()           # of NEEDS_MORE what more than one segment speaks for
        self.unsure = {}            # by kind why it's unjudged

    def add(self, kind, segment=None, captured="", reference="", count=1):
        frame = segment.record + 1 if segment is not None and segment.record >= 0 else None
        seen = self.by_kind.get(kind)
        if seen is None:
            seen = self.by_kind[kind] = Difference(kind, KINDS[kind].verdict, frame, segment.at if segment is not None else None, captured, reference, 0)
        seen.count += count
        if frame and len(seen.frames) < FRAMES:
            seen.frames.append(frame)
            seen.times.append(segment.at if segment.real is None else segment.real)

    def differences(self):
        """All of them; where the capture leaves doubts, what depends on them is unjudged."""
        doubt = next((kind for kind in DOUBTS if kind in self.by_kind), "not whole in the capture" if self.doubt else None)
        joined = self.offloaded or "larger than a packet" in self.by_kind
        why = {kind: NEEDS_MORE[kind] for kind in NEEDS_MORE if kind not in self.sure}
        why.update(dict.fromkeys(NEEDS_PACKETS if joined else (), "a card joins segments"))
        why.update(dict.fromkeys(NEEDS_WIRE if self.wire else (), "the wire is long, or something was sent again"))
        why.update(dict.fromkeys(NEEDS_WHOLE if doubt else (), DOUBTS.get(doubt)))
        for kind, reason in {**why, **self.unsure}.items():
            if kind in self.by_kind:
                self.by_kind[kind].verdict, self.by_kind[kind].why = "unjudged", reason
        return list(self.by_kind.values())
