"""A sequence diagram of a small connection: what the client sent, and what sqrun answers."""
from capture import ACK, FIN, PSH, RST, SYN
from drawing import figure, plural, seconds, text
from served import rows
from timeseq import OUR_SCALE, kinds, near

WIDTH, LEFT, RIGHT, ROW, HEAD = 960, 96, 690, 31, 66
MIDDLE = (LEFT + RIGHT) / 2
MOST, FIRST, LAST = 90, 60, 25
LONG = 100_000              # microseconds that are told where they pass


def name(s, seqbase, ackbase, shift):
    """As tcpdump writes it, with numbers from the connection's start."""
    flags = "".join(c for c, bit in zip("FSRP.", (FIN, SYN, RST, PSH, ACK)) if s.flags & bit) or "none"
    lo = near(s.seq, seqbase)
    words = [f"seq {lo}:{lo + s.length}" if s.length else f"seq {lo}"]
    if s.has(ACK):
        words.append(f"ack {near(s.ack, ackbase)}")
    if not s.has(RST):
        words.append(f"win {s.window << (0 if s.has(SYN) else shift)}")
    if s.mss is not None:
        words.append(f"mss {s.mss}")
    if s.scale is not None:
        words.append(f"scale {s.scale}")
    return f"[{flags}] {', '.join(words)}"


def told(lives):
    """By segment its words, and whether it came before or late."""
    out = {}
    for life in lives:
        scale = next((s.scale for s in life.client if s.has(SYN) and s.scale is not None), None)
        snd = min(scale or 0, 14) if life.scaled else 0
        for segments, base, other, shift in ((life.client, life.irs, life.iss, snd), (life.replies, life.iss, life.irs, OUR_SCALE if life.scaled else 0)):
            for s, kind in zip(segments, kinds(segments, base)):
                out[id(s)] = name(s, base, other, shift), kind
    return out


class Ladder:
    def __init__(self, served, lives, calls):
        self.served, self.calls, self.told = served, calls, told(lives)
        self.out, self.y, self.previous, self.begun = [], HEAD, None, None

    def row(self, at, kind, thing):
        if at is not None and kind in ("segment", "reply", "time"):
            self.time(at)
        if kind in ("segment", "reply"):
            self.arrow(kind, thing)
        elif kind == "call":
            j, k = thing
            self.out.append(f'<rect class="call" x="{RIGHT - 5}" y="{self.y - 8}" width="10" height="16" rx="2"/>'
                            + text(RIGHT + 12, self.y + 4, f"call {j}.{k} {self.calls.get(thing, '')} → {self.served.answers.get(thing, '')}", "mono thread"))
            self.y += ROW
        elif kind == "time":
            self.out.append(f'<circle class="clock" cx="{RIGHT}" cy="{self.y}" r="5.5"/><path class="hand" d="M{RIGHT} {self.y - 3.5}v3.5h2.5"/>'
                            + text(RIGHT + 12, self.y + 4, "timer", "m s"))
            self.y += 12
        elif kind == "left out":
            self.out.append(text(MIDDLE, self.y + 4, f"… {thing:,} rows left out …", "m s c"))
            self.y += ROW
        elif self.previous is not None and thing - self.previous >= LONG:
            self.out.append(text(MIDDLE, self.y + 1, f"the capture ends {seconds(thing - self.previous)} later", "m s c"))
            self.y += 14

    def time(self, at):
        self.begun = at if self.begun is None else self.begun
        if self.previous is not None and at - self.previous >= LONG:
            self.out.append(f'<path class="gap" d="M{LEFT} {self.y - 10}v14M{RIGHT} {self.y - 10}v14"/>'
                            + text(MIDDLE, self.y + 3, f"{seconds(at - self.previous)} later", "m s c"))
            self.y += 20
        if at != self.previous:
            self.out.append(text(LEFT - 12, self.y + 5, f"{(at - self.begun) / 1e6:.6f}", "m mono e"))
        self.previous = at

    def arrow(self, kind, segment):
        words, mark = self.told.get(id(segment), ("", ""))
        words += ", again" if mark == "again" else ""
        mark = "again" if segment.has(RST) else mark
        a, b, sign = (LEFT, RIGHT, 1) if kind == "segment" else (RIGHT, LEFT, -1)
        self.out.append(f'<path class="arrow {kind} {mark}" d="M{a} {self.y}L{b} {self.y + 7}m{-9 * sign} -4.3l{9 * sign} 4.3l{-9 * sign} 4.1"/>'
                        + text(MIDDLE, self.y - 2, words, f"mono c {mark}"))
        self.y += ROW


def draw(ident, number, conn, served, lives, calls, alone=False):
    """The figure; alone it is no wider than it needs to be."""
    listed = rows(conn, served)
    beside = any(kind in ("call", "time") for _, kind, _ in listed)
    if len(listed) > MOST:
        listed = listed[:FIRST] + [(None, "left out", len(listed) - FIRST - LAST)] + listed[-LAST:]
    ladder = Ladder(served, lives, calls)
    for row in listed:
        ladder.row(*row)
    bottom = ladder.y + 6
    client, server = conn.tuple.split(" ")
    frame = [text(LEFT, 20, "client", "b c"), text(LEFT, 35, client, "m mono c"),
             text(RIGHT, 20, f"sqrun, {conn.service}", "b c"), text(RIGHT, 35, server, "m mono c"),
             f'<path class="life" d="M{LEFT} 42V{bottom}M{RIGHT} 42V{bottom}"/>',
             text(RIGHT, bottom + 18, served.ended(), "b c"), text(LEFT - 12, 52, "seconds", "m s e")]
    desc = (f"{plural(len(conn.client), 'segment')} from the client and {len(served.replies):,} {'reply' if len(served.replies) == 1 else 'replies'}, "
            f"in the order served; at the end: {served.ended()}.")
    return figure(ident, WIDTH if beside or not alone else RIGHT + LEFT, bottom + 30, f"Connection {number}: who sent what", desc, "".join(frame + ladder.out))


STYLE = """
.fig .life{stroke:var(--muted);stroke-width:1.5}.fig .gap{stroke:var(--paper);stroke-width:4;stroke-dasharray:2 3}
.fig .arrow{stroke:var(--data);stroke-width:1.5;stroke-linejoin:round}.fig .arrow.reply{stroke:var(--ackd)}
.fig .arrow.again{stroke:var(--again)}.fig .arrow.late{stroke:var(--move)}.fig text.again{fill:var(--again)}
.fig text.thread{fill:var(--thread)}.fig .call{fill:var(--thread)}
.fig .clock{fill:var(--paper);stroke:var(--again);stroke-width:1.5}.fig path.hand{stroke:var(--again);stroke-width:1.4}
"""
