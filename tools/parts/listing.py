"""The first screen of sq: a line for each TCP connection of the captures, whatever its port, with what the reference makes of it; and a total."""
from dataclasses import dataclass

from capture import ACK, FIN, RST, SYN
from drawing import plural, seconds
from screen import painted
from timeseq import kinds

MOST = 6                    # connections on a terminal
COLOURS = {"closed": "32", "reset": "31", "open": "33"}
CLOSED = ("LISTEN", "TIME-WAIT")
HEAD = ("client", "server", "bytes up", "down", "time", "again up", "down", "end", "sqrun")


@dataclass
class Row:
    """A connection, over all its lives."""
    client: str
    server: str
    up: int                 # bytes of text, each counted as often as it was sent
    down: int
    time: int               # microseconds
    again_up: int           # segments that were sent again
    again_down: int
    end: str                # closed, reset or open
    reference: str
    cut: int                # segments that the capture cut short; their bytes are those of their lengths

    def texts(self):
        last = "; ".join([self.reference] * bool(self.reference) + [f"{self.cut:,} cut short"] * bool(self.cut))
        return (self.client, self.server, f"{self.up:,}", f"{self.down:,}", seconds(self.time), f"{self.again_up:,}", f"{self.again_down:,}", self.end, last)

    def rank(self):
        """What one should look at stands first."""
        return ("reset", "open", "closed").index(self.end), -(self.again_up + self.again_down)


def lives(conversation):
    """(client's segments, server's) from each new SYN of the client on."""
    out, number = [([], [])], None
    mine = {id(s) for s in conversation.client}
    for s in sorted(conversation.client + conversation.server, key=lambda s: s.record):
        if id(s) in mine and s.flags & (SYN | ACK | RST) == SYN and s.seq != number:
            if number is not None:
                out.append(([], []))
            number = s.seq
        out[-1][0 if id(s) in mine else 1].append(s)
    return out


def again(segments):
    """How many segments came a second time. Numbers count from the first one."""
    return kinds(segments, segments[0].seq).count("again") if segments else 0


def end_of(client, server):
    """How the last life stands at the end of the captures."""
    if any(s.has(RST) for s in client + server):
        return "reset"
    return "closed" if all(any(s.has(FIN) for s in side) for side in (client, server)) else "open"


def row(conversation, served):
    parts, both = lives(conversation), conversation.client + conversation.server
    client, server = conversation.tuple.split(" ")
    count = lambda segments, whose: sum(s.length for s in segments) + sum(size for end, size in conversation.short if end == whose)
    times = [s.at for s in both] or [0]
    told = "" if served is None else f"{served.service}: {sum(s.length for s in served.replies):,} bytes, {'closed' if served.end in CLOSED else served.end}"
    return Row(client, server, count(conversation.client, conversation.client_end), count(conversation.server, conversation.server_end), max(times) - min(times),
               sum(again(side) for side, _ in parts), sum(again(side) for _, side in parts), end_of(*parts[-1]), told, len(conversation.short))


def total(rows):
    ends = ", ".join(f"{sum(one.end == end for one in rows):,} {end}" for end in COLOURS if any(one.end == end for one in rows))
    return (f"{plural(len(rows), 'connection')}: {ends or 'none'}; {sum(one.up for one in rows):,} bytes up, {sum(one.down for one in rows):,} down; "
            f"again {sum(one.again_up for one in rows):,} up, {sum(one.again_down for one in rows):,} down; sqrun serves {sum(bool(one.reference) for one in rows):,}")


def listed(conversations, served, terminal):
    """The lines. A terminal gets those first that one should look at, and so many as fit; anything else gets all, in order."""
    rows, paint = [row(one, served.get(one.tuple)) for one in conversations], painted(terminal)
    shown = sorted(rows, key=Row.rank)[:MOST] if terminal else rows
    cells = [HEAD, *(one.texts() for one in shown)] if shown else []
    widths = [max(map(len, column)) for column in zip(*cells)]
    for n, line in enumerate(cells):
        padded = [text.ljust(width) if at in (0, 1, 7, 8) else text.rjust(width) for at, (text, width) in enumerate(zip(line, widths))]
        padded[7] = paint(padded[7], COLOURS[line[7]] if n else "")
        yield "  ".join(padded).rstrip()
    if len(shown) < len(rows):
        yield f"and {len(rows) - len(shown):,} more: a pipe gets all, as `sq FILE | less` does"
    yield paint(total(rows), "1")
