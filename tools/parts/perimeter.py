"""What a squeue's marks say: who had it when, and how long its queue was.

The marks are followed, not judged: where one doesn't follow from those before it, the story ends there.
"""
from collections import deque
from dataclasses import dataclass, field

from capture import Segment

POLLING = 16


@dataclass(slots=True)
class Stretch:
    """The marks first to last, between which pass p had the perimeter."""
    p: int
    came: str                # fast, claim, work or accept
    first: int
    last: int = -1
    feeds: list = field(default_factory=list)
    act: tuple = ()
    takes: list = field(default_factory=list)


@dataclass
class Story:
    stretches: list
    chain: list              # after each mark: entries queued
    polling: list            # after each mark
    waiting: list            # after each mark: something is queued and nobody has the perimeter
    stuck: int = -1          # the first mark that doesn't follow from those before it


class Following:
    """The state behind the marks so far: who has the perimeter, what is queued, and what the owner has in hand."""

    def __init__(self):
        self.stretches, self.own, self.chain, self.hand, self.granted = [], None, deque(), deque(), -1

    def enters(self, i, m):
        """A pass takes the perimeter."""
        if self.own is not None or m.kind == "accept" and self.granted != m.p:
            return False
        self.own, self.granted, self.hand = Stretch(m.p, m.kind, i), -1, deque()
        self.stretches.append(self.own)
        if m.kind == "fast":
            self.hand = deque(m.entries)
        elif m.kind != "accept":
            self.hand, self.chain = self.chain, self.hand
        return True

    def goes_on(self, i, m):
        """The owner takes the queue, leaves, or grants; what it did not do goes back before what is queued."""
        if self.own is None or self.own.p != m.p or m.rest > len(self.hand):
            return False
        for _ in range(len(self.hand) - m.rest):
            entry = self.hand.popleft()
            if entry[0] != "ask":
                self.own.feeds.append(entry)
        if m.kind == "take":
            self.own.takes.append(i)
            self.hand, self.chain = self.chain, deque()
            return True
        self.own.last, self.own.act, self.own, self.granted = i, m.act, None, m.j
        if len(self.hand) > len(self.chain):
            self.hand.extend(self.chain)
            self.chain = self.hand
        else:
            self.chain.extendleft(reversed(self.hand))
        self.hand = deque()
        return True

    def mark(self, i, m):
        """Whether the mark follows from those before it."""
        if m.kind in ("fill", "claim"):
            self.chain.extend(m.entries)
        elif m.kind == "ask":
            self.chain.append(("ask", m.p))
        if m.kind in ("fast", "claim", "work", "accept"):
            return self.enters(i, m)
        return self.goes_on(i, m) if m.kind in ("take", "leave", "grant") else True


def follow(marks):
    state, story, polling = Following(), Story([], [], [], []), False
    story.stretches = state.stretches
    for i, m in enumerate(marks):
        if not state.mark(i, m):
            story.stuck = i
            break
        queued = len(state.chain)
        polling = queued >= POLLING or polling and queued > 0
        story.chain.append(queued)
        story.polling.append(polling)
        story.waiting.append(queued > 0 and state.own is None and state.granted < 0)
    return story


@dataclass(slots=True)
class Work:
    """One thing that a pass did at one squeue: its marks first to last."""
    q: int
    first: int
    last: int
    what: tuple              # ("feeds", c, n) by its first feed, or the act


def works(q, marks):
    """What each pass did at squeue q, in order; closing aside."""
    out, since, feeds = {}, {}, {}
    for i, m in enumerate(marks):
        p = m.p
        mine = out.setdefault(p, [])
        if m.kind == "fill":
            mine.append(Work(q, i, i, ("feeds", *m.entries[0])))
        elif m.kind == "fast" or m.kind == "claim" and m.entries[0][0] != "ask":
            since[p], feeds[p] = i, m.entries[0]
        elif m.kind == "ask" or m.kind == "claim":
            since[p], feeds[p] = i, None
        elif m.kind in ("leave", "grant") and p in since:
            if feeds[p]:
                mine.append(Work(q, since.pop(p), i, ("feeds", *feeds[p])))
            elif m.kind == "leave":
                mine.append(Work(q, since.pop(p), i, m.act))
    return out


def feed_places(conns, rings):
    """By feed its place in its ring's list: by record, a time with the segment that it stands before, the last times at the end."""
    out = {}
    for r in range(rings):
        feeds = []
        for c in range(r, len(conns), rings):
            items = conns[c].items
            for n, item in enumerate(items):
                segment = item if isinstance(item, Segment) else items[n + 1] if n + 1 < len(items) else None
                feeds.append((segment is None, c if segment is None else segment.record, n, c))
        out.update({(c, n): i for i, (_, _, n, c) in enumerate(sorted(feeds))})
    return out


def moves_of(mine, squeues):
    """(connection, the work that took it out, the work that put it in, the how many-th move of it) for each move of one pass."""
    stays, out = {}, []
    for w in sorted((w for w in mine if w.what and w.what[0] in ("out", "in")), key=lambda w: w.first):
        stays.setdefault((w.what[0], w.what[1], w.q), deque()).append(w)
    for c in sorted({w.what[1] for w in mine if w.what and w.what[0] == "out"}):
        s = 0
        while stays.get(("out", c, (c + s) % squeues)) and stays.get(("in", c, (c + s + 1) % squeues)):
            away, back = stays["out", c, (c + s) % squeues].popleft(), stays["in", c, (c + s + 1) % squeues].popleft()
            s += 1
            out.append((c, away, back, s))
    return out


def chains_of(mine, moved, place, spread):
    """What one pass did in turn: lists of its works, each list in order."""
    keyed = [(w.what[1:], 2, w) for w in mine if w.what and w.what[0] == "feeds"]
    keyed += [((-1, w.what[3]), 2, w) for w in mine if w.what and w.what[0] == "call"]
    for c, away, back, s in moved:          # before the feed that asks for it
        keyed += [((c, s * spread), 0, away), ((c, s * spread), 1, back)]
    chains = {}
    for (c, n), part, w in keyed:
        known = (c, n) in place             # without the capture the lists aren't known, but each connection's order is
        chains.setdefault(None if known else c, []).append((place[c, n] if known else n, part, w))
    return [[w for _, _, w in sorted(chain, key=lambda k: k[:2])] for chain in chains.values()]


def settle(squeues, causes):
    """Each mark's column: right of those before it. How many marks can't stand so: they are drawn all the same."""
    column, at, dropped = [[-1] * len(marks) for marks in squeues], [0] * len(squeues), 0
    while any(i < len(marks) for i, marks in zip(at, squeues)):
        moved = False
        for q in range(len(squeues)):
            while at[q] < len(squeues[q]) and all(column[a][b] >= 0 for a, b in causes[q][at[q]]):
                i = at[q]
                column[q][i] = 1 + max([column[q][i - 1] if i else -1] + [column[a][b] for a, b in causes[q][i]])
                at[q] += 1
                moved = True
        if not moved:       # no run makes such marks
            q = next(q for q in range(len(squeues)) if at[q] < len(squeues[q]))
            causes[q][at[q]] = []
            dropped += 1
    return column, dropped


def columns(report, conns):
    """A column for each mark, so that what happened before stands to the left; the moves; and how many marks can't stand so.

    Within a squeue the marks' order is known. Between squeues it is what one thread did after another: a ring goes through its list of
    feeds, moving a connection before the feed that asks for it, and an application thread through its calls.
    """
    squeues, done = report.squeues, {}
    for q, marks in enumerate(squeues):
        for p, mine in works(q, marks).items():
            done.setdefault(p, []).extend(mine)
    place = feed_places(conns, report.setup["rings"])
    causes, moves = [[[] for _ in marks] for marks in squeues], []
    for mine in done.values():
        moved = moves_of(mine, len(squeues))
        moves += [move[:3] for move in moved]
        for chain in chains_of(mine, moved, place, report.setup["spread"]):
            for a, b in zip(chain, chain[1:]):
                if a.q != b.q:
                    causes[b.q][b.first].append((a.q, a.last))
    column, dropped = settle(squeues, causes)
    return column, moves, dropped
