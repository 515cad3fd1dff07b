"""The timeline of squeues: who had each one when, what was queued, and which blocks moved."""
import re
import sys
from array import array
from bisect import bisect_left, bisect_right
from html import escape

from drawing import figure, key, num, plural, text
from files import Refused
from perimeter import POLLING, columns, follow

LEFT, LANE, CURVE, HEAD, GAP = 92, 22, 36, 26, 30
MOST_COLUMNS, BINS = 3_000, 860
THREADS = 4

BAR = '<rect class="own {}" x="2" y="3" width="26" height="12" rx="3"/>'
KEY = ((BAR.format("ring"), "a ring has it, and the feeds processed"), (BAR.format("thread"), "an application thread"),
       (BAR.format("worker"), "the worker"), ('<path class="fill" d="M11 5h8l-4 8z"/>', "feeds queued"),
       ('<circle class="ask" cx="15" cy="9" r="4"/>', "asked"),
       ('<path class="grant" d="M15 2V14"/><circle class="grant" cx="15" cy="14" r="2.6"/>', "granted"),
       ('<path class="take" d="M15 2V16"/>', "took the queue"),
       ('<path class="move" d="M2 5C14 5 14 13 26 13"/><circle class="moveend" cx="26" cy="13" r="3"/>', "a block moved"),
       ('<path class="waiting" d="M2 9H28"/>', "queued, nobody has it"),
       ('<path class="polling" d="M3 2h24v14h-24z"/>', "polling"), ('<path class="close" d="M12 6l6 6m0 -6l-6 6"/>', "closed"))
OVERVIEW = ("An overview: the share of marks during which each pass had the squeue, and the longest queue, by column. For single marks choose a part "
            "with --marks.")
OVERVIEW_KEY = KEY[:3] + KEY[9:10]
CAME = {"fast": "straight in", "claim": "claimed", "work": "woken", "accept": "was granted"}


def role(p, rings):
    return "ring" if p < rings else "thread" if p < rings + THREADS else "worker"


def lane_name(p, rings):
    kind = role(p, rings)
    return f"{kind} {p - (0 if kind == 'ring' else rings)}" if kind != "worker" else "worker"


def runs(feeds):
    """`0.0–2 1.5` for feeds 0 to 2 of connection 0, and feed 5 of connection 1."""
    out = []
    for c, n in feeds:
        if out and out[-1][0] == c and out[-1][2] == n - 1:
            out[-1][2] = n
        else:
            out.append([c, n, n])
    return " ".join(f"{c}.{a}" if a == b else f"{c}.{a}–{b}" for c, a, b in out)


def wide(words):
    """About how wide the words are in a bar, in pixels."""
    return sum(3.1 if c in ". il" else 8 if c in "→" else 5.7 for c in words)


def act_words(act):
    if not act or act[0] == "none":
        return ""
    if act[0] == "call":
        return f"call {act[2]}.{act[3]} on {act[1]}"
    return "looked for a block elsewhere" if act[0] == "away" else f"took {act[1]} out" if act[0] == "out" else f"put {act[1]} in"


def short_words(stretch, room):
    """What stands in a bar of this width: the feeds and the act, or one of them, or a sign; the longest that fits."""
    act, feeds = stretch.act or ("",), runs(stretch.feeds)
    word = f"{act[0]} {act[1]}" if act[0] in ("out", "in") else {"call": "call", "away": "away"}.get(act[0], "")
    sign = {"out": f"{act[1]}→", "in": f"→{act[1]}"}.get(act[0], "") if len(act) > 1 else ""
    return next((one for one in (f"{feeds} {word}".strip(), word or feeds.split(" ")[0], sign) if one and wide(one) <= room), "")


def lanes_of(marks):
    """By pass its lane. Passes that only close have none."""
    used = sorted({m.p for m in marks if m.kind != "close"} | {m.j for m in marks if m.kind == "grant"})
    return {p: n for n, p in enumerate(used)}


class Followed:
    """What the marks say: each squeue's story, each mark's column, the moves, and how many marks can't stand where they should."""

    def __init__(self, report, conns):
        self.stories = [follow(marks) for marks in report.squeues]
        self.column, self.moves, self.dropped = columns(report, conns)


class Timeline:
    """The figure of the chosen squeues. `window` is (squeue, first mark, last mark, a mark to point at or -1)."""

    def __init__(self, report, followed, chosen, window):
        self.report, self.squeues, self.rings = report, report.squeues, report.setup["rings"]
        self.chosen, self.window = chosen, window
        self.stories, self.column, self.moves, self.dropped = followed.stories, followed.column, followed.moves, followed.dropped
        span = (0, max((c[-1] for c in self.column if c), default=0))
        if window:
            span = self.column[window[0]][window[1]], self.column[window[0]][window[2]]
        self.too_wide = span[1] - span[0] > MOST_COLUMNS
        self.shown = {q: range(bisect_left(self.column[q], span[0]), bisect_right(self.column[q], span[1])) for q in chosen}
        used = sorted({self.column[q][i] for q in chosen for i in self.shown[q]}) if window else range(span[1] + 1)
        self.place = {c: n for n, c in enumerate(used)}
        count = len(self.place) + 1
        self.step = min(22, max(14, 860 // count))
        self.width = max(LEFT + count * self.step + 10, 640)
        self.lanes, self.tops = {}, {}

    def x(self, q, i):
        return LEFT + self.place[self.column[q][i]] * self.step + self.step / 2

    def draw(self):
        signs, under = key(KEY, min(self.width, 940))
        out, y = [], under
        for q in self.chosen:
            self.lanes[q], self.tops[q] = lanes_of(self.squeues[q]), y + HEAD
            out += self.heading(q, y) + self.lane_rows(q) + self.bars(q) + self.signs(q)
            queue, y = self.queue(q)
            out += queue
        names = "".join(e for e in re.findall(r"<text .*?</text>", "".join(out)) if float(re.match(r'<text x="([^"]*)"', e)[1]) < LEFT)
        desc = self.description()
        svg = figure("squeues", self.width, y, "Who had each squeue, mark by mark", desc, signs + "".join(out + self.arcs()))
        return svg, desc, stays(names, y, under)

    def heading(self, q, y):
        marks, story = self.squeues[q], self.stories[q]
        closing = [lane_name(m.p, self.rings) for m in marks if m.kind == "close" and m.p not in self.lanes[q]]
        fed = sum(len(s.feeds) for s in story.stretches)
        told = (f"{plural(len(marks), 'mark')}, {plural(fed, 'feed')} processed" + (f"; only closing: {', '.join(closing)}" if closing else "")
                + (f"; mark {story.stuck} doesn't follow from those before it" if story.stuck >= 0 else ""))
        return [text(10, y + 16, f"squeue {q}", "b"), text(LEFT, y + 16, told, "m s")]

    def lane_rows(self, q):
        out, top, lanes = [], self.tops[q], self.lanes[q]
        if self.window and self.window[0] == q and self.window[3] >= 0:
            out.append(f'<rect class="point" x="{num(self.x(q, self.window[3]) - self.step / 2)}" y="{top}" width="{self.step}" '
                       f'height="{len(lanes) * LANE}"/>')
        for p, n in lanes.items():
            out.append(text(LEFT - 12, top + n * LANE + 14, lane_name(p, self.rings), "s e")
                       + f'<rect class="lane" x="{LEFT}" y="{top + n * LANE + 2}" width="{num(self.width - LEFT - 8)}" height="{LANE - 4}" rx="3"/>')
        return out

    def bars(self, q):
        """Who had it, with the feeds processed and the times at which the queue was taken."""
        out, shown = [], self.shown[q]
        for s in self.stories[q].stretches:
            end = s.last if s.last >= 0 else len(self.stories[q].chain) - 1
            if end < shown.start or s.first >= shown.stop:
                continue
            a = self.x(q, s.first) if s.first in shown else LEFT + self.step / 2 - 2
            b = self.x(q, end) if end in shown else self.width - 8 - self.step / 2
            y = self.tops[q] + self.lanes[q][s.p] * LANE
            out.append(self.bar(s, end, a - self.step / 2, b + self.step / 2, y))
            out += [f'<path class="take" d="M{num(self.x(q, t))} {y + 3}v{LANE - 6}"/>' for t in s.takes if t in shown]
        return out

    def bar(self, s, end, left, right, y):
        said = ", ".join(filter(None, [runs(s.feeds), act_words(s.act)]))
        told = f"marks {s.first} to {end}: {lane_name(s.p, self.rings)} {CAME[s.came]}" + (f"; {said}" if said else "")
        short = short_words(s, right - left - 4)
        words = text(left + min(4, (right - left - wide(short)) / 2), y + 14.5, short, "in") if short else ""
        return (f'<g><title>{escape(told)}</title><rect class="own {role(s.p, self.rings)} {s.came}" x="{num(left + 1)}" y="{y + 3}" '
                f'width="{num(right - left - 2)}" height="{LANE - 6}" rx="3"/>{words}</g>')

    def signs(self, q):
        """What was entered, asked for, granted and closed."""
        out = []
        for i in self.shown[q]:
            m, x = self.squeues[q][i], self.x(q, i)
            if m.p not in self.lanes[q]:
                continue
            who, y = lane_name(m.p, self.rings), self.tops[q] + self.lanes[q][m.p] * LANE + LANE / 2
            if m.kind == "fill":
                out.append(f'<g><title>mark {i}: {who} queued {runs(m.entries)}</title><path class="fill" d="M{num(x - 4)} {num(y - 4)}h8l-4 8z"/></g>')
            elif m.kind == "ask":
                out.append(f'<g><title>mark {i}: {who} asked for the perimeter</title><circle class="ask" cx="{num(x)}" cy="{num(y)}" r="4"/></g>')
            elif m.kind == "grant":
                b = self.tops[q] + self.lanes[q][m.j] * LANE + LANE / 2
                out.append(f'<g><title>mark {i}: {who} granted it to {lane_name(m.j, self.rings)}</title><path class="grant" d="M{num(x)} {num(y)}V{num(b)}"/>'
                           f'<circle class="grant" cx="{num(x)}" cy="{num(b)}" r="2.6"/></g>')
            elif m.kind == "close":
                out.append(f'<g><title>mark {i}: {who} closed its pass</title><path class="close" d="M{num(x - 3)} {num(y - 3)}l6 6m0 -6l-6 6"/></g>')
        return out

    def queue(self, q):
        """The queue's length after each mark, and where the next squeue begins."""
        story, base = self.stories[q], self.tops[q] + len(self.lanes[q]) * LANE + 4
        out = self.curve(q, [i for i in self.shown[q] if i < len(story.chain)], base)
        for i in self.shown[q]:
            if i % (5 if self.step > 16 else 10) == 0:
                out.append(text(self.x(q, i), base + CURVE + 14, i, "m t c"))
        return out + [text(LEFT - 12, base + CURVE + 14, "mark", "m t e")], base + CURVE + GAP

    def curve(self, q, shown, base):
        story, floor = self.stories[q], base + CURVE
        most = max([1, *(story.chain[i] for i in shown)])
        scale = (CURVE - 8) / most
        points, polls, waits = [], [], []
        for i in shown:
            x = self.x(q, i)
            until = self.x(q, i + 1) if i + 1 in self.shown[q] else x + self.step
            points.append(f"H{num(x)}V{num(floor - story.chain[i] * scale)}")
            if story.polling[i]:
                polls.append(f"M{num(x)} {base}H{num(until)}V{floor}H{num(x)}z")
            if story.waiting[i]:
                waits.append(f"M{num(x)} {floor + 3}H{num(until)}")
        out = [f'<path class="polling" d="{"".join(polls)}"/><path class="queue" d="M{LEFT} {floor}{"".join(points)}h{self.step}V{floor}z"/>'
               f'<path class="axis" d="M{LEFT} {floor}H{num(self.width - 8)}"/><path class="waiting" d="{"".join(waits)}"/>']
        if most >= POLLING:
            out.append(f'<path class="limit" d="M{LEFT} {num(floor - POLLING * scale)}H{num(self.width - 8)}"/>')
        return out + [text(LEFT - 12, floor - 1, "0", "m t e"), text(LEFT - 12, base + 11, most, "m t e"),
                      text(LEFT - 30, base + CURVE / 2 + 5, "queued", "m s e")]

    def arcs(self):
        """The moves of blocks, from where each was taken out to where it was put in."""
        out = []
        for c, away, back in self.moves:
            (q, i), (r, k) = (away.q, away.last), (back.q, back.last)
            if q not in self.shown or r not in self.shown or i not in self.shown[q] or k not in self.shown[r]:
                continue
            p = self.squeues[q][i].p
            start = max((s.first for s in self.stories[r].stretches if s.last == k), default=k)
            if start not in self.shown[r] or self.column[r][start] <= self.column[q][i]:
                start = k
            ax, ay = self.x(q, i) + self.step / 2 - 1, self.tops[q] + self.lanes[q][p] * LANE + LANE / 2
            bx, by = self.x(r, start) - self.step / 2 - 1, self.tops[r] + self.lanes[r][p] * LANE + LANE / 2
            reach = min(60, max(10, (bx - ax) / 2))
            out.append(f'<g class="moved"><title>connection {c} moved from squeue {q} (mark {i}) to squeue {r} (mark {k})</title>'
                       f'<path class="move" d="M{num(ax)} {num(ay)}C{num(ax + reach)} {num(ay)} {num(bx - reach)} {num(by)} {num(bx)} {num(by)}"/>'
                       f'<circle class="moveend" cx="{num(bx)}" cy="{num(by)}" r="3"/></g>')
        return out

    def description(self):
        setup = self.report.setup
        return (f"{plural(len(self.chosen), 'squeue')} of {setup['squeues']}, {plural(self.rings, 'ring')}, mode {setup['mode']}, "
                f"budget {setup['budget']}, spread {setup['spread']}; {plural(sum(map(len, self.squeues)), 'mark')}, {plural(len(self.moves), 'move')}."
                + (f" {plural(self.dropped, 'mark')} can't stand to the right of what should be before." if self.dropped else "")
                + (f" Shown is what stands beside the marks {self.window[1]} to {self.window[2]} of squeue {self.window[0]}." if self.window else ""))


def draw(report, followed, chosen, window=None):
    """The figure, its description, and the names at its left once more."""
    timeline = Timeline(report, followed, chosen, window)
    if timeline.too_wide and window:
        raise Refused(f"--marks: more than {MOST_COLUMNS} columns")
    return overview(report, timeline) if timeline.too_wide else timeline.draw()


LETTERS = {"fill": "F", "fast": "f", "claim": "c", "take": "t", "ask": "a", "accept": "A", "work": "w", "grant": "g", "leave": "l", "close": "x"}
ACTS = {"none": "-", "call": "c", "out": "o", "in": "i", "away": "a"}
PACKED_FROM = ord("]")          # what stands before it has a meaning in a page or in JSON
MOST_PACKED = 0xd000 - PACKED_FROM
UTF_16 = "utf-16-le" if sys.byteorder == "little" else "utf-16-be"


def packed(numbers):
    """Whole numbers for the script, as a character each where none is large: small ones take a byte in the page."""
    folded = [2 * n if n >= 0 else -2 * n - 1 for n in numbers]
    if max(folded, default=0) >= MOST_PACKED:
        return folded
    return array("H", [n + PACKED_FROM for n in folded]).tobytes().decode(UTF_16)


def deltas(numbers):
    return packed([b - a for a, b in zip([0] + numbers, numbers)])


def all_runs(lists):
    """The feeds of many lists as runs, behind one another: how many each list has, and of each run connection, first feed, how many."""
    each, conns, firsts, counts = [], [], [], []
    for listed in lists:
        begin = len(conns)
        for c, n in listed:
            if len(conns) > begin and conns[-1] == c and firsts[-1] + counts[-1] == n:
                counts[-1] += 1
            else:
                conns.append(c), firsts.append(n), counts.append(1)
        each.append(len(conns) - begin)
    return [packed(column) for column in (each, conns, firsts, counts)]


def told_of_squeue(q, marks, story, column, rings):
    """What the script needs of one squeue; the names are those of timeline.js."""
    acts = [s.act or ("none",) for s in story.stretches]
    return {"q": q, "lanes": [[p, lane_name(p, rings), role(p, rings)] for p in lanes_of(marks)], "column": deltas(column),
            "kind": "".join(LETTERS[m.kind] for m in marks), "by": "".join(chr(48 + m.p) for m in marks),
            "to": "".join(chr(48 + m.j) for m in marks if m.kind == "grant"), "queued": deltas(story.chain),
            "state": "".join(str(polling + 2 * waiting) for polling, waiting in zip(story.polling, story.waiting)),
            "fills": all_runs(m.entries for m in marks if m.kind == "fill"), "first": deltas([s.first for s in story.stretches]),
            "length": packed([(s.last if s.last >= 0 else len(story.chain) - 1) - s.first for s in story.stretches]),
            "feeds": all_runs(s.feeds for s in story.stretches), "act": "".join(ACTS[act[0]] for act in acts),
            "actConn": packed([act[1] if len(act) > 1 else 0 for act in acts]), "made": [list(act[2:]) for act in acts if act[0] == "call"],
            "stuck": story.stuck}


def told(report, conns, followed, chosen, window, linked):
    """The timeline for the script: all marks of the chosen squeues, moves, calls, and the connections, of which `linked` have figures."""
    firsts = {q: {s.last: s.first for s in followed.stories[q].stretches} for q in chosen}
    arcs = [[c, away.q, away.last, back.q, back.last, firsts[back.q].get(back.last, back.last)]
            for c, away, back in followed.moves if away.q in firsts and back.q in firsts]
    answers = {(j, k): report.conns[c].answers.get((j, k), "") for (j, k), c in report.called.items() if c < len(report.conns)}
    return {"squeues": [told_of_squeue(q, report.squeues[q], followed.stories[q], followed.column[q], report.setup["rings"]) for q in chosen],
            "moves": [packed(one) for one in zip(*arcs)] or [[]] * 6, "conns": [conn.tuple for conn in conns], "linked": linked,
            "calls": [[j, k, c, report.calls[j, k], answers.get((j, k), "")] for (j, k), c in report.called.items()],
            "window": list(window) if window and window[0] in firsts else None}


def legend():
    """The signs of the timeline with their words, which wrap as words do."""
    return "".join(f'<span><svg class="fig sign" viewBox="0 0 30 18" width="30" height="18" aria-hidden="true">{sign}</svg>{escape(words)}</span>' for sign, words in KEY)


def stays(names, height, under):
    """The names at the left once more, to stay there while the figure is scrolled."""
    return (f'<svg class="fig stays" viewBox="0 0 {LEFT - 4} {num(height)}" width="{LEFT - 4}" height="{num(height)}" aria-hidden="true">'
            f'<rect class="cover" y="{under}" width="{LEFT - 4}" height="{num(height - under)}"/>{names}</svg>')


class Shares:
    """A long history in columns: the share of each column's marks during which a pass had the squeue, and the longest queue."""

    def __init__(self, marks, story):
        self.count = len(story.chain) or 1
        self.bins = min(BINS, self.count)
        self.of = {p: [0.0] * self.bins for p in lanes_of(marks)}
        self.longest, self.polled = [0] * self.bins, [False] * self.bins
        for s in story.stretches:
            self.add(s.p, s.first, s.last if s.last >= 0 else self.count - 1)
        for i, n in enumerate(story.chain):
            at = i * self.bins // self.count
            self.longest[at] = max(self.longest[at], n)
            self.polled[at] |= story.polling[i]

    def add(self, p, first, last):
        left, right = first * self.bins / self.count, (last + 1) * self.bins / self.count
        while left < right:
            stop = min(int(left) + 1, right)
            self.of[p][min(int(left), self.bins - 1)] += stop - left
            left = stop


def overview(report, timeline):
    """Where the marks are too many to be drawn one by one."""
    chosen, stories = timeline.chosen, timeline.stories
    rings, width = report.setup["rings"], LEFT + BINS + 10
    signs, y = key(OVERVIEW_KEY, width)
    out = [signs]
    for q in chosen:
        marks, shares = report.squeues[q], Shares(report.squeues[q], stories[q])
        step, top = BINS / shares.bins, y + HEAD
        fed = sum(len(s.feeds) for s in stories[q].stretches)
        each = plural(max(1, round(shares.count / shares.bins)), "mark")
        out.append(text(10, y + 16, f"squeue {q}", "b")
                   + text(LEFT, y + 16, f"{plural(len(marks), 'mark')}, {plural(fed, 'feed')} processed; one column is about {each}", "m s"))
        for n, (p, share) in enumerate(shares.of.items()):
            lane = top + n * LANE
            d = "".join(f"M{num(LEFT + k * step)} {num(lane + LANE - 3 - v * (LANE - 6))}h{num(step)}V{lane + LANE - 3}h{num(-step)}z"
                        for k, v in enumerate(share) if v > 0)
            out.append(text(LEFT - 12, lane + 14, lane_name(p, rings), "s e")
                       + f'<rect class="lane" x="{LEFT}" y="{lane + 2}" width="{BINS}" height="{LANE - 4}"/><g><title>{lane_name(p, rings)}: '
                       f'{sum(share) / shares.bins:.1%} of all marks</title><path class="own {role(p, rings)}" d="{d}"/></g>')
        base = top + len(shares.of) * LANE + 4
        out.append(overview_queue(shares, base, step))
        y = base + CURVE + GAP + 8
    desc = f"{timeline.description()} {OVERVIEW}"
    return figure("squeues", width, y, "Who had each squeue, overview", desc, "".join(out)), desc, ""


def overview_queue(shares, base, step):
    most, floor = max(shares.longest + [1]), base + CURVE
    scale = (CURVE - 8) / most
    d = "".join(f"V{num(floor - n * scale)}h{num(step)}" for n in shares.longest)
    polls = "".join(f"M{num(LEFT + k * step)} {base}h{num(step)}v{CURVE}h{num(-step)}z" for k, on in enumerate(shares.polled) if on)
    out = [f'<path class="polling" d="{polls}"/><path class="queue" d="M{LEFT} {floor}{d}V{floor}z"/><path class="axis" d="M{LEFT} {floor}h{BINS}"/>',
           text(LEFT - 12, floor - 2, "queued", "m s e"), text(LEFT - 12, base + 11, f"{most:,}", "m s e")]
    for k in range(5):
        out.append(text(LEFT + BINS * k / 4, floor + 14, f"{min(shares.count - 1, shares.count * k // 4):,}", "m s " + ("c" if 0 < k < 4 else "e" if k else "")))
    return "".join(out)


STYLE = """
.fig.stays{background:none}.fig .cover{fill:var(--paper)}.fig .lane{fill:var(--wash)}
.fig .own{fill:var(--ring)}.fig .own.thread{fill:var(--thread)}.fig .own.worker{fill:var(--worker)}
.fig path.own{fill:var(--ring)}.fig path.own.thread{fill:var(--thread)}.fig path.own.worker{fill:var(--worker)}
.fig .in{fill:var(--paper);font-size:9.5px;pointer-events:none}.fig .t{font-size:9.5px}.fig .point{fill:var(--room);opacity:.35}
.fig .take{stroke:var(--paper);stroke-width:1.6;stroke-dasharray:2 2}.sign .take{stroke:var(--muted)}
.fig path.fill{fill:var(--paper);stroke:var(--ring);stroke-width:1.6;stroke-linejoin:round}
.fig .ask{fill:var(--paper);stroke:var(--thread);stroke-width:1.8}
.fig path.grant{stroke:var(--ink);stroke-width:1.4;stroke-dasharray:3 2}.fig circle.grant{fill:var(--ink)}
.fig .close{stroke:var(--muted);stroke-width:1.4}
.fig path.queue{fill:var(--line);stroke:var(--muted);stroke-width:1}.fig path.polling{fill:var(--room);opacity:.22}
.fig path.waiting{stroke:var(--again);stroke-width:3}.fig .limit{stroke:var(--room);stroke-width:1;stroke-dasharray:4 3}
.fig .move{stroke:var(--move);stroke-width:1.8;opacity:.8}.fig .moveend{fill:var(--move)}
.fig .moved:hover .move{stroke-width:3.5;opacity:1}
"""
