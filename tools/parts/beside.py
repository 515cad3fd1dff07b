"""The page of sqdiff: what differs, by kind and by connection, and both servers' sequence diagrams beside each other. It has no script."""
from html import escape
from pathlib import Path

import drawing
import ladder
from capture import RST, SYN
from drawing import display_filter, figure, plural, seconds, text
from segments import SCALE, options
from served import rows
from standards import KINDS, VERDICTS
from told import allowed, of_sqrun

HERE = Path(__file__).resolve().parent
NOT_PROVED = ("Nothing on this page is proved: the proof speaks of sqrun's answers alone, and this tool judges the captured server by what the capture shows. "
              "A capture with gaps, or taken far from the server, can mislead it.")
WIDTH, LEFT, MIDDLE, RIGHT, ROW, HEAD = 1180, 110, 600, 1090, 31, 66
MOST, FIRST, LAST = 90, 60, 25
MOST_LISTED, MOST_OTHERS = 1_000, 200        # connections with tables
STATES = {"LISTEN": "closed", "": "unknown"}        # of the captured server
HEADS = '<tr><th>verdict<th>kind<th>captured<th>sqrun, or what is allowed<th class="n">times<th>frames<th>section'
STYLE = """
.fig .arrow.MUST,.fig .arrow.SHOULD{stroke:var(--again);stroke-width:2.2}.fig text.MUST,.fig text.SHOULD{fill:var(--again)}
"""
PAGE_STYLE = """
.verdict{white-space:nowrap}.MUST,.SHOULD{font-weight:600}.MUST{color:#b42318}.SHOULD{color:#a15c07}.choice,.service,.unjudged{color:inherit}
@media (prefers-color-scheme:dark){.MUST{color:#ff9b6a}.SHOULD{color:#e3b341}}
main{max-width:1180px;margin:0 auto}section{content-visibility:auto;contain-intrinsic-size:auto 900px}
td,th{vertical-align:top;text-align:left}td:nth-child(2),.short{white-space:nowrap}td.long{min-width:12em}td.section{min-width:9em;max-width:15em}td.rule{min-width:24em}@media (max-width:640px){td.long{min-width:26em}td.section{min-width:15em}td.rule{min-width:44em}}
"""


def captured_words(life):
    """By the captured server's segments what is written on their arrows."""
    answer = next((s for s in life.server if s.has(SYN)), None)
    base = answer.seq if answer is not None else life.iss
    syn = next((s for s in life.client if s.has(SYN)), None)
    held = options(answer) if answer is not None else {}
    shift = held[SCALE][0] if SCALE in held and syn is not None and syn.scale is not None else 0
    return {id(s): ladder.name(s, base, life.irs, shift) for s in life.server}


class Diagram:
    """The captured server on the left, the client in the middle, sqrun on the right."""

    def __init__(self, compared, told, verdicts):
        self.told, self.verdicts = told, verdicts
        self.captured = captured_words(compared.segments)
        self.out, self.y, self.previous, self.begun = [], HEAD, None, None

    def row(self, at, kind, s):
        if kind == "left out":
            self.out.append(text(MIDDLE, self.y + 4, f"… {s:,} rows left out …", "m s c"))
            self.y += ROW
            return
        self.time(at)
        if kind == "client":
            words, mark = self.told.get(id(s), ("", ""))
            self.arrow(MIDDLE, LEFT, words, f"segment {mark}")
            self.arrow(MIDDLE, RIGHT, words, f"segment {mark}")
        elif kind == "server":
            verdict = self.verdicts.get(s.record + 1, "")
            self.arrow(LEFT, MIDDLE, f"{self.captured[id(s)]}", f"reply {verdict}", s.record + 1)
        else:
            words, mark = self.told.get(id(s), ("", ""))
            self.arrow(RIGHT, MIDDLE, words, f"reply {'again' if s.has(RST) else mark}")
        self.y += ROW

    def time(self, at):
        self.begun = at if self.begun is None else self.begun
        if self.previous is not None and at - self.previous >= ladder.LONG:
            self.out.append(text(MIDDLE, self.y + 3, f"{seconds(at - self.previous)} later", "m s c"))
            self.y += 20
        if at != self.previous:
            self.out.append(text(LEFT - 12, self.y + 5, f"{(at - self.begun) / 1e6:.6f}", "m mono e"))
        self.previous = at

    def arrow(self, a, b, words, look, frame=None):
        sign = 1 if b > a else -1
        named = f"{words} · frame {frame}" if frame else words
        self.out.append(f'<path class="arrow {look}" d="M{a} {self.y}L{b} {self.y + 7}m{-9 * sign} -4.3l{9 * sign} 4.3l{-9 * sign} 4.1"/>'
                        + text((a + b) / 2, self.y - 2, named, f"mono c {look.split(' ')[-1]}"))


def events(compared, served_rows):
    """(time, who, segment) of one life in order: the captured server's segments by their frames, sqrun's behind what they answer."""
    life, out, last = compared.segments, [], 0
    mine, ours = {id(s) for s in life.client}, {id(s) for s in life.replies}
    for at, kind, thing in served_rows:
        if kind == "segment" and id(thing) in mine:
            last = thing.record
            out.append((at, last, 0, "client", thing))
        elif kind == "reply" and id(thing) in ours:
            out.append((at, last, 1, "sqrun", thing))
    out += [(s.at, s.record, 2, "server", s) for s in life.server]
    return [(at, who, s) for at, _, _, who, s in sorted(out, key=lambda e: e[:3])]


def diagram(compared):
    life = compared.segments
    verdicts = {frame: d.verdict for d in reversed(compared.differences) for frame in d.frames if d.verdict in ("MUST", "SHOULD")}
    drawn = Diagram(compared, ladder.told([life]), verdicts)
    listed = events(compared, rows(compared.conn, compared.served))
    if len(listed) > MOST:
        listed = listed[:FIRST] + [(None, "left out", len(listed) - FIRST - LAST)] + listed[-LAST:]
    for row in listed:
        drawn.row(*row)
    bottom = drawn.y + 6
    client, server = compared.conn.tuple.split(" ")
    frame = [text(LEFT, 20, "captured server", "b c"), text(LEFT, 35, server, "m mono c"), text(MIDDLE, 20, "client", "b c"), text(MIDDLE, 35, client, "m mono c"),
             text(RIGHT - 20, 20, f"sqrun, {compared.served.service}", "b c"), text(LEFT - 12, 52, "seconds", "m s e"),
             f'<path class="life" d="M{LEFT} 42V{bottom}M{MIDDLE} 42V{bottom}M{RIGHT} 42V{bottom}"/>',
             text(LEFT, bottom + 18, STATES.get(compared.state, compared.state), "b c"), text(RIGHT - 20, bottom + 18, compared.served.ended(), "b c")]
    desc = f"{plural(len(life.server), 'segment')} of the captured server on the left, {plural(len(life.replies), 'answer')} of sqrun on the right."
    return figure(f"c{compared.number}life{compared.life}", WIDTH, bottom + 30, f"Connection {compared.number}: both servers", desc, "".join(frame + drawn.out))


def alone(compared):
    """The diagram as a file of its own."""
    return drawing.as_file(diagram(compared), drawing.STYLE + ladder.STYLE + STYLE)


def difference_rows(one):
    out = []
    for d in sorted(one.differences, key=lambda d: VERDICTS.index(d.verdict)):
        kind = KINDS[d.kind]
        frames = ", ".join(map(str, d.frames)) + (" .." if d.count > len(d.frames) > 0 else "")
        out.append(f'<tr><td class="verdict {d.verdict}">{d.verdict}<td>{escape(d.kind)}<td class="long">{escape(d.captured + f"; unjudged, since {d.why}" * bool(d.why))}'
                   f'<td class="long">{escape(f"allowed: {allowed(d)}" if allowed(d) else of_sqrun(one, d))}<td class="n">{d.count:,}<td>{frames}<td class="section">{escape(kind.section)}')
    return "".join(out)


def one(compared, drawn):
    conn, life = compared.conn, f", life {compared.life + 1}" if compared.life else ""
    client, server = conn.tuple.split(" ")
    where = escape(display_filter(conn.tuple))
    parts = f'<p>Parts from the reference at frame {compared.parted.segment.record + 1}; {compared.parted.left} % not compared.</p>' if compared.parted else ""
    table = f'{parts}<div class="rows"><table>{HEADS}{difference_rows(compared)}</table></div>'
    return (f'<section id="conn{compared.number}life{compared.life}"><h2>Connection {compared.number}{life}: {escape(conn.tuple.replace(" ", " → "))}</h2>'
            f'<p class="quiet">Display filter: <code>{where}</code></p>{table}'
            + (f'<div class="fit">{diagram(compared)}</div>' if drawn else "") + "</section>")


def page(title, outcome, compared, others, summary, drawn, notes):
    """The whole page; `drawn` are the places in `compared` whose diagrams are shown, `others` what was judged by the segments alone.

    Connections without a difference are counted in the outcome alone.
    """
    head = ("<!DOCTYPE html>\n<html lang=\"en\"><head><meta charset=\"utf-8\">"
            "<meta http-equiv=\"Content-Security-Policy\" content=\"default-src 'none'; style-src 'unsafe-inline'\">"
            "<meta name=\"viewport\" content=\"width=device-width\">"
            f"<title>{escape(title)}</title><style>{(HERE / 'page.css').read_text()}{drawing.NAMED}{drawing.STYLE}{ladder.STYLE}{STYLE}{PAGE_STYLE}</style></head><body>")
    shown = [n for n, c in enumerate(compared) if n in drawn or any(map(is_its_own, c.differences))][:MOST_LISTED]
    there = {f"conn{compared[n].number}life{compared[n].life}" for n in shown} | {place(one) for one in others[:MOST_OTHERS]}
    lines = "".join(f'<tr><td class="verdict {s.verdict}">{s.verdict}<td>{escape(s.kind.name)}<td class="n">{s.connections:,}<td class="n">{s.times:,}'
                    f'<td class="short">{links_of(s.first, there)}<td class="section">{escape(s.kind.section)}<td class="rule">{escape(s.kind.rule)}' for s in summary)
    out = [head, f"<main><h1>{escape(title)}</h1>", f'<p>{escape("; ".join([outcome, *notes]))}.</p>', f'<p class="quiet">{NOT_PROVED}</p>']
    if summary:
        out.append('<div class="rows"><table><tr><th>verdict<th>kind<th class="n">connections<th class="n">times<th>first in<th>section<th>what it says'
                   f'{lines}</table></div>')
    out += [f'<p class="quiet">{words}</p>' for words in left_out(compared, shown, drawn)]
    out += [one(compared[n], n in drawn) for n in shown]
    out += [by_segments(one) for one in others[:MOST_OTHERS]]
    if len(others) > MOST_OTHERS:
        out.append(f'<p class="quiet">{len(others) - MOST_OTHERS:,} more were judged by their segments alone.</p>')
    return "".join(out) + "</main></body></html>\n"


def is_its_own(difference):
    """Whether it says something of this connection: neither what the standards leave free, nor what is so of a whole host."""
    return difference.verdict != "choice" and difference.kind != "checksums of the card"


def left_out(compared, shown, drawn):
    """What isn't on the page, in words."""
    listed, rest = len(shown) - len(drawn), sum(bool(c.differences) for c in compared) - len(shown)
    if listed > 0:
        yield f"Drawn are the {len(drawn):,} that differ most; {listed:,} are listed without a diagram. --conn names others."
    if rest > 0:
        yield f"{rest:,} more aren't listed: they differ in what the standards leave free, or come behind {MOST_LISTED:,} others."


def place(one):
    """Where a page has what is told of one side of a life."""
    return f"conn{one.number}life{one.life}" if not one.alone else f"{one.side}{one.ends}life{one.life}".replace(" ", "-")


def by_segments(one):
    """One side of a connection, by the rules that need no reference."""
    return (f'<section id="{escape(place(one))}"><h2>{escape(one.name())}</h2><p class="quiet">Judged by the segments alone.</p>'
            f'<div class="rows"><table>{HEADS}{difference_rows(one)}</table></div></section>')


def links_of(first, there):
    """The first lives that have a kind, with links to those that are on the page."""
    named = [(place(one), str(one.number) if one.number is not None else one.ends.split(" ")[one.side == "server"]) for one, _ in first]
    return ", ".join(f'<a href="#{escape(to)}">{escape(name)}</a>' if to in there else escape(name) for to, name in named)
