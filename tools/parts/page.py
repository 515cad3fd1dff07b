"""The page: one HTML file with everything in it, which asks for nothing from the net."""
import base64
import hashlib
import json
from datetime import datetime, timezone
from html import escape
from pathlib import Path

import drawing
import ladder
import squeues
import timeseq
from drawing import display_filter, plural
from served import PLACED

HERE = Path(__file__).resolve().parent
STYLE = drawing.STYLE + timeseq.PLOT_STYLE + ladder.STYLE + squeues.STYLE
LADDER_MOST = 400       # segments and replies
LADDER_OPEN = 60
TABLE_MOST = 500
TABLES_MOST = 60        # connections drawn, each with a table of its segments
PLAIN_MOST = 1_000      # rows of the table without the script
SCRIPTS = ("gestures.js", "page.js", "timeline.js", "table.js")
HINT = "In a graph drag to zoom, with Shift to pan; Ctrl and wheel zoom too. Arrow keys walk the segments, w a s d zoom and pan, Escape for all."
HINT_COARSE = "In a graph drag to zoom, or use two fingers; a tap names the segment below it."
TIMELINE_HINT = ("Drag, or Shift and wheel, to pan; Ctrl and wheel, two fingers, or double click to zoom; the strip above shows where you are. "
                 "Click or use the arrow keys to choose a bar, w a s d to zoom and pan, / to find a connection, n and p for its next and previous bar, Escape for all.")
TIMELINE_COARSE = "Drag to pan, two fingers zoom; the strip above shows where you are. A tap says what a bar is."
SHARES = "Where too many marks are in view, a bar's height is the share of the width in which a pass had the squeue; full height is all of it."
NO_CLOCK = "Marks stand in the order of their squeue; between squeues what happened before stands to the left. There is no clock."
NOT_PROVED = "Drawn by sqplot from what the report says. Nothing on this page is proved"
NOTHING = ("Nothing of it is served: sqrun takes what goes to the TCP ports 7 and 9 over IPv4. <code>tools/sq FILE</code> lists all TCP connections of a capture, and "
           "<code>tools/sqdiff FILE</code> judges them by their segments.")
NOT_JUDGED = ", and whether the marks may stand so isn't judged here"
COUNTED = (("server", "from the server"), ("other", "other"), ("fragment", "fragments"), ("cut", "cut"), ("malformed", "malformed"),
           ("badsum", "with a wrong checksum"), ("nofit", "beyond 4,096 connections"))


def replies(n):
    return f"{n:,} {'reply' if n == 1 else 'replies'}"


def data(listed, ident=""):
    """Numbers and words for the script; nothing in them ends the element."""
    text = json.dumps(listed, separators=(",", ":"), ensure_ascii=False).replace("<", "\\u003c")
    named = f' id="{ident}-data"' if ident else ""
    return f'<script type="application/json"{named}>{text}</script>'


def flag_text(s):
    return "".join(c for c, bit in zip("SFRPA", (2, 1, 4, 8, 16)) if s.flags & bit)


def clock(us, date=True):
    """A time since 1970 for people, in UTC."""
    try:
        moment = datetime.fromtimestamp(us // 1_000_000, timezone.utc)
    except (OverflowError, OSError, ValueError):
        return f"{us} µs"
    return moment.strftime("%Y-%m-%d %H:%M:%S" if date else "%H:%M:%S") + f".{us % 1_000_000:06}" + " UTC" * date


def listing(life, begun, whole):
    """The same in words: a table for those who can't see the graph."""
    rows = sorted([(s.at, 0, "client", s, timeseq.near(s.seq, life.irs)) for s in life.client]
                  + [(s.at, 1, "sqrun", s, timeseq.near(s.seq, life.iss)) for s in life.replies], key=lambda r: r[:2])
    frame = lambda s: f"{whole.frame(s.record)[1]}" if s.record >= 0 else ""
    cells = "".join(f'<tr><td class="n">{frame(s)}<td class="n">{(t - begun) / 1e6:.6f}<td>{who}<td>{flag_text(s)}<td class="n">{n}<td class="n">{s.length}'
                    f'<td class="n">{s.window}' for t, _, who, s, n in rows[:TABLE_MOST])
    more = f"<p class=quiet>The first {TABLE_MOST} of {len(rows):,}.</p>" if len(rows) > TABLE_MOST else ""
    return (f'<details><summary>All {len(rows):,} segments as a table</summary><div class="rows"><table><tr><th class="n">frame<th class="n">seconds<th>from<th>flags'
            f'<th class="n">seq<th class="n">bytes<th class="n">window{cells}</table></div>{more}</details>')


def begin_of(conn, served):
    return min((s.at for s in [*conn.client[:1], *served.replies[:1]]), default=0)


def about(c, conn, served, whole, lives, reasons, marked):
    """The lines below a connection's name."""
    out = [f'<p class="quiet">{plural(len(conn.client), "segment")} from the client, {replies(len(served.replies))}; at the end: {served.ended()}.'
           + (f" Its address pair was used {len(lives)} times." if len(lives) > 1 else "") + (f" See: {', '.join(reasons)}." if reasons else "") + "</p>"]
    begins = f"Begins {clock(begin_of(conn, served))}"
    if conn.client:
        name, frame = whole.frame(conn.client[0].record)
        begins += f", frame {frame:,}" + (f" of {escape(name.name)}" if len(whole.files) > 1 else "")
    links = ['<a href="#connections">table</a>'] + [f'<a href="#squeues" data-follow="{c}">in the squeues</a>'] * marked
    out.append(f'<p class="quiet">{begins}. <code>{escape(display_filter(conn.tuple))}</code> <button type="button" data-copy>copy</button> {" · ".join(links)}</p>')
    return "".join(out)


def figures(c, conn, served, report, whole, lives, few):
    """Both directions of each life, the same as a table, and the ladder where it is small."""
    out = []
    for n, life in enumerate(lives):
        if len(lives) > 1:
            out.append(f"<h3>Life {n + 1} of {len(lives)}</h3>")
        for way in timeseq.directions(life):
            ident = f"c{c}" + (f"life{n}" if n else "") + way.name
            panel = timeseq.Panel(ident, life, way, whole.frame)
            out.append(f'<div class="fit">{panel.draw()}</div><p class="read" id="{ident}-read" aria-live="polite"></p>'
                       + data(panel.told(), ident))
        if few:
            out.append(listing(life, panel.begun, whole))
    size = len(conn.client) + len(served.replies)
    if size <= LADDER_MOST:
        out.append(f'<details{" open" if size <= LADDER_OPEN else ""}><summary>Who sent what, in order</summary><p class="quiet">{PLACED}</p>'
                   f'<div class="fit">{ladder.draw(f"c{c}ladder", c, conn, served, lives, report.calls)}</div></details>')
    return "".join(out)


def connection(c, report, whole, reasons, few):
    """One connection. Its figures are made by the script when they are near; without the script they are there at once."""
    conn, served = whole.conns[c], report.conns[c]
    lives = timeseq.lives(conn, served)
    return (f'<section class="conn" id="conn{c}"><h2>Connection {c}: {escape(conn.tuple.replace(" ", " → "))}, {escape(served.service)}</h2>'
            + about(c, conn, served, whole, lives, reasons, bool(report.squeues))
            + f'<noscript>{figures(c, conn, served, report, whole, lives, few)}</noscript></section>')


SHORT = ("client", "server", "service", "begins", "end")     # columns of words that stay on one line
COLUMNS = (("#", 1), ("client", 0), ("server", 0), ("service", 0), ("begins", 0), ("ms", 1), ("segments", 1), ("client's bytes", 1), ("captured server's", 1),
           ("replies", 1), ("sqrun's bytes", 1), ("again", 1), ("end", 0), ("see", 0))


def row(c, conn, served, interest):
    a, b = conn.tuple.split(" ")
    times = [s.at for s in conn.client] + [s.at for s in served.replies]
    return [c, a, b, served.service, clock(min(times, default=0), date=False), (max(times, default=0) - min(times, default=0)) / 1000, len(conn.client),
            texts(conn.client), texts(conn.server), len(served.replies), texts(served.replies), interest.again, served.ended(), "; ".join(interest.reasons)]


def texts(segments):
    return sum(s.length for s in segments)


def number(value):
    """A whole number, or one with up to three places, as the script writes it."""
    return f"{value:,}" if isinstance(value, int) else f"{value:,.3f}".rstrip("0").rstrip(".")


def table(whole, report, drawn, interests):
    """All connections, those with something special first: for the script, and plain rows without it."""
    order = sorted(range(len(report.conns)), key=lambda c: interests[c].rank())
    rows, has = [row(c, whole.conns[c], report.conns[c], interests[c]) for c in order], set(drawn)
    head = "".join(f'<th{" class=n" * numeric}>{name}' for name, numeric in COLUMNS)
    buttons = "".join(f'<th{" class=n" * numeric}><button type="button">{name}</button>' for name, numeric in COLUMNS)
    plain = "".join("<tr>" + "".join(f'<td{" class=n" * numeric}{" class=short" * (name in SHORT)}>' + (f'<a href="#conn{value}">{value}</a>' if name == "#" and value in has else escape(
        number(value) if numeric and name != "#" else str(value))) for (name, numeric), value in zip(COLUMNS, one)) for one in rows[:PLAIN_MOST])
    return ('<div class="list" hidden><form role="search"><label>Filter <input type="search" placeholder="address, state, again .."></label>'
            '<span class="count quiet" aria-live="polite"></span><span class="quiet">Click a column\'s name to sort.</span></form>'
            f'<div class="rows"><table><thead><tr>{buttons}</thead><tbody></tbody></table></div><button type="button" class="more">more</button>'
            + data({"columns": [(name, numeric, name in SHORT) for name, numeric in COLUMNS], "rows": rows, "drawn": sorted(has)}) + f'</div><noscript><div class="rows"><table><tr>{head}{plain}</table></div></noscript>')


def head(title, script):
    """The page may run this script alone, and load nothing."""
    digest = base64.b64encode(hashlib.sha256(script.encode()).digest()).decode()
    return ("<!DOCTYPE html>\n<html lang=\"en\"><head><meta charset=\"utf-8\">"
            f"<meta http-equiv=\"Content-Security-Policy\" content=\"default-src 'none'; style-src 'unsafe-inline'; script-src 'sha256-{digest}'\">"
            "<meta name=\"viewport\" content=\"width=device-width\">"
            f"<title>{escape(title)}</title><style>{(HERE / 'page.css').read_text()}{drawing.NAMED}{STYLE}</style></head><body>")


def timeline(report, whole, drawn, chosen, marks):
    """The squeues: the script's figure, and a plain one where there is no script."""
    followed = squeues.Followed(report, whole.conns)
    svg, desc, names = squeues.draw(report, followed, chosen, marks)
    plain, desc = desc, desc.removesuffix(squeues.OVERVIEW).strip()
    told = squeues.told(report, whole.conns, followed, chosen, marks, drawn)
    return (f'<div class="page"><h2 id="squeues">Squeues</h2><p class="quiet">{escape(desc)} {NO_CLOCK} <span class="many">{SHARES}</span></p></div>'
            '<div class="timeline fig" hidden><form role="search"><label>Connection <input type="search" size="22" placeholder="number or address"></label>'
            '<button>find</button><button type="button" data-do="before">‹ previous</button><button type="button" data-do="after">next ›</button>'
            '<span class="grow"></span><button type="button" data-do="out" aria-label="zoom out">−</button><button type="button" data-do="in" '
            'aria-label="zoom in">+</button><button type="button" data-do="all">all</button></form>'
            f'<div class="key">{squeues.legend()}</div><canvas class="strip" height="44" aria-hidden="true"></canvas>'
            f'<div class="scroll"><div class="tall"><canvas class="lanes" tabindex="0" role="img" aria-label="Timeline of the squeues. {escape(desc)}"></canvas></div></div>'
            f'<p class="read" aria-live="polite" data-hint="{TIMELINE_HINT}" data-coarse="{TIMELINE_COARSE}"></p>{data(told)}</div>'
            f'<noscript><p class="page quiet">{escape(plain)}</p><div class="wide" tabindex="0" role="region" aria-label="Timeline of the squeues">{names}{svg}</div></noscript>')


def page(title, report, whole, drawn, chosen_squeues, marks, left_out, interests):
    counts, script = report.counts, '"use strict";\n' + "".join((HERE / name).read_text() for name in SCRIPTS)
    beside = "".join(f", {counts[kind]:,} {words}" for kind, words in COUNTED if counts[kind])
    begins = min((begin_of(*pair) for pair in zip(whole.conns, report.conns)), default=None)
    out = [head(title, script), f'<div class="page"><h1>{escape(title)}</h1>',
           f'<p class="quiet">{plural(counts["records"], "record")}, {counts["served"]:,} served in {plural(counts["connections"], "connection")}{beside}.'
           + (f" The first begins {clock(begins)}." if begins is not None else "") + "</p>", f'<p class="quiet">{NOT_PROVED}{NOT_JUDGED if report.squeues else ""}.</p>']
    if whole.conns and report.squeues:
        out.append('<p><a href="#connections">Connections</a> · <a href="#squeues">Squeues</a></p>')
    if whole.conns:
        out.append(f'<h2 id="connections">Connections</h2>{table(whole, report, drawn, interests)}'
                   + f'<p class="quiet help"><span class="fine">{HINT}</span><span class="coarse">{HINT_COARSE}</span></p>' * bool(drawn))
    if not whole.conns:
        out.append(f"<p>{NOTHING}</p>")
    if left_out:
        out.append(f"<p>{left_out}</p>")
    out.append("</div>")
    if report.squeues:
        out.append(timeline(report, whole, drawn, chosen_squeues, marks))
    for c in drawn:
        out.append(connection(c, report, whole, interests[c].reasons, len(drawn) <= TABLES_MOST))
    return "".join(out) + f"<script>{script}</script></body></html>\n"
