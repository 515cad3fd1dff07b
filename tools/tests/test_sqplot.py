"""sqplot: each mark and each segment is drawn once and in its place; the page is whole, quiet and alone (in headless Chromium)."""
import json
import os
import random
import re
import tempfile
import unittest
from pathlib import Path
from xml.etree import ElementTree

from common import MODEL, SQRUN, TOOLS, TOP, captures, kept_traces, need, output, simulated, sqrun
import capture
import drawing
import perimeter
import report as reports
import timeseq
from browser import COMMAND, CONTROL, SHIFT, Browser
from generated import records, write
from traces import long_trace

SVG = "{http://www.w3.org/2000/svg}"
EXAMPLE = TOP / "examples" / "echo_short.pcap"
SLOWER = 2.3            # times that a slow or busy machine needs, beside a quiet one of today (docs/GATE.md)


def plot(text, *words, status=0):
    return output([TOOLS / "sqplot", *words], text.encode(), status).decode()


def setups(count=30):
    """Random words for runs with marks."""
    rnd = random.Random(5)
    for seed in range(count):
        calls = [f"{rnd.randrange(4)}:0:{rnd.choice(('status', 'close', 'buffer=50'))}" for _ in range(rnd.randrange(4))]
        yield captures()[seed % len(captures())], [seed, "--squeues", rnd.randint(1, 5), "--rings", rnd.randint(1, 4), "--mode", rnd.choice(
            ("process", "nodrain", "fill")), "--budget", rnd.randint(1, 9), "--spread", rnd.choice((0, 1, 3, 7)), *calls]


def traces():
    """(text, capture) of the kept reports with marks, of real runs, and of the independent model's where it is there."""
    yield from kept_traces()
    for path, (seed, *words) in setups():
        if os.access(SQRUN, os.X_OK):
            yield sqrun(path, "--trace", *words).decode(), path
        if MODEL:
            yield simulated(path, seed, *words).decode(), path


def mark_lines(text):
    return text[text.index("\nsetup"):].split("\n")


def drawn(svg, tag, name):
    """How many elements of this class are drawn, the key's aside."""
    keys = {id(e) for sign in svg.iter(SVG + "g") if sign.get("class") == "sign" for e in sign.iter()}
    return sum(name in e.get("class", "").split() and id(e) not in keys for e in svg.iter(SVG + tag))


class Marks(unittest.TestCase):
    def test_all_feeds_on_bars_and_columns_rise(self):
        for text, path in traces():
            with self.subTest(setup=mark_lines(text)[1]):
                report = reports.read(text, "report")
                conns = capture.read(path).conns
                stories = [perimeter.follow(marks) for marks in report.squeues]
                self.assertTrue(all(story.stuck < 0 and not any(story.chain[-1:]) for story in stories))
                fed = sorted(feed for story in stories for stretch in story.stretches for feed in stretch.feeds)
                self.assertEqual(fed, [(c, n) for c, conn in enumerate(conns) for n in range(len(conn.items))])
                column, moves, dropped = perimeter.columns(report, conns)
                self.assertEqual(dropped, 0)
                for q, marks in enumerate(report.squeues):
                    self.assertEqual(len(column[q]), len(marks))
                    self.assertTrue(all(a < b for a, b in zip(column[q], column[q][1:])))
                for _, away, back in moves:
                    self.assertLess(column[away.q][away.last], column[back.q][back.first])
                self.assertEqual(len(moves), sum(" out " in line for line in mark_lines(text)))
                # Without the capture less is known of what one thread did in turn, and never something wrong.
                self.assertEqual(perimeter.columns(report, reports.without_capture(report))[2], 0)

    def test_a_move_stands_before_the_feed_that_asks_for_it(self):
        """With spread s, connection c is moved the m-th time after feed m * s - 1, and before feed m * s."""
        for text, path in traces():
            report = reports.read(text, "report")
            conns, spread = capture.read(path).conns, report.setup["spread"]
            column, moves, _ = perimeter.columns(report, conns)
            entered = {feed: column[q][i] for q, marks in enumerate(report.squeues) for i, m in enumerate(marks)
                       if m.kind in ("fill", "fast", "claim") for feed in m.entries if feed[0] != "ask"}
            seen = {}
            for c, away, back in sorted(moves, key=lambda move: column[move[1].q][move[1].first]):
                m = seen[c] = seen.get(c, 0) + 1
                self.assertGreater(column[away.q][away.first], entered[c, m * spread - 1])
                self.assertLess(column[back.q][back.last], entered[c, m * spread])

    def test_one_sign_for_each_mark(self):
        for text, path in traces():
            with self.subTest(setup=mark_lines(text)[1]):
                svg = ElementTree.fromstring(plot(text, "--capture", path, "--figure", "squeues"))
                if "overview" in svg.find(SVG + "title").text:
                    continue
                starts = lambda *kinds: sum(line.split(" ")[0] in kinds for line in mark_lines(text))
                self.assertEqual(drawn(svg, "rect", "own"), starts("fast", "claim", "work", "accept"))
                self.assertEqual(drawn(svg, "path", "fill"), starts("fill"))
                self.assertEqual(drawn(svg, "circle", "ask"), starts("ask"))
                self.assertEqual(drawn(svg, "path", "take"), starts("take"))
                self.assertEqual(drawn(svg, "path", "grant"), starts("grant"))
                self.assertEqual(drawn(svg, "path", "move"), sum(" out " in line for line in mark_lines(text)))

    def test_marks_that_do_not_follow_are_told(self):
        for text, path in kept_traces():
            broken = re.sub(r"\nleave (\d+) 0 none", lambda found: f"\ntake {(int(found[1]) + 1) % 5}", text, count=1)
            self.assertNotEqual(broken, text)
            self.assertRegex(plot(broken, "--capture", path), r"mark \d+ doesn&#x27;t follow")

    def test_chosen_squeues_and_marks(self):
        text, path = kept_traces()[1]
        whole, part, one = (plot(text, "--capture", path, "--figure", "squeues", *words) for words in ((), ("--marks", "0:4-12"), ("--squeue", "1")))
        self.assertIn("beside the marks 4 to 12 of squeue 0", part)
        self.assertLess(part.count('class="own'), whole.count('class="own'))
        self.assertNotIn(">squeue 0<", one)
        self.assertIn('class="point"', plot(text, "--capture", path, "--figure", "squeues", "--marks", "0:5"))

    def test_many_marks_are_an_overview(self):
        text, path = kept_traces()[1]
        rounds = "".join(f"fast 0 0.{n}\nleave 0 0 none\n" for n in range(4_000))
        long = re.sub(r"squeue 0 marks \d+\n", f"squeue 0 marks 8000\n{rounds}", text.partition("squeue 1")[0].partition("squeue 0")[0]
                      + "squeue 0 marks 1\nsqueue 1 marks 0\nsqueue 2 marks 0\ndone\n")
        svg = plot(long, "--figure", "squeues")
        self.assertIn("overview", svg)
        self.assertIn("8,000 marks, 4,000 feeds processed", svg)


class Graphs(unittest.TestCase):
    def reported(self):
        for path in captures():
            text = sqrun(path).decode()
            yield path, text, reports.read(text, "report"), capture.read(path).conns

    def test_numbers_of_the_report(self):
        for path, text, report, _ in self.reported():
            out = plot(text, "--capture", path)
            self.assertEqual(len(re.findall(r'<section class="conn" id="conn', out)), len(report.conns))
            told = re.findall(r'id="c\d+(?:life\d+)?down-data">(.*?)</script>', out)
            self.assertEqual(sum(len(json.loads(d)["t"]) for d in told), text.count("\nreply "))
            self.assertEqual(sum(sum(json.loads(d)["n"]) for d in told), sum(r.length for c in report.conns for r in c.replies))

    def test_one_bar_for_each_segment(self):
        for path, text, report, conns in self.reported():
            out = plot(text, "--capture", path)
            for c, (conn, said) in enumerate(zip(conns, report.conns)):
                self.assertEqual(len(timeseq.lives(conn, said)), 1)
                for side, segments in (("up", conn.client), ("down", said.replies)):
                    svg = out[out.index(f'id="c{c}{side}"'):]
                    plotted = svg[svg.index('class="plot"'):svg.index("</svg>")]
                    bars = sum(d.count("M") for d in re.findall(r'class="seg \w+" d="([^"]*)"', plotted))
                    self.assertEqual(bars, sum(bool(s.span() or s.has(capture.RST)) for s in segments))

    def test_every_figure_is_xml_with_words(self):
        for path, text, _, _ in self.reported():
            for figure in ("up", "down", "ladder"):
                svg = ElementTree.fromstring(plot(text, "--capture", path, "--figure", figure))
                self.assertEqual(svg.get("role"), "img")
                self.assertTrue(svg.find(SVG + "title").text and svg.find(SVG + "desc").text)

    def test_files_are_drawn_by_others(self):
        """librsvg knows neither names of colours nor strokes that aren't scaled: a file has each colour written out, by day and by night, and its plot in pixels."""
        text = sqrun(EXAMPLE, "--trace").decode()
        for figure in ("squeues", "up", "down", "ladder"):
            said = plot(text, "--capture", EXAMPLE, "--figure", figure)
            self.assertNotIn("var(", said)
            self.assertNotIn("scale(", said)
            self.assertEqual(said.count("{"), said.count("}"))
            self.assertIn("stroke:#c2410c", said)
            self.assertIn("stroke:#ff9b6a", said[said.index("prefers-color-scheme:dark"):])
        page, alone = plot(text, "--capture", EXAMPLE), plot(text, "--capture", EXAMPLE, "--conn", 0, "--figure", "down")
        numbers = lambda said: [[float(n) for n in re.findall(r"[\d.]+", d)] for d in re.findall(r'class="seg new" d="([^"]*)"', said)]
        here, there = numbers(page[page.index('id="c0down"'):])[1], numbers(alone)[1]            # the first one is the key's
        wide, high = timeseq.PLOT_WIDTH / timeseq.UNITS, timeseq.PLOT_HEIGHT / timeseq.UNITS
        for n, (a, b) in enumerate(zip(here, there, strict=True)):
            self.assertAlmostEqual(a * (wide if n % 3 == 0 else high), b, places=1)

    def test_ladder_has_each_segment_and_reply(self):
        text = sqrun(EXAMPLE).decode()
        report = reports.read(text, "report")
        for c, said in enumerate(report.conns):
            svg = ElementTree.fromstring(plot(text, "--capture", EXAMPLE, "--figure", "ladder", "--conn", c))
            self.assertEqual(drawn(svg, "path", "reply"), len(said.replies))
            self.assertEqual(drawn(svg, "path", "segment"), len(capture.read(EXAMPLE).conns[c].client))

    def test_picture_in_the_docs(self):
        """It is drawn from a run of sqrun on the repository's capture."""
        drawn_now = plot(sqrun(EXAMPLE).decode(), "--capture", EXAMPLE, "--conn", 1, "--figure", "ladder")
        self.assertEqual((TOP / "docs" / "pictures" / "echo.svg").read_text(), drawn_now)

    def test_kinds_of_segments(self):
        def seg(seq, length, flags=16):
            return capture.Segment(0, seq % 2 ** 32, 0, flags, 0, length)
        base = 2 ** 32 - 5
        sent = [seg(base, 0, 2), seg(base + 1, 10), seg(base + 1, 10), seg(base + 21, 10), seg(base + 11, 10), seg(base + 6, 30),
                seg(base + 1, 0), seg(base + 36, 0, 17), seg(base + 36, 0, 17)]
        self.assertEqual(timeseq.kinds(sent, base), ["", "", "again", "", "late", "", "", "", "again"])

    def test_an_address_pair_used_twice_is_drawn_apart(self):
        syn, answer = (lambda at, seq: capture.Segment(at, seq, 0, 2, 0, 0)), (lambda at, ack, seq: capture.Segment(at, seq, ack, 18, 0, 0))
        conn = capture.Connection("a b", "echo", [syn(1, 100), syn(9, 700)])
        lives = timeseq.lives(conn, reports.Served("a b", "echo", [], [answer(1, 101, 5), answer(9, 701, 50)]))
        self.assertEqual([(life.irs, life.iss, len(life.client)) for life in lives], [(100, 5, 1), (700, 50, 1)])

    def test_refusals(self):
        text, other = sqrun(EXAMPLE).decode(), Path(tempfile.gettempdir()) / "none.pcap"
        wrong = re.sub(r"conn 0 \S+", "conn 0 1.2.3.4:5", text)
        for broken, words, line in (
                (text[:-5], (), "isn't whole"), ("", (), "line 1 isn't"), (text.replace("\nend ", "\nfin ", 1), (), "line 8 isn't a report's"),
                (re.sub(r"\nconn 1 .*(\n.+)*?\nend .*", "", text, count=1), (), "isn't a report's, or not there: 'conn 2"),
                (text.replace("report 1", "report 2"), (), "lines are missing before `done`"), (text + "done\n", (), "isn't a report's"),
                (text, ("--conn", "40"), "--conn 40: there are 4"), (text, ("--conn", "x"), "not numbers like 0,3-5"),
                (text, ("--conn", "3-1"), "3-1 begins behind its end"), (text, ("--conn", "٣"), "not numbers like 0,3-5"),
                (text, ("--figure", "squeues"), "has no marks: run sqrun with --trace"), (text, ("--marks", "0:1"), "there are no such marks"),
                (text, ("--capture", other), "No such file"), (wrong, ("--capture", EXAMPLE), "connection 0 is 1.2.3.4:5"),
                (text.replace("records 46", "records 47"), ("--capture", EXAMPLE), "is of 47 records, and"), ("report é", (), "plain ASCII")):
            with self.subTest(line):
                said = plot(broken, *words, status=1)
                self.assertIn(line, said)
                self.assertEqual(said.count("\n"), 1)

    def test_each_word_of_a_report_changed(self):
        """A word that isn't a number can't be another one; what is drawn from the others is never a traceback."""
        for text in [sqrun(EXAMPLE).decode()] + [text for text, _ in kept_traces()]:
            words, rnd = re.split(r"(\s)", text), random.Random(3)
            for i in rnd.sample([i for i, word in enumerate(words) if word.strip()], 60):
                changed = "".join(words[:i] + ["x"] + words[i + 1:])
                with self.assertRaises(reports.Refused):
                    reports.read(changed, "report")

    def test_without_capture(self):
        self.assertIn("replies", plot(sqrun(EXAMPLE).decode()))
        for text, _ in kept_traces():
            self.assertIn("Who had each squeue", plot(text))

    def test_pcapng_gives_the_same(self):
        need("editcap")
        with tempfile.TemporaryDirectory() as folder:
            for path, text, _, _ in self.reported():
                other = Path(folder) / path.name
                output(["editcap", "-F", "pcapng", path, other])
                self.assertEqual(plot(text, "--capture", other), plot(text, "--capture", path))

    def test_contrast(self):
        """Words and lines stand out from the paper (WCAG 2.2: 4.5 for words, 3 for lines that mean something)."""
        def light(colour):
            digits = colour if len(colour) == 6 else "".join(2 * c for c in colour)
            parts = [int(digits[i:i + 2], 16) / 255 for i in (0, 2, 4)]
            return sum(w * (c / 12.92 if c <= .04045 else ((c + .055) / 1.055) ** 2.4) for w, c in zip((.2126, .7152, .0722), parts))
        shown = float(re.search(r"\.fig \.real\{[^}]*opacity:([.\d]+)", timeseq.PLOT_STYLE)[1])
        for theme in (0, 1):
            colours = {name: pair[theme][1:] for name, pair in drawing.COLOURS.items()}
            paper, real = ([int(colours[name] * (1 if len(colours[name]) == 6 else 2), 16) for name in ("paper", "real")])
            mixed = lambda shift: round(shown * (real >> shift & 255) + (1 - shown) * (paper >> shift & 255))
            colours["real"] = f"{mixed(16):02x}{mixed(8):02x}{mixed(0):02x}"        # as it lies on the paper
            for name, least in (("ink", 4.5), ("muted", 4.5), ("again", 4.5), ("thread", 4.5), ("data", 3), ("ackd", 3), ("room", 3), ("real", 3), ("ring", 4.5),
                                ("worker", 4.5), ("move", 3)):
                a, b = sorted((light(colours[name]), light(colours["paper"])))
                self.assertGreaterEqual((b + .05) / (a + .05), least, name)


class InBrowser(unittest.TestCase):
    @classmethod
    def setUpClass(cls):
        need(COMMAND)
        cls.folder = tempfile.TemporaryDirectory()
        cls.browser = Browser()

    @classmethod
    def tearDownClass(cls):
        cls.browser.close()
        cls.folder.cleanup()

    def show(self, text, path, *words, scripts=True):
        page = Path(self.folder.name) / "page.html"
        page.write_text(plot(text, *(["--capture", path] if path else []), *words))
        self.browser.scripts(scripts)
        self.browser.open(page)
        if scripts:
            self.browser.settle()
        return self.browser

    def quiet(self, b):
        self.assertEqual(b.complaints(), [])
        self.assertFalse(b.js("document.documentElement.scrollWidth > innerWidth"))
        self.assertTrue(b.js("(i => i.length === new Set(i).size)([...document.querySelectorAll('[id]')].map(e => e.id))"))

    def place(self, selector, x, y):
        """A point of an element: a share of its width, and so many dots below its top."""
        left, top, width = self.browser.js(f"(()=>{{const r=document.querySelector({selector!r}).getBoundingClientRect();return [r.x,r.y,r.width]}})()")
        return left + x * width, top + y


class Page(InBrowser):
    """The page as a whole, and the figures of connections."""

    def test_quiet_and_alone(self):
        for path in captures():
            b = self.show(sqrun(path).decode(), path)
            b.js("document.querySelectorAll('section.conn').forEach(fill)")
            self.quiet(b)
        for text, path in kept_traces():
            self.quiet(self.show(text, path))

    def test_no_net_and_no_other_script(self):
        b = self.show(*kept_traces()[0])
        b.js("document.body.append(Object.assign(document.createElement('script'), {textContent: 'window.ran = 1'}))")
        b.js("document.body.append(Object.assign(new Image(), {src: 'http://127.0.0.1:9/x'}))")
        self.assertNotEqual(b.js("window.ran"), 1)
        self.assertIn("Content Security Policy", str(b.complaints()))

    def test_without_the_script_all_is_there(self):
        text, path = kept_traces()[1]
        b = self.show(text, path, scripts=False)
        tree = b.call("DOM.getDocument", depth=-1, pierce=True)

        def count(node, name):
            return (node["nodeName"].lower() == name) + sum(count(child, name) for child in node.get("children", []))
        self.assertEqual(count(tree["root"], "svg"), 11 + 2 + 4 * 5)      # the signs of the key; names and figure; of four connections two graphs with plots, and a ladder
        b.scripts(True)

    def test_zoom_and_keys(self):
        b = self.show(sqrun(EXAMPLE).decode(), EXAMPLE)
        b.js("location.hash = '#conn2'; fill(document.querySelector('#conn2')); document.querySelector('#c2down').scrollIntoView()")
        b.settle()
        ticks = "[...document.querySelectorAll('#c2down .axes .c')].map(e => e.textContent).join()"
        wide = "document.querySelector('#c2down .plot').getBoundingClientRect().width"
        whole, before = b.js(ticks), b.js(wide)
        b.drag(self.place("#c2down", 70 / 960, 150), self.place("#c2down", 300 / 960, 150))
        self.assertNotEqual(b.js(ticks), whole)
        self.assertAlmostEqual(b.js(wide) / before, 874 / 230, delta=.05)         # 230 of 874 pixels were chosen
        self.assertEqual(b.js(ticks), b.js(ticks.replace("c2down", "c2up")))       # the other direction goes with it
        near = b.js(ticks)
        b.drag(self.place("#c2down", .4, 150), self.place("#c2down", .3, 150), SHIFT)
        self.assertNotEqual(b.js(ticks), near)
        self.assertAlmostEqual(b.js(wide) / before, 874 / 230, delta=.05)         # panned, not zoomed
        b.wheel(self.place("#c2down", .5, 150), -160, CONTROL)
        self.assertAlmostEqual(b.js(wide) / before, 874 / 230 * 2.718 ** .5, delta=1)
        b.js("document.querySelector('#c2down').focus()")
        b.key("Escape")
        self.assertEqual(b.js(ticks), whole)
        b.key("ArrowRight")
        self.assertRegex(b.js("document.getElementById('c2down-read').textContent"), r"^1 of \d+: 0\.\d{3} ms \(\d\d:\d\d:\d\d\.\d{6} UTC\), \[SA\] seq 0$")
        self.assertEqual(b.complaints(), [])

    def test_times_in_their_unit(self):
        for span, unit in ((50, "µs"), (1_500, "µs"), (40_000, "ms"), (3_000_000, "seconds")):
            self.assertIn(f">{unit}<", timeseq.axes(0, span, 0, 100))
        self.assertIn(">0.5<", timeseq.axes(0, 3_000_000, 0, 100))

    def test_frames_and_filters_are_wiresharks(self):
        need("tshark")
        for path in captures():
            b = self.show(sqrun(path).decode(), path)
            conns = capture.read(path).conns
            for c in {0, len(conns) - 1}:
                b.js(f"fill(document.querySelector('#conn{c}'))")
                words = b.js(f"document.querySelector('#conn{c} code').textContent")
                frames = output(["tshark", "-r", path, "-Y", words, "-T", "fields", "-e", "frame.number"]).decode().split()
                self.assertEqual(sorted(map(int, frames)), sorted(s.record + 1 for s in conns[c].client + conns[c].server))
                told = json.loads(re.search(rf'id="c{c}up-data">(.*?)</script>', (Path(self.folder.name) / "page.html").read_text())[1])
                self.assertEqual(told["w"], [s.record + 1 for s in conns[c].client])
            b.js("document.querySelector('#c0up').focus()")
            b.key("ArrowRight")
            self.assertIn(f"frame {conns[0].client[0].record + 1}, ", b.js("document.getElementById('c0up-read').textContent"))

    def test_script_draws_what_python_drew(self):
        for path in captures():
            b = self.show(sqrun(path).decode(), path)
            b.js("fill(document.querySelector('#conn0'))")
            before = b.js("document.querySelector('#c0up .plot').getBoundingClientRect().width")
            axis = "[...document.querySelectorAll('#c0up .axes text')].map(e => e.textContent).join()"
            drawn = b.js(axis)
            b.js("document.querySelector('#c0up').focus()")
            b.key("Escape")
            self.assertAlmostEqual(b.js("document.querySelector('#c0up .plot').getBoundingClientRect().width"), before, 3)
            self.assertEqual(sorted(b.js(axis).split(",")), sorted(drawn.split(",")))

    def test_dark(self):
        b = self.show(*kept_traces()[1])
        paper, pixel = "getComputedStyle(document.body).backgroundColor", "[...timeline.canvas.getContext('2d').getImageData(4, 4, 1, 1).data].join()"
        light = b.js(paper), b.js(pixel)
        b.dark()
        b.settle()
        self.assertNotEqual(b.js(paper), light[0])
        self.assertNotEqual(b.js(pixel), light[1])
        b.dark(False)

    def test_names_are_not_markup(self):
        path = Path(self.folder.name) / "<img src=x onerror=alert(1)>.pcap"
        path.write_bytes(EXAMPLE.read_bytes())
        b = self.show(sqrun(EXAMPLE).decode(), path)
        self.assertEqual(b.js("document.querySelectorAll('img').length"), 0)
        self.assertEqual(b.complaints(), [])

    def test_table_sorts_and_filters(self):
        path = captures()[-1] if len(captures()) > 1 else EXAMPLE
        text = sqrun(path).decode()
        report = reports.read(text, "report")
        b = self.show(text, path)
        column = lambda n: b.js(f"[...document.querySelectorAll('.list tbody tr')].map(row => row.children[{n}].textContent)")
        special = column(11)
        self.assertEqual(len(special), len(report.conns))
        self.assertEqual([bool(words) for words in special], sorted([bool(words) for words in special], reverse=True))
        b.js("document.querySelectorAll('.list th button')[8].click()")
        sent = [int(words.replace(",", "")) for words in column(8)]
        self.assertEqual(sent, sorted([sum(r.length for r in served.replies) for served in report.conns], reverse=True))
        b.js("document.querySelectorAll('.list th button')[0].click()")
        self.assertEqual(column(0), [str(c) for c in range(len(report.conns))])
        client = report.conns[-1].tuple.split(" ")[0]
        b.js(f"(i => {{ i.value = {client!r}; i.dispatchEvent(new Event('input')); }})(document.querySelector('.list input'))")
        self.assertEqual(set(column(1)), {client})
        b.js("document.querySelector('.list tbody a').click()")
        b.settle()
        self.assertEqual(b.js("location.hash"), f"#conn{len(report.conns) - 1}")
        self.assertTrue(b.js("document.querySelector(location.hash + ' svg[data-view]') !== null"))

    def test_many_connections(self):
        """1,400 of them: in a page of figures that are made when they are near."""
        path = Path(self.folder.name) / "many.pcap"
        write(path, records(2, 14_000, 1_400, 101, span=30), 101)
        text = sqrun(path)
        count = text.count(b"\nconn ")
        (Path(self.folder.name) / "a.report").write_bytes(text)
        page = Path(self.folder.name) / "page.html"
        output([TOOLS / "sqplot", "--capture", path, "-o", page, Path(self.folder.name) / "a.report"])
        self.assertLess(page.stat().st_size, 5_000_000)
        self.assertIn(f"Drawn are 150 of {count:,} connections", page.read_text())
        output([TOOLS / "sqplot", "--capture", path, "--conn", f"0-{count - 1}", "-o", page, Path(self.folder.name) / "a.report"])
        b, begun = self.browser, self.browser.processor_seconds()
        b.open(page)
        b.settle()
        self.assertLess(b.processor_seconds() - begun, 3 * SLOWER)
        self.assertGreater(b.js("document.querySelectorAll('section.conn').length"), 1_300)
        self.assertLess(b.js("document.querySelectorAll('svg[data-view]').length"), 100)
        b.js("location.hash = '#conn700'")
        b.settle()
        self.assertGreater(b.js("document.querySelectorAll('#conn700 svg[data-view]').length"), 1)
        self.assertLess(abs(b.js("document.querySelector('#conn700').getBoundingClientRect().top")), 900)
        self.assertEqual(b.complaints(), [])

    def test_a_hundred_thousand_segments(self):
        """One connection with so many segments and replies: under 10 MB, loaded in under 2 s, and its detail where one zooms."""
        path = Path(self.folder.name) / "one.pcap"
        write(path, records(1, 100_000, 1, span=1), 101)
        text = sqrun(path).decode()
        self.assertGreater(text.count("\nreply ") + int(re.search(r"served (\d+)", text)[1]), 90_000)
        (Path(self.folder.name) / "a.report").write_text(text)
        page = Path(self.folder.name) / "page.html"
        output([TOOLS / "sqplot", "--capture", path, "-o", page, Path(self.folder.name) / "a.report"])
        self.assertLess(page.stat().st_size, 10_000_000)
        b, begun = self.browser, self.browser.processor_seconds()
        b.open(page)
        b.js("fill(document.querySelector('#conn0'))")
        b.settle()
        self.assertLess(b.processor_seconds() - begun, 2 * SLOWER)
        self.quiet(b)
        length = "document.querySelector('#c0up .plot .dot.new').getAttribute('d').length"
        self.assertEqual(b.js(length), 0)               # merged
        b.js("document.querySelector('#c0up').scrollIntoView()")
        b.drag(self.place("#c0up", .5, 150), self.place("#c0up", .51, 150))
        self.assertGreater(b.js(length), 100)           # one by one

    def test_phone(self):
        text, path = kept_traces()[1]
        self.browser.phone()
        try:
            b = self.show(text, path)
            self.quiet(b)
            b.js("fill(document.querySelector('#conn1'))")
            b.settle()
            self.assertFalse(b.js("document.documentElement.scrollWidth > innerWidth"))
            self.assertGreater(b.js("Math.min(...[...document.querySelectorAll('#conn1 .axes text')].map(e => e.getBoundingClientRect().height))"), 8)
            b.js("timeline.canvas.scrollIntoView()")
            x, y = self.place("canvas.lanes", .6, 60)
            before = b.js("timeline.view.join()")
            b.fingers([(x - 20, y), (x + 20, y)], [(x - 60, y), (x + 60, y)])
            b.settle()
            first, last = b.js("timeline.view")
            self.assertNotEqual(f"{first},{last}", before)
            self.assertAlmostEqual((last - first) * 3, float(before.split(",")[1]), delta=2)        # three times as far apart
        finally:
            self.browser.phone(False)


class Squeues(InBrowser):
    """The figure of squeues, whose script draws on a canvas."""

    def shown(self, text, path, *words):
        b = self.show(text, path, *words)
        b.js("document.getElementById('squeues').scrollIntoView()")
        b.settle()
        return b

    def told(self, browser=None):
        """What the figure says of itself, when it has drawn what was due."""
        browser = browser or self.browser
        browser.settle()
        return {name: float(value) if name != "view" else tuple(map(float, value.split())) for name, value in browser.js(
            "Object.assign({}, timeline.box.dataset)").items()}

    def test_all_marks_are_drawn(self):
        for text, path in kept_traces():
            b, report = self.shown(text, path), reports.read(text, "report")
            told, stories = self.told(), [perimeter.follow(marks) for marks in report.squeues]
            self.assertEqual(told["marks"], sum(map(len, report.squeues)))
            self.assertEqual(told["bars"], sum(len(story.stretches) for story in stories))
            self.assertEqual(told["arcs"], len(perimeter.columns(report, capture.read(path).conns)[1]))
            self.assertEqual(b.js("timeline.squeues.map(one => [...one.queued])"), [story.chain for story in stories])
            self.assertEqual(b.js("timeline.squeues.map(one => [...one.first].map((first, s) => [first, one.last[s]]))"),
                             [[[s.first, s.last] for s in story.stretches] for story in stories])
            self.assertEqual(b.complaints(), [])

    def test_bars_have_the_colour_of_who_has_it(self):
        b = self.shown(*kept_traces()[1])
        for role in ("ring", "thread", "worker"):
            wrong = b.js(f"""(() => {{
                const dots = timeline.dots, pen = timeline.canvas.getContext('2d'), want = timeline.colours[{role!r}], wrong = [];
                for (const one of timeline.squeues) for (let s = 0; s < one.first.length; s++) if (one.role(one.pass(one.first[s])) === {role!r}) {{
                    const [left, top, width] = timeline.barBox(one, s);
                    const [r, g, b] = pen.getImageData((left + width - 4) * dots, (top + 13) * dots, 1, 1).data;
                    const got = '#' + [r, g, b].map(n => n.toString(16).padStart(2, '0')).join('');
                    if (got !== want && top + 20 < timeline.high) wrong.push([s, got, want]);
                }}
                return wrong;
            }})()""")
            self.assertEqual(wrong, [])

    def test_every_way_to_move(self):
        b = self.shown(*kept_traces()[1])
        first, last = self.told()["view"]
        at = self.place("canvas.lanes", .5, 60)
        b.wheel(at, -160, CONTROL)
        a, c = self.told()["view"]
        self.assertAlmostEqual((last - first) / (c - a), 1.65, delta=.1)          # e to the half
        b.wheel(at, 100, SHIFT)
        self.assertGreater(self.told()["view"][0], a)
        a, c = self.told()["view"]
        b.drag(at, (at[0] + 60, at[1]))
        self.assertLess(self.told()["view"][0], a)
        b.js("timeline.canvas.focus()")
        for key, moved in (("w", lambda p, q: q[1] - q[0] < p[1] - p[0]), ("d", lambda p, q: q[0] > p[0]), ("a", lambda p, q: q[0] < p[0]),
                           ("s", lambda p, q: q[1] - q[0] > p[1] - p[0]), ("+", lambda p, q: q[1] - q[0] < p[1] - p[0]),
                           ("End", lambda p, q: q[1] == last), ("Home", lambda p, q: q[0] == 0), ("Escape", lambda p, q: q == (first, last))):
            before = self.told()["view"]
            b.key(key)
            self.assertTrue(moved(before, self.told()["view"]), key)
        b.drag(self.place("canvas.strip", .3, 20), self.place("canvas.strip", .6, 20))
        a, c = self.told()["view"]
        self.assertAlmostEqual((c - a) / last, .33, delta=.03)                    # a part of the strip was chosen
        b.drag(self.place("canvas.strip", .45, 20), self.place("canvas.strip", .65, 20))
        self.assertGreater(self.told()["view"][0], a)                             # and dragged along
        b.js("document.querySelector('[data-do=all]').click()")
        self.assertEqual(self.told()["view"], (first, last))
        b.js("timeline.canvas.focus()")
        b.key("ArrowRight")
        self.assertRegex(b.js("timeline.readout.textContent"), r"^squeue 0, marks \d+ to \d+: ring 0 ")
        b.key("ArrowDown")
        self.assertRegex(b.js("timeline.readout.textContent"), r"^squeue 1, marks ")

    def test_a_line_reads_what_is_under_the_pointer(self):
        text, path = kept_traces()[1]
        b, report = self.shown(text, path), reports.read(text, "report")
        for q, marks in enumerate(report.squeues):
            for s, stretch in enumerate(perimeter.follow(marks).stretches[:6]):
                x, y = b.js(f"""(() => {{ const one = timeline.squeues[{q}], [left, top] = timeline.barBox(one, {s}), box = timeline.canvas.getBoundingClientRect();
                                 return [box.left + left + 3, box.top + top + 8 - timeline.scroll.scrollTop]; }})()""")
                if not 0 < y < 890:
                    continue
                b.point((x, y))
                said = b.js("timeline.readout.textContent")
                self.assertIn(f"squeue {q}, marks {stretch.first} to {stretch.last}: ", said)
                for c, n in stretch.feeds[:1]:
                    self.assertIn(f"processed {c}.{n}", said)

    def test_a_connection_is_found_and_followed(self):
        text, path = kept_traces()[1]
        b, report, conns = self.shown(text, path), reports.read(text, "report"), capture.read(path).conns
        stories = [perimeter.follow(marks) for marks in report.squeues]
        for c, conn in enumerate(conns):
            b.js(f"timeline.input.value = {conn.tuple.split()[0]!r}; timeline.input.form.requestSubmit()")
            bars = sum(any(feed[0] == c for feed in s.feeds) or s.act[1:2] == (c,) for story in stories for s in story.stretches)
            fills = sum(m.kind == "fill" and any(e[0] == c for e in m.entries) for marks in report.squeues for m in marks)
            told = self.told()
            self.assertEqual((told["followed"], told["hits"]), (c, bars + fills))
            self.assertIn(f"connection {c}, {conn.tuple}: {bars} bars", b.js("timeline.readout.textContent"))
        b.js("document.querySelector('[data-do=after]').click()")
        self.assertRegex(b.js("timeline.readout.textContent"), rf"^squeue \d+, mark.*graph of {len(conns) - 1}$")
        b.js("[...timeline.readout.querySelectorAll('a')].at(-1).click()")
        b.settle()
        self.assertEqual(b.js("location.hash"), f"#conn{len(conns) - 1}")
        self.assertTrue(b.js("document.querySelector(location.hash + ' svg[data-view]') !== null"))
        b.js("document.querySelector('#conn0 [data-follow]').click()")
        self.assertEqual(self.told()["followed"], 0)
        self.assertLess(abs(b.js("document.getElementById('squeues').getBoundingClientRect().top")), 5)
        b.js("timeline.input.value = 'nowhere'; timeline.input.form.requestSubmit()")
        self.assertIn("no connection nowhere", b.js("timeline.readout.textContent"))

    def test_chosen_marks_are_in_view(self):
        text, path = kept_traces()[1]
        self.shown(text, path, "--marks", "0:4-12")
        self.assertLess(self.told()["marks"], 60)
        self.shown(text, path, "--marks", "0:5")
        self.assertIn("squeue 0, mark 5: ", self.browser.js("timeline.readout.textContent"))

    def test_names_stay_and_the_figure_is_as_wide_as_the_page(self):
        b = self.shown(long_trace(30_000, conns=100, squeues=16, rings=8), None)
        self.assertGreater(b.js("timeline.canvas.getBoundingClientRect().width"), b.js("innerWidth") - 60)
        self.assertLess(b.js("timeline.box.getBoundingClientRect().bottom"), b.js("innerHeight") + 120)
        b.js("timeline.scroll.scrollTop = timeline.height")
        b.settle()
        inked = "(()=>{const d=timeline.canvas.getContext('2d').getImageData(30,0,60,timeline.high*timeline.dots).data;let n=0;for(let i=0;i<d.length;i+=4)n+=d[i]<128;return n})()"
        self.assertGreater(b.js(inked), 100)            # names, of the lanes that are in view now

    def test_four_hundred_thousand_marks(self):
        """From the overview to single marks in under 2 s of a quiet processor, in under 200 MB."""
        (Path(self.folder.name) / "long.report").write_text(long_trace(400_000))
        page = Path(self.folder.name) / "page.html"
        output([TOOLS / "sqplot", "-o", page, Path(self.folder.name) / "long.report"])
        b = Browser()                       # one that holds nothing of other pages
        self.addCleanup(b.close)
        begun = b.processor_seconds()
        b.open(page)
        told = self.told(b)
        self.assertLess(b.processor_seconds() - begun, 2.5 * SLOWER)
        self.assertGreater(told["marks"], 250_000)          # of the squeues that are in view
        self.assertEqual(told["bars"], 0)
        begun = b.processor_seconds()
        while told["bars"] == 0 or told["marks"] > 100:
            b.js("timeline.zoom(.2, .5)")
            told = self.told(b)
        self.assertLess(b.processor_seconds() - begun, 2 * SLOWER)
        self.assertGreater(told["bars"], 0)
        b.js("timeline.all(); timeline.follow(17)")
        told = self.told(b)
        self.assertGreater(told["hits"], 20)
        self.assertGreater(told["arcs"], 5)
        self.assertLess(b.page_memory(), 200_000_000)
        self.assertEqual(b.complaints(), [])


if __name__ == "__main__":
    unittest.main()
