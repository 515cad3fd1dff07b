"""Hostile reports and captures: each is drawn or refused with one plain line, soon, in little memory, and no page runs what stands in one."""
import resource
import struct
import subprocess
import sys
import tempfile
import unittest
from pathlib import Path

from common import TOOLS, kept_traces, need
from browser import COMMAND, Browser

SECONDS, MEMORY = 60, 1 << 30
PCAP = struct.pack("<IHHIIII", 0xa1b2c3d4, 2, 4, 0, 0, 65_535, 101)
SYN = bytes.fromhex("450000280000400040060000" "0a000001" "0a000002" "0fa00007" "00000001" "00000000" "5002ffff" "00000000")
ACK = bytes.fromhex("450000280000400040060000" "0a000002" "0a000001" "00070fa0" "00000009" "00000002" "5012ffff" "00000000")


def record(seconds=1, micros=0, body=SYN, length=None):
    length = len(body) if length is None else length
    return struct.pack("<IIII", seconds, micros, length, length) + body


def block(kind, body, order="<"):
    return struct.pack(order + "II", kind, 12 + len(body)) + body + struct.pack(order + "I", 12 + len(body))


SECTION = block(0x0a0d0d0a, struct.pack("<IHHq", 0x1a2b3c4d, 1, 0, -1))
INTERFACE = block(1, struct.pack("<HHI", 101, 0, 0))


def packet(body=SYN, interface=0, high=0, low=1, size=None):
    size = len(body) if size is None else size
    return block(6, struct.pack("<IIIII", interface, high, low, size, size) + body + bytes(-len(body) % 4))


def resolution(value):
    return block(1, struct.pack("<HHI", 101, 0, 0) + struct.pack("<HHBxxx", 9, 1, value) + bytes(4))


def report(*lines, records=1, conns=1, version=1):
    head = [f"report {version}", f"records {records} tail 0 served {records} nofit 0 server 0 other 0 fragment 0 cut 0 malformed 0 badsum 0 connections {conns}"]
    return "\n".join([*head, *lines, "done", ""])


def connection(*lines, ends="10.0.0.1:4000 10.0.0.2:7", c=0, order="f0"):
    return [f"conn {c} {ends} echo", f"order {order}", *lines, "end LISTEN"]


def reply(at=1, data=ACK):
    return f"reply {at} {data.hex()}"


def marks(*lines, squeues=1, rings=1, setup=None):
    setup = setup or f"setup squeues {squeues} rings {rings} mode process budget 64 spread 2 verify 0"
    return report(*connection(), setup, f"squeue 0 marks {len(lines)}", *lines, version=2)


MANY = 60_000
# By name the text of a report, and whether it is drawn (or refused).
REPORTS = {
    "a range of 10^9 feeds": (report(*connection(order="f0-1000000000")), True),
    "a range of 10^20 feeds and more": (report(*connection(order="f0-99999999999999999999")), True),
    "a feed's number of 400 digits": (report(*connection(order="f" + "9" * 400)), False),
    "ranges that fall": (report(*connection(order="f5-9 f0-4")), False),
    "a range that falls": (report(*connection(order="f5-4")), False),
    "two orders": (report("conn 0 1.2.3.4:5 1.2.3.4:7 echo", "order f0", "order f0", "end LISTEN"), False),
    "a time of 400 digits": (report(*connection("reply " + "9" * 400 + " " + ACK.hex())), False),
    "a time past 63 bits": (report(*connection(reply(2 ** 63))), False),
    "times from 0 to the last": (report(*connection(reply(0), reply(2 ** 63 - 1))), True),
    "a reply that is shorter than its header": (report(*connection(reply(data=ACK[:32] + b"\xf0" + ACK[33:]))), False),
    "a reply without a header's length": (report(*connection(reply(data=ACK[:32] + b"\0" + ACK[33:]))), False),
    "a reply that isn't IPv4": (report(*connection(reply(data=b"\x60" + ACK[1:]))), False),
    "a reply of a megabyte": (report(*connection(reply(data=ACK + bytes(1 << 20)))), True),
    "escape codes in the first line": ("report 1\n\033]0;pwned\007\033[2J\ndone\n", False),
    "escape codes and arrows in a line": (report("conn 0 \033[31m\u202e echo"), False),
    "a script in an address": (report("conn 0 <script>alert(1)</script>:5 1.2.3.4:7 echo", "order f0", "end LISTEN"), False),
    "addresses above 255": (report(*connection(ends="999.999.999.999:99999 999.999.999.999:7")), True),
    "digits of another script": (report(*connection(order="f٣")), False),
    "line ends of Windows": (report(*connection()).replace("\n", "\r\n"), False),
    "zero bytes": (report(*connection()).replace("LISTEN", "\0LISTEN"), False),
    "a line of 30 megabytes": ("report 1\n" + "x" * 30_000_000, False),
    "a hundred thousand connections that aren't there": (report(conns=100_000), False),
    "ninety-nine squeues": (marks(setup="setup squeues 99 rings 1 mode process budget 64 spread 2 verify 0"), False),
    "no ring": (marks(setup="setup squeues 1 rings 0 mode process budget 64 spread 2 verify 0"), False),
    "a mode that is markup": (marks(setup="setup squeues 1 rings 1 mode <b> budget 64 spread 2 verify 0"), False),
    "more marks than are there": (marks("close 0").replace("marks 1\n", "marks 99999999999999999999\n"), False),
    "a pass that isn't there": (marks("close 200"), False),
    "a grant to a pass that isn't there": (marks("grant 0 99999 0"), False),
    "more handed back than there was": (marks("fast 0 0.0", "leave 0 99 none"), True),
    "a mark of a connection that isn't there": (marks("fast 0 99999999999.5", "leave 0 0 none"), True),
    "a long queue that is handed back again and again": (marks(*[f"fill 0 0.{n}" for n in range(MANY)], *["work 5", f"leave 5 {MANY} none"] * MANY), True),
    "one block that moves again and again": (marks(*["claim 0 ask", "leave 0 0 out 0", "claim 0 ask", "leave 0 0 in 0"] * MANY), True),
    "a call on a connection that isn't there": (marks(setup="setup squeues 1 rings 1 mode process budget 64 spread 2 verify 0\ncall 0:9999999:status"), True),
}

# By name the bytes of a capture of one SYN beside a report with one connection, and whether the two are drawn.
CAPTURES = {
    "a record that says 4 GB": (PCAP + record(length=0xffff_ffff), False),
    "a record a byte too long": (PCAP + record(body=bytes(10), length=262_145), False),
    "the last time there is": (PCAP + record(0xffff_ffff, 0xffff_ffff), True),
    "a header cut in the middle": (PCAP[:20], False),
    "no bytes": (b"", False),
    "a link type that isn't there": (PCAP[:20] + b"\xff\xff\xff\xff" + record(), False),
    "a TCP header of 60 bytes in 40": (PCAP + record() + record(body=SYN[:32] + b"\xf0" + SYN[33:]), False),
    "options that end too soon": (PCAP + record(body=SYN[:2] + b"\0\x2c" + SYN[4:32] + b"\x60" + SYN[33:] + b"\x02\xff\xff\xff"), True),
    "a server alone": (PCAP + record(body=ACK), False),
    "pcapng: a block of 4 bytes": (SECTION + INTERFACE + struct.pack("<II", 6, 4), False),
    "pcapng: a block that says 4 GB": (SECTION + INTERFACE + struct.pack("<II", 6, 0xffff_fffc), False),
    "pcapng: an interface that isn't there": (SECTION + INTERFACE + packet(interface=7), False),
    "pcapng: a packet longer than its block": (SECTION + INTERFACE + packet(size=9_999), False),
    "pcapng: 2^127 ticks a second": (SECTION + resolution(0xff) + packet(), True),
    "pcapng: 10^127 ticks a second": (SECTION + resolution(0x7f) + packet(), True),
    "pcapng: the last time there is": (SECTION + INTERFACE + packet(high=0xffff_ffff, low=0xffff_ffff), True),
    "pcapng: a hundred thousand interfaces": (SECTION + INTERFACE * 100_000 + packet(), True),
    "pcapng: a hundred thousand sections": (SECTION * 100_000 + INTERFACE + packet(), True),
}


def limited():
    resource.setrlimit(resource.RLIMIT_AS, (MEMORY, MEMORY))


class HostileInput(unittest.TestCase):
    def setUp(self):
        folder = tempfile.TemporaryDirectory()
        self.addCleanup(folder.cleanup)
        self.folder = Path(folder.name)

    def run_tool(self, tool, *words):
        """Status and output; the error output is nothing, or one line of printable characters."""
        done = subprocess.run([sys.executable, TOOLS / tool, *words], capture_output=True, timeout=SECONDS, preexec_fn=limited)
        said = done.stderr.decode()
        if done.returncode:
            self.assertIn((done.returncode, done.stdout), ((1, b""), (6, b"")), said[-500:])
            self.assertRegex(said, rf"^{tool}: [^\n]+\n$")
            self.assertTrue(said[:-1].isprintable(), said[:200])
            self.assertLess(len(said), 500)
        else:
            self.assertEqual(said, "")
        return done.returncode == 0, done.stdout

    def test_reports(self):
        for name, (text, drawn) in REPORTS.items():
            with self.subTest(name):
                path = self.folder / "a.report"
                path.write_text(text)
                self.assertEqual(self.run_tool("sqplot", path)[0], drawn)

    def test_captures(self):
        for name, (data, drawn) in CAPTURES.items():
            with self.subTest(name):
                (self.folder / "a.pcap").write_bytes(data)
                (self.folder / "a.report").write_text(report(*connection(reply(), order="f0-1")))
                for tool in ("sqplot", "sqpcap"):
                    words = ["--pcapng"] if tool == "sqpcap" else []
                    self.assertEqual(self.run_tool(tool, *words, "--capture", self.folder / "a.pcap", self.folder / "a.report")[0], drawn, tool)

    def test_feeds_that_the_capture_has_not(self):
        (self.folder / "a.pcap").write_bytes(PCAP + record())
        (self.folder / "a.report").write_text(report(*connection(order="f0-1000000000")))
        for tool in ("sqplot", "sqpcap"):
            self.assertFalse(self.run_tool(tool, "--capture", self.folder / "a.pcap", self.folder / "a.report")[0])

    def test_a_folder_that_only_looks_like_one(self):
        (self.folder / "a.report").write_text(report(*connection()))
        for text in ("{}", "[" * 100_000, '{"captures": [{"path": 5}]}', '{"captures": 3}', '{"captures": [{"path": "/dev/null"}]}',
                     '{"captures": [{"path": "\\u001b[2J"}]}', f'{{"captures": [{{"path": "{self.folder}"}}]}}', "\0", '{"captures": [{"path": "a\\u0000b"}]}'):
            with self.subTest(text[:30]):
                (self.folder / "captures.json").write_text(text)
                self.assertFalse(self.run_tool("sqplot", "--capture", self.folder, self.folder / "a.report")[0])

    def test_names_of_files(self):
        good = report(*connection())
        for name in (b"\033]0;x\007.pcap", b"a\nb.pcap", b"\xff\xfe.pcap", "</title><script>alert(1)</script>".replace("/", "\u2215").encode()):
            with self.subTest(name):
                path = self.folder.joinpath(name.decode("utf-8", "surrogateescape"))
                path.write_bytes(PCAP + record())
                (self.folder / "a.report").write_text(good)
                drawn, page = self.run_tool("sqplot", "--capture", path, self.folder / "a.report")
                self.assertTrue(drawn)
                self.assertNotIn(b"<script>alert", page)
                path.write_bytes(b"")
                self.assertFalse(self.run_tool("sqplot", "--capture", path, self.folder / "a.report")[0])

    def test_pages_of_hostile_reports_are_quiet(self):
        need(COMMAND)
        browser = Browser()
        self.addCleanup(browser.close)
        for name, (text, drawn) in REPORTS.items():
            if drawn and len(text) < 3_000_000:
                with self.subTest(name):
                    (self.folder / "a.report").write_text(text)
                    (self.folder / "page.html").write_bytes(self.run_tool("sqplot", self.folder / "a.report")[1])
                    browser.open(self.folder / "page.html")
                    browser.js("document.querySelectorAll('section.conn').forEach(fill)")
                    browser.js("for (const svg of document.querySelectorAll('svg[data-view]')) { svg.focus(); for (const key of ['ArrowRight', '+', 'Escape']) "
                               "svg.dispatchEvent(new KeyboardEvent('keydown', {key})); }")
                    browser.js("timeline && (timeline.walk(1), timeline.zoom(.1), timeline.follow(0), timeline.all())")
                    browser.settle()
                    self.assertEqual(browser.complaints(), [])

    def test_a_kept_report_with_any_byte_changed(self):
        """A changed byte is refused, or drawn."""
        text, path = kept_traces()[0]
        import random
        rnd = random.Random(11)
        for _ in range(12):
            at = rnd.randrange(len(text))
            (self.folder / "a.report").write_bytes(text[:at].encode() + bytes([rnd.randrange(256)]) + text[at + 1:].encode())
            self.run_tool("sqplot", "--capture", path, self.folder / "a.report")


if __name__ == "__main__":
    unittest.main()
