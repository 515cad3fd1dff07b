"""sq: what it makes of a person's files is what sqrun makes of them by hand, whatever their links, packing and size; each refusal is told."""
import csv
import gzip
import io
import json
import lzma
import os
import pty
import random
import re
import shutil
import struct
import subprocess
import tempfile
import time
import unittest
from pathlib import Path

from common import TOOLS, TOP, captures, need, output
from crafted import Talk, as_ipv6
from generated import records, write
from test_sqdiff import program
import builds
import front
import links
import refusals
from files import Records
from packets import total

EXAMPLE = TOP / "examples" / "echo_short.pcap"
MACS = b"\2\0\0\0\0\1\2\0\0\0\0\2"
# By link type what stands before a datagram, and before something that is no IPv4.
BEFORE = {0: (b"\2\0\0\0", b"\x1e\0\0\0"), 108: (b"\0\0\0\2", b"\0\0\0\x1c"), 228: (b"", None), 12: (b"", None),
          276: (b"\x08\0\0\0\0\0\0\2\0\1\0\6\2\0\0\0\0\1\0\0", b"\x86\xdd\0\0\0\0\0\2\0\1\0\6\2\0\0\0\0\1\0\0")}
STACKED = {"802.1ad and 802.1Q": b"\x88\xa8\0\5\x81\0\0\6\x08\0", "twice 802.1Q": b"\x81\0\0\5\x81\0\0\6\x08\0", "PPPoE": b"\x88\x64\x11\0\0\1\0\x40\0\x21"}


SHAPES = {"--report", "--json", "--csv", "--page", "--pcap", "--check"}


def sq(*words, status=0, data=b"", said=False, lines=False):
    """What sq prints, by default a report; or its lines on the error output."""
    words = words if lines or SHAPES & set(words) else ("--report", *words)
    done = subprocess.run([TOOLS / "sq", "--sqrun", program(), *map(str, words)], input=data, capture_output=True)
    assert done.returncode == status, (words, done.returncode, done.stderr.decode())
    return done.stderr.decode() if said or status else done.stdout


def by_hand(path, *words):
    return output([*program().split(), *words], Path(path).read_bytes())


def blocks(report):
    """A report from its connections on."""
    return report[report.index(b"\nconn "):]


class Folder(unittest.TestCase):
    def setUp(self):
        folder = tempfile.TemporaryDirectory()
        self.addCleanup(folder.cleanup)
        self.folder = Path(folder.name)


class Files(Folder):
    def test_plain_files_are_given_as_they_are(self):
        program()
        for path in captures():
            with self.subTest(path.name):
                self.assertEqual(sq(path), by_hand(path))

    def test_words_are_passed_on(self):
        self.assertEqual(blocks(sq("--squeues", 4, "--rings", 2, "--mode", "fill", "--budget", 3, "--spread", 1, EXAMPLE)), blocks(by_hand(EXAMPLE)))
        self.assertIn(b"answer 1 0 ", sq("--call", "1:2:status", EXAMPLE))
        self.assertIn(b"setup squeues 3 rings 1 mode process budget 64 spread 0 verify 1\ncall 0:1:close\n",
                      sq("--trace", "--verify", "--squeues", 3, "--call", "0:1:close", EXAMPLE))

    def test_packed_files(self):
        data, right = EXAMPLE.read_bytes(), by_hand(EXAMPLE)
        (self.folder / "a.gz").write_bytes(gzip.compress(data))
        (self.folder / "a.xz").write_bytes(lzma.compress(data))
        (self.folder / "no ending").write_bytes(gzip.compress(data))
        for name in ("a.gz", "a.xz", "no ending"):
            self.assertEqual(sq(self.folder / name), right)
        self.assertEqual(sq("-", data=data), right)
        self.assertEqual(sq("-", data=gzip.compress(data)), right)
        (self.folder / "cut.gz").write_bytes(gzip.compress(data)[:-20])
        self.assertIn("cut.gz", sq(self.folder / "cut.gz", status=4))

    def test_zstandard(self):
        need("zstd")
        (self.folder / "a.zst").write_bytes(output(["zstd", "-c", EXAMPLE]))
        self.assertEqual(sq(self.folder / "a.zst"), by_hand(EXAMPLE))

    def test_several_files_are_one_capture(self):
        listed = list(Records(EXAMPLE, EXAMPLE.read_bytes()))
        for n, piece in enumerate((listed[:20], listed[20:])):
            write(self.folder / f"{n}.pcap", piece, 1, form=n)
        self.assertEqual(blocks(sq(self.folder / "0.pcap", self.folder / "1.pcap")), blocks(by_hand(EXAMPLE)))

    def test_kept(self):
        sq("--keep", self.folder / "given.pcap", EXAMPLE, EXAMPLE)
        self.assertEqual(sq(self.folder / "given.pcap"), sq(EXAMPLE, EXAMPLE))


class Links(Folder):
    def test_each_link_type(self):
        """The datagrams behind each link give the report that they give as raw IP, with the same counts."""
        program()
        listed = records(3, 400, 12)
        other = [(listed[0][0], None)]
        for link, (before, instead) in BEFORE.items():
            with self.subTest(link=link):
                raw = [(at, body) for at, body in listed if body[:1] != b"\x60" or instead is None]
                extra = other if instead is not None else []
                write(self.folder / "a.pcap", [(at, before + body) for at, body in raw] + [(at, instead + b"x" * 40) for at, _ in extra], link)
                write(self.folder / "raw.pcap", raw + [(at, b"\x60") for at, _ in extra], 101)
                self.assertEqual(sq(self.folder / "a.pcap"), by_hand(self.folder / "raw.pcap"))

    def test_tags(self):
        program()
        talk = Talk().open().echo().close()
        write(self.folder / "raw.pcap", talk.records, 101)
        for name, tags in STACKED.items():
            with self.subTest(name):
                write(self.folder / "a.pcap", [(at, MACS + tags + body) for at, body in talk.records], 1)
                self.assertEqual(sq(self.folder / "a.pcap"), by_hand(self.folder / "raw.pcap"))
                self.assertIn("turned into raw IP", sq(self.folder / "a.pcap", said=True))
        cooked = b"\0\0\0\1\0\6\2\0\0\0\0\1\0\0"
        write(self.folder / "a.pcap", [(at, cooked + b"\x81\0\0\5\x08\0" + body) for at, body in talk.records], 113)
        self.assertEqual(sq(self.folder / "a.pcap"), by_hand(self.folder / "raw.pcap"))

    def test_tcpdump_reads_what_is_kept(self):
        """Each link's datagrams are those that tshark finds."""
        need("tshark")
        write(self.folder / "a.pcap", [(at, BEFORE[276][0] + body) for at, body in Talk().open().echo().records], 276)
        sq("--keep", self.folder / "raw.pcap", self.folder / "a.pcap")
        fields = ["-T", "fields", "-e", "frame.number", "-e", "tcp.seq_raw", "-e", "tcp.flags", "-e", "ip.src"]
        self.assertEqual(*(output(["tshark", "-r", self.folder / name, *fields]) for name in ("a.pcap", "raw.pcap")))

    def test_two_link_types_in_one_file(self):
        need("mergecap")
        talk = Talk().open().echo().close()
        write(self.folder / "raw.pcap", talk.records[:5], 101)
        write(self.folder / "ethernet.pcap", [(at, MACS + b"\x08\0" + body) for at, body in talk.records[5:]], 1)
        write(self.folder / "right.pcap", talk.records, 101)
        output(["mergecap", "-F", "pcapng", "-w", self.folder / "both.pcapng", self.folder / "raw.pcap", self.folder / "ethernet.pcap"])
        self.assertEqual(sq(self.folder / "both.pcapng"), by_hand(self.folder / "right.pcap"))

    def test_a_cut_tail_stays(self):
        write(self.folder / "a.pcap", [(at, BEFORE[0][0] + body) for at, body in Talk().open().echo().records], 0, cut=3)
        self.assertRegex(sq(self.folder / "a.pcap"), rb"records 5 tail 1 ")


    def test_damaged_captures(self):
        """Whatever bytes change, a capture is turned or refused, and what is turned can be read."""
        rnd, talk = random.Random(6), Talk().open().echo().close()
        links_of = [(link, before) for link, (before, _) in BEFORE.items()] + [(1, MACS + b"\x08\0"), (1, MACS + STACKED["PPPoE"]), (113, bytes(14) + b"\x08\0")]
        turned = 0
        for n in range(600):
            link, before = links_of[n % len(links_of)]
            write(self.folder / "a.pcap", [(at, before + body) for at, body in talk.records], link, form=n % 4)
            data = bytearray((self.folder / "a.pcap").read_bytes())
            for _ in range(rnd.randrange(1, 9)):
                data[rnd.randrange(len(data))] = rnd.choice((0, 1, 8, 127, 255, rnd.randrange(256)))
            (self.folder / "a.pcap").write_bytes(data[:rnd.choice((len(data), rnd.randrange(len(data))))])
            try:
                count, _ = links.convert([self.folder / "a.pcap"], self.folder / "b.pcap", links.Ports({80: 7}), lambda *_: None)
            except front.Refused:
                continue
            self.assertEqual(len(list(Records("b", (self.folder / "b.pcap").read_bytes()))), count)
            turned += 1
        self.assertGreater(turned, 300)


class Ports(Folder):
    def test_a_port_is_served(self):
        """A conversation on another port gives the report of the same one on the service's port."""
        write(self.folder / "seven.pcap", Talk(7).open().echo().close().records, 101)
        write(self.folder / "web.pcap", Talk(8080).open().echo().close().records, 101)
        self.assertEqual(sq("--port", "8080=7", self.folder / "web.pcap"), by_hand(self.folder / "seven.pcap"))
        self.assertIn("port 8080 into 7", sq("--port", "8080=7", self.folder / "web.pcap", said=True))

    def test_sums_stay_right_or_wrong(self):
        rnd = random.Random(4)
        for _ in range(300):
            port, text = rnd.randrange(10, 65_536), rnd.randbytes(rnd.randrange(50))
            wrong = rnd.random() < .3
            talk = Talk(port).open().echo(text, wrong=wrong)
            for (_, before), right in zip(talk.records, [True] * 4 + [not wrong, True]):
                after = links.Ports({port: 9}).turned(before)
                self.assertEqual(len(after), len(before))
                pseudo = after[12:20] + bytes((0, 6)) + (len(after) - 20).to_bytes(2, "big")
                self.assertEqual(total(pseudo + after[20:]) == 0xffff, right)

    def test_json_names_the_real_port(self):
        write(self.folder / "web.pcap", Talk(8080).open().echo().close().records, 101)
        line = json.loads(sq("--json", "--port", "8080=9", self.folder / "web.pcap"))
        self.assertEqual((line["captured_port"], line["server"], line["service"]), (8080, "10.0.0.2:9", "discard"))

    def test_two_that_would_be_one(self):
        write(self.folder / "a.pcap", Talk(80).open().records + Talk(81).open().records, 101)
        self.assertRegex(sq("--port", "80=7", "--port", "81=7", self.folder / "a.pcap", status=1), "speaks to the ports 80 and 81 of one host")
        sq("--port", "80=7", "--port", "81=9", self.folder / "a.pcap")


class Told(Folder):
    def test_json(self):
        """The fields of the example, counted by hand from the capture."""
        lines = [json.loads(line) for line in sq("--json", EXAMPLE).splitlines()]
        self.assertEqual([line["connection"] for line in lines], [0, 1, 2, 3])
        first = lines[0]
        wanted = {"client": "10.66.0.1:34574", "server": "10.66.0.2:7", "service": "echo", "captured_port": 7, "first_frame": 3, "last_frame": 12,
                  "client_segments": 6, "client_bytes": 6, "server_segments": 4, "server_bytes": 6, "server_again": 0, "replies": 3, "reply_bytes": 6, "replies_again": 0,
                  "lives": 1, "answers": [], "captured_end": "closed", "end": "LISTEN"}
        self.assertEqual({key: first[key] for key in wanted}, wanted)
        rows = (TOP / "docs" / "TOOLS.md").read_text().split("| Field |")[1].split("\n\n")[0].split("\n")
        documented = {name for row in rows for name in re.findall(r"`(\w+)`", row.split(" | ")[0])}
        self.assertEqual(set(first), documented)

    def test_counts_in_words(self):
        said = sq(EXAMPLE, said=True)
        self.assertIn("46 records: 24 served in 4 connections, 15 from the served ports (dropped), 7 of other protocols or ports", said)
        self.assertEqual(sq("--quiet", EXAMPLE, said=True), "")

    def test_nothing_served(self):
        write(self.folder / "web.pcap", Talk(443).open().echo().records + Talk(22).open().records, 101)
        said = sq(self.folder / "web.pcap", said=True)
        self.assertIn("nothing to port 7 or 9: the capture has TCP ports 443 (6 segments), 22 (3). --port 443=9", said)
        udp = Talk().open().records[0][1]
        udp = udp[:9] + b"\x11" + udp[10:]
        write(self.folder / "udp.pcap", [(0, udp), (0, b"\x60" + bytes(50))], 101)
        said = sq(self.folder / "udp.pcap", said=True)
        self.assertIn("UDP ports 7 (1 datagrams); 1 record of IPv6", said)
        self.assertIn("sqmore's", said)

    def test_words_out_of_range_are_named(self):
        for words, told in ((["--squeues", "17"], "--squeues: '17' isn't a number from 1 to 16"), (["--budget", "65536"], "from 1 to 65,535"),
                            (["--rings", "0"], "from 1 to 8"), (["--mode", "Fill"], "invalid choice: 'Fill'"), (["--call", "0:0:stat"], "isn't like 0:3:status"),
                            (["--call", "0:0:buffer=65536"], "0 to 65,535 bytes"), (["--port", "80"], "isn't like 80=7"), (["--port", "80=8"], "isn't like"),
                            (["--spread", "x"], "isn't a number"), (["--gen", "7"], "unrecognized arguments"), (["--squeues", "\u0661"], "isn't a number")):
            self.assertIn(told, sq(*words, EXAMPLE, status=2))
        self.assertIn("at most 1,024", sq(*["--call", "0:0:status"] * 1025, EXAMPLE, status=2))
        self.assertIn("the capture is missing", sq("--check", EXAMPLE, status=2))

    def test_refused_files_are_explained(self):
        for data, status, told in ((b"", 6, "begins with 24"), (b"text of a person, no capture", 6, "No capture begins so"),
                                   (b"report 1\nrecords 0 tail 0 and so on", 6, "text: a report, perhaps"),
                                   (struct.pack("<IHHIIII", 0xa1b2c3d4, 2, 3, 0, 0, 0, 1), 6, "Version 2.3"),
                                   (struct.pack("<IHHIIII", 0xa1b2c3d4, 2, 4, 0, 0, 0, 127), 6, "tcpdump -i any -y LINUX_SLL"),
                                   (struct.pack("<IHHIIII", 0xa1b2c3d4, 2, 4, 0, 0, 0, 1) + struct.pack("<IIII", 0, 0, 300_000, 0), 6, "editcap"),
                                   (b"\x0a\x0d\x0d\x0a" + bytes(24), 6, "breaks its own form")):
            (self.folder / "a").write_bytes(data)
            said = sq(self.folder / "a", status=status)
            self.assertIn(told, said)
            self.assertNotIn("Traceback", said)
        self.assertIn("No such file", sq(self.folder / "none", status=4))
        self.assertIn("Is a directory", sq(self.folder, status=4))
        self.assertIn("0 to 3 are there", sq("--call", "0:9:status", EXAMPLE, status=8))

    def test_hostile_names_and_bytes_do_not_reach_the_terminal(self):
        name = self.folder / "a\x1b]0;pwned\x07"
        name.write_bytes(b"\x1b]0;pwned\x07" * 9)
        self.assertNotIn("\x1b", sq(name, status=6))
        self.assertNotIn("\x1b", sq(str(name) + "none", status=4))

    def test_each_line_of_sqrun_is_explained(self):
        """The lines are those that the crate writes."""
        for line in ("usage: sqrun [--squeues N] [--rings N]", "sqrun: out of memory", "sqrun: read fault", "sqrun: write fault",
                     "sqrun: bad capture: short header of 3 bytes", "sqrun: bad capture: magic 1f8b0808", "sqrun: bad capture: version 2.3",
                     "sqrun: bad capture: link type 276", "sqrun: bad capture: record 0 has length 262145", "sqrun: bad capture: pcapng short section of 27 bytes",
                     "sqrun: bad capture: pcapng magic 00000000 in block 0", "sqrun: bad capture: pcapng block 0 has length 3",
                     "sqrun: bad capture: pcapng block 1 ends with length 4", "sqrun: bad capture: pcapng version 2.0 in block 0",
                     "sqrun: bad capture: pcapng link type 276 in block 1", "sqrun: bad capture: pcapng second link type 101 in block 2",
                     "sqrun: bad capture: pcapng interface 1 in block 2", "sqrun: bad capture: pcapng packet of 300000 bytes in block 2",
                     "sqrun: call on connection 1 of 1", "sqrun: too large: more than 67108864 bytes", "sqrun: too large: more than 1048576 records",
                     "sqrun: too large: trace of 67109000 marks"):
            told = refusals.explained(line)
            self.assertTrue(told and "{" not in told, line)
        self.assertIn("a gzip file", refusals.explained("sqrun: bad capture: magic 1f8b0808"))
        self.assertEqual(refusals.explained("something else"), "")

    def test_no_program(self):
        done = subprocess.run([TOOLS / "sq", "--sqrun", "/none/sqrun", EXAMPLE], capture_output=True, text=True)
        self.assertNotEqual(done.returncode, 0)
        self.assertNotIn("Traceback", done.stderr)

    def test_progress_on_a_terminal(self):
        """On a terminal it says how far it is; elsewhere not."""
        write(self.folder / "a.pcap", [(at, BEFORE[0][0] + body) for at, body in records(1, 30_000, 40)], 0)
        main, end = pty.openpty()
        done = subprocess.Popen([TOOLS / "sq", "--sqrun", program(), "-o", self.folder / "out", self.folder / "a.pcap"], stderr=end, stdin=end)
        os.close(end)
        said = b""
        try:
            while piece := os.read(main, 4096):
                said += piece
        except OSError:
            pass
        self.assertEqual(done.wait(), 0)
        self.assertRegex(said.decode(), r"\r(reading: [\d.]+ of [\d.]+ MB, [\d,]+ records|serving [\d.]+ MB: \d+ s)")
        self.assertNotIn("\r", sq(self.folder / "a.pcap", said=True))

    def test_seconds_left(self):
        out = []
        terminal = type("Out", (), {"isatty": lambda self: True, "write": lambda self, text: out.append(text), "flush": lambda self: None})()
        told = front.Progress(terminal)
        told.begin("reading", 4_000_000)
        told.begun -= 3
        told.tell(1_000_000, 2_000)
        self.assertEqual(out, ["\rreading: 1.0 of 4.0 MB, 2,000 records, 9 s left"])
        told.end()
        self.assertEqual(out[1].strip("\r "), "")


    def test_told_to_stop(self):
        """It ends sqrun, and removes what it has written."""
        (self.folder / "temporary").mkdir()
        (self.folder / "slow").write_text(f"#!/bin/sh\necho $$ > {self.folder}/number\nexec sleep 60\n")
        (self.folder / "slow").chmod(0o755)
        done = subprocess.Popen([TOOLS / "sq", "--sqrun", self.folder / "slow", EXAMPLE], stderr=subprocess.PIPE, env={**os.environ, "TMPDIR": str(self.folder / "temporary")})
        until = time.monotonic() + 20
        while not ((self.folder / "number").exists() and (self.folder / "number").read_text()) and time.monotonic() < until:
            time.sleep(.05)
        done.terminate()
        self.assertEqual(done.communicate()[1], b"")
        self.assertEqual(done.returncode, 143)
        self.assertEqual(list((self.folder / "temporary").iterdir()), [])
        slow = Path(f"/proc/{(self.folder / 'number').read_text().strip()}/cmdline")
        while slow.exists() and slow.read_bytes() and time.monotonic() < until:
            time.sleep(.05)
        self.assertFalse(slow.exists() and slow.read_bytes())


class Lines(Folder):
    """What sq prints without a word: a line for each TCP connection, and a total."""

    def shown(self, *paths, terminal=False, **more):
        if not terminal:
            return sq(*paths, lines=True, **more).decode().splitlines()
        words = " ".join(map(str, (TOOLS / "sq", "--quiet", "--sqrun", f"'{program()}'", *paths)))
        return subprocess.run(["script", "-qec", words, "/dev/null"], capture_output=True, text=True, env={**os.environ, "TERM": "xterm"}).stdout.splitlines()

    def test_each_connection_and_a_total(self):
        """Texts both ways, what went again, and how it ended: of a story whose numbers are known."""
        talk = Talk().open().echo(b"hello").up(0x18, b"again").down(0x18, b"again").down(0x18, b"again", seq=6, wait=1_000_000).up().up(
            0x18, b"last").up(0x18, b"last", seq=11, wait=300_000).down(0x14)
        first, second, last = self.shown(talk.save(self.folder))
        self.assertEqual(first.split(), "client server bytes up down time again up down end sqrun".split())
        self.assertEqual(second.split()[:9], ["10.0.0.1:4000", "10.0.0.2:7", "18", "15", "1.301", "s", "1", "1", "reset"])
        self.assertIn("echo: ", second)
        self.assertTrue(last.startswith("1 connection: 1 reset; 18 bytes up, 15 down; again 1 up, 1 down; sqrun serves 1"), last)

    def test_closed_and_open(self):
        self.assertEqual(self.shown(Talk().open().echo().close().save(self.folder))[1].split()[8], "closed")
        self.assertEqual(self.shown(Talk().open().echo().up(0x11).down().save(self.folder))[1].split()[8], "open")

    def test_what_is_not_served_is_listed(self):
        """Any port, and IPv6 beside IPv4."""
        talk = Talk(8_080).open().echo().close()
        six = [(at, as_ipv6(body)) for at, body in Talk(443).open().echo(b"x" * 100).close().records]
        write(self.folder / "a.pcap", sorted(talk.records + six), 101)
        _, one, other, total = self.shown(self.folder / "a.pcap")
        self.assertEqual([line.split()[:4] for line in sorted((one, other))],
                         [["10.0.0.1:4000", "10.0.0.2:8080", "5", "5"], ["[fd00::a00:1]:4000", "[fd00::a00:2]:443", "100", "100"]])
        self.assertTrue(total.startswith("2 connections: 2 closed; 105 bytes up, 105 down"))
        self.assertTrue(total.endswith("sqrun serves 0"))

    def test_packets_cut_short(self):
        """Their bytes are those of the lengths in their headers, over IPv4 and IPv6, and how many there are is told; JSON and CSV too."""
        talk = Talk().open().echo(b"x" * 1_000).echo(b"y" * 500).close()
        for changed, ends in ((lambda body: body, ["10.0.0.1:4000", "10.0.0.2:7"]), (as_ipv6, ["[fd00::a00:1]:4000", "[fd00::a00:2]:7"])):
            packets = [(at, changed(body)) for at, body in talk.records]
            data = struct.pack("<IHHiIII", 0xa1b2c3d4, 2, 4, 0, 0, 76, 101)
            for at, body in packets:
                data += struct.pack("<IIII", at // 1_000_000, at % 1_000_000, min(76, len(body)), len(body)) + body[:76]
            (self.folder / "cut.pcap").write_bytes(data)
            _, line, total = self.shown(self.folder / "cut.pcap")
            self.assertEqual(line.split()[:4], [*ends, "1,500", "1,500"])
            self.assertTrue(line.endswith("4 cut short"), line)
            self.assertTrue(total.startswith("1 connection: 1 closed; 1,500 bytes up, 1,500 down"), total)
        write(self.folder / "cut.pcap", [(at, body[:76]) for at, body in talk.records], 101)
        found = json.loads(sq("--json", self.folder / "cut.pcap").splitlines()[0])
        self.assertEqual((found["client_bytes"], found["not_whole"]), (0, 4))

    def test_tshark_counts_the_same(self):
        """Bytes both ways of each connection of real captures, as tshark's own statistics have them."""
        need("tshark")
        for path in captures():
            with self.subTest(path.name):
                rows = [line.split("\t") for line in output(["tshark", "-r", path, "-Y", "tcp", "-T", "fields", "-E", "occurrence=f", "-e", "tcp.stream", "-e", "tcp.dstport", "-e", "tcp.len"]).decode().splitlines()]
                wanted = {}
                for stream, port, length in rows:
                    both = wanted.setdefault(stream, [0, 0])
                    both[port not in ("7", "9")] += int(length)
                shown = [[int(line.split()[at].replace(",", "")) for at in (2, 3)] for line in self.shown(path)[1:-1]]
                self.assertEqual(sorted(shown), sorted(wanted.values()))

    def test_a_terminal_gets_ten_lines(self):
        """Coloured, those first that one should look at; and no colour where a program reads."""
        records = []
        for n in range(40):
            talk = Talk().open().echo()
            talk = talk.down(0x14) if n == 30 else talk.close()
            records += [(at + n, body[:20] + (5_000 + n).to_bytes(2, "big") + body[22:] if body[22:24] == b"\0\7" else body[:22] + (5_000 + n).to_bytes(2, "big") + body[24:])
                        for at, body in talk.records]
        write(self.folder / "a.pcap", sorted(records), 101)
        shown = self.shown(self.folder / "a.pcap", terminal=True)
        self.assertLessEqual(len(shown), 9)
        self.assertIn("10.0.0.1:5030", shown[1])
        self.assertIn("\x1b[31mreset", shown[1])
        self.assertIn("and 34 more", shown[-2])
        plain = self.shown(self.folder / "a.pcap")
        self.assertEqual((len(plain), "\x1b" in "".join(plain)), (42, False))

    def test_csv_has_the_fields_of_json(self):
        whole = [json.loads(line) for line in sq("--json", EXAMPLE).splitlines()]
        rows = list(csv.DictReader(io.StringIO(sq("--csv", EXAMPLE).decode())))
        self.assertEqual([list(row) for row in rows], [list(line) for line in whole])
        self.assertEqual([{**row, "answers": row["answers"] or "[]"} for row in rows], [{name: str(value) for name, value in line.items()} for line in whole])

    def test_a_server_alone(self):
        """What is missing is the clients' direction, and no port."""
        write(self.folder / "a.pcap", [(at, body) for at, body in Talk().open().echo().records if body[20:22] == b"\0\7"], 101)
        self.assertIn("only what their servers sent", sq(self.folder / "a.pcap", said=True))

    def test_a_page_of_nothing_says_why(self):
        write(self.folder / "a.pcap", [(at, as_ipv6(body)) for at, body in Talk().open().echo().records], 101)
        self.assertIn(b"Nothing of it is served", sq("--page", self.folder / "a.pcap"))

    def test_a_port_that_is_not_there(self):
        self.assertIn("no segment to or from port 1234", sq("--port", "1234=9", EXAMPLE, said=True))


class Shapes(Folder):
    def test_page_and_capture_are_those_of_the_tools(self):
        report = self.folder / "a.report"
        report.write_bytes(sq(EXAMPLE))
        self.assertEqual(sq("--pcap", EXAMPLE), output([TOOLS / "sqpcap", report, "--capture", EXAMPLE]))
        self.assertIn(b"10.66.0.1:34574", sq("--page", EXAMPLE))
        said = sq("--page", "-o", self.folder / "a.html", EXAMPLE, said=True)
        self.assertIn("a.html", said)
        self.assertIn("<!DOCTYPE html>", (self.folder / "a.html").read_text())

    def test_chosen_connections(self):
        page = sq("--page", "--conn", "1-2", EXAMPLE).decode()
        self.assertEqual(re.findall(r'<section [^>]*id="conn(\d+)"', page), ["1", "2"])
        report = self.folder / "a.report"
        report.write_bytes(sq(EXAMPLE))
        self.assertEqual(sq("--pcap", "--conn", "3", EXAMPLE), output([TOOLS / "sqpcap", "--conn", "3", report, "--capture", EXAMPLE]))
        self.assertIn("--conn goes with", sq("--conn", "1", EXAMPLE, status=2))

    def test_a_page_for_a_terminal_goes_into_a_file(self):
        shutil.copy(EXAMPLE, self.folder / "mine.pcap")
        main, end = pty.openpty()
        done = subprocess.run([TOOLS / "sq", "--sqrun", program(), "--page", "mine.pcap"], cwd=self.folder, stdout=end, stderr=subprocess.PIPE)
        os.close(end), os.close(main)
        self.assertEqual(done.returncode, 0, done.stderr)
        self.assertTrue((self.folder / "mine.sqrun.html").exists())
        self.assertIn(b"mine.sqrun.html", done.stderr)

    def test_help_and_manual(self):
        for tool in ("sq", "sqdiff"):
            told = output([TOOLS / tool, "--help"]).decode()
            page = (TOP / "docs" / "man" / f"{tool}.1").read_text()
            for word in set(re.findall(r"(?<![\w-])--[a-z]+", told)):
                self.assertIn(word.replace("-", "\\-"), page, f"{word} isn't in docs/man/{tool}.1")
            if shutil.which("man"):
                done = subprocess.run(["man", "--warnings", "-l", TOP / "docs" / "man" / f"{tool}.1"], capture_output=True, text=True, env={**os.environ, "LC_ALL": "C.UTF-8"})
                self.assertEqual((done.returncode, done.stderr), (0, ""))


class Large(Folder):
    def test_more_connections_than_one_run_takes(self):
        need("parallel")
        begun = Talk().open().records
        listed = [(at + port, body[:20] + port.to_bytes(2, "big") + body[22:]) for port in range(2_000, 6_200) for at, body in begun[::2]]
        write(self.folder / "a.pcap", sorted(listed), 101)
        self.assertIn(b" nofit 208 ", by_hand(self.folder / "a.pcap"))
        said = sq("-o", self.folder / "a.report", self.folder / "a.pcap", said=True)
        report = (self.folder / "a.report").read_bytes()
        self.assertIn("4,200 connections; served in shards", said)
        self.assertIn(b" nofit 0 ", report)
        self.assertEqual(report.count(b"\nconn "), 4_200)
        first = blocks(by_hand(self.folder / "a.pcap")).removesuffix(b"done\n")
        self.assertTrue(blocks(report).startswith(first))


    def test_more_bytes_than_one_run_takes(self):
        need("parallel")
        talk = Talk().open().echo().close()
        write(self.folder / "small.pcap", talk.records, 101)
        filler = [(talk.records[0][0], b"\x60" + bytes(262_143))] * 260
        write(self.folder / "a.pcap", talk.records[:1] + filler + talk.records[1:], 101)
        output([*program().split()], (self.folder / "a.pcap").read_bytes(), status=7)
        report = sq(self.folder / "a.pcap")
        self.assertIn(b"records 269 tail 0 served 6 nofit 0 server 3 other 260 ", report)
        self.assertEqual(blocks(report), blocks(by_hand(self.folder / "small.pcap")))
        # A trace isn't split.
        said = sq("--trace", self.folder / "a.pcap", status=7)
        self.assertIn("too large: more than 67108864 bytes\nOne run takes 64 MiB", said)


class Check(Folder):
    def check(self, text, *words, path=EXAMPLE):
        (self.folder / "a.report").write_bytes(text)
        done = subprocess.run([TOOLS / "sq", "--sqrun", program(), *words, "--check", self.folder / "a.report", path], capture_output=True, text=True)
        self.assertIn(done.returncode, (0, 1), done.stderr)
        return done.returncode, done.stdout

    def test_right_ones(self):
        self.assertEqual(self.check(by_hand(EXAMPLE)), (0, "yes\n"))
        (self.folder / "a.pcap.gz").write_bytes(gzip.compress(EXAMPLE.read_bytes()))
        self.assertEqual(self.check(by_hand(EXAMPLE), path=self.folder / "a.pcap.gz"), (0, "yes\n"))

    def test_a_wrong_line_has_the_right_one_beside(self):
        right = by_hand(EXAMPLE)
        lines = right.split(b"\n")
        at = next(n for n, line in enumerate(lines) if line.startswith(b"end "))
        wrong = b"\n".join(lines[:at] + [b"end TIME-WAIT"] + lines[at + 1:])
        status, said = self.check(wrong)
        self.assertEqual(status, 1)
        self.assertIn(f"no: text {at + 1}\n", said)
        self.assertRegex(said, rf"> +{at + 1}  end TIME-WAIT\n +right  end LISTEN")

    def replay(self):
        try:
            return builds.command("sqreplay")
        except front.Refused:
            raise unittest.SkipTest("no sqreplay: run ./build sqreplay") from None

    def test_traced_reports(self):
        self.replay()
        right = by_hand(EXAMPLE, "--trace", "--squeues", "2", "--rings", "2")
        self.assertEqual(self.check(right), (0, "yes\n"))
        number = right[:right.index(b"\nend ")].count(b"\n") + 2
        status, said = self.check(right.replace(b"\nend LISTEN", b"\nend TIME-WAIT", 1))
        self.assertEqual(status, 1)
        self.assertRegex(said, rf"(?s)^no: text {number}\nLine {number} isn't.*> +{number}  end TIME-WAIT\n +right  end LISTEN")

    def test_the_right_line_of_a_connection_with_calls(self):
        self.replay()
        right = by_hand(EXAMPLE, "--trace", "--mode", "fill", "0:0:status")
        at = right[:right.index(b"\nanswer 0 0 ")].count(b"\n") + 2
        answer = right.split(b"\n")[at - 1].decode()
        status, said = self.check(right.replace(answer.encode(), b"answer 0 0 LISTEN 1 2 3"))
        self.assertEqual(status, 1)
        self.assertIn(f"no: text {at}\n", said)
        shown = re.search(rf"> +{at}  answer 0 0 LISTEN 1 2 3\n +right  (.*)\n", said)
        # Where no run of its own meets the same order, there is no right line to show.
        self.assertIn(shown[1] if shown else answer, (answer,))

    def test_each_reason(self):
        self.replay()
        right = by_hand(EXAMPLE, "--trace", "--squeues", "2", "--rings", "1")
        first_leave = right.index(b"\nleave ")
        for text, told in ((right.replace(b"\ndone\n", b"\n"), "no: no report\nThere is no line `done`"),
                           (right.replace(b"\nsetup squeues 2", b"\nsetup squeues 02"), "no: form\n"),
                           (right[:first_leave] + right[first_leave:].replace(b"\nleave 0 0 none", b"\ntake 0", 1), "no: illegal squeue 0 mark "),
                           (right.replace(b" mode process ", b" mode fill "), "no: unfit squeue 0 mark ")):
            status, said = self.check(text)
            self.assertEqual(status, 1)
            self.assertTrue(said.startswith(told), said)
            self.assertGreater(said.count("\n"), 1 + ("unfit" in told or "illegal" in told))
        (self.folder / "none.pcap").write_bytes(b"no capture")
        self.assertIn("no: capture\nWhat stands behind", self.check(right, path=self.folder / "none.pcap")[1])

    def test_hostile_reports(self):
        """Whatever is given as a report, there is an answer or one refusal, and nothing steers the terminal."""
        right = by_hand(EXAMPLE)
        for text in (b"", b"\0" * 50, b"report 1\n", b"report 2\n", b"report 2\ndone\n", b"report 1\n\x1b]0;pwned\x07\ndone\n", right[:100], right + right,
                     right.replace(b"report 1", b"report 2"), right.replace(b"\nend ", b"\n\x1b[2Jend ", 1), b"report 2\n" + b"9" * 100_000 + b"\ndone\n",
                     b"report 2\nsetup squeues 99999999999999999999 rings 1 mode process budget 1 spread 0 verify 0\nsqueue 0 marks 99999999999\ndone\n"):
            (self.folder / "a.report").write_bytes(text)
            done = subprocess.run([TOOLS / "sq", "--sqrun", program(), "--check", self.folder / "a.report", EXAMPLE], capture_output=True, text=True)
            self.assertIn(done.returncode, (1, 2), (text[:60], done))
            self.assertNotIn("Traceback", done.stderr)
            self.assertNotIn("\x1b", done.stdout + done.stderr)

    def test_reasons_are_those_of_the_program(self):
        """docs/RUN.md lists them."""
        listed = re.findall(r"^\| `(no: [^`]*)` \|", (TOP / "docs" / "RUN.md").read_text(), re.M)
        self.assertEqual(len(listed), 8)
        for line in listed:
            shown = re.sub(r"\b[QNC]\b", "3", line)
            self.assertTrue(refusals.reason(shown)[0], shown)


if __name__ == "__main__":
    unittest.main()
