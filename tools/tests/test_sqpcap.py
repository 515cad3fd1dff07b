"""sqpcap: its packets are the clients' and the replies; tcptrace counts in them what the report says."""
import random
import re
import struct
import subprocess
import tempfile
import unittest
from pathlib import Path

from common import TOOLS, TOP, captures, need, output, sqrun
from crafted import Talk
import capture
import report as reports
from capture import RST, SYN
from generated import datagram, records, write
from timeseq import kinds, lives


def packets(data):
    at, out = 24, []
    while at < len(data):
        seconds, micros, length, _ = struct.unpack_from("<IIII", data, at)
        out.append((seconds * 1_000_000 + micros, data[at + 16:at + 16 + length]))
        at += 16 + length
    return out


def expected(conns, report):
    """By ends what tcptrace has to count: data packets, bytes, sent again, out of order."""
    out = {}
    for conn, served in zip(conns, report.conns):
        (life,) = lives(conn, served)
        client, server = conn.tuple.split(" ")
        for one, other, segments, base in ((client, server, life.client, life.irs), (server, client, life.replies, life.iss)):
            texts = [s for s in segments if s.length]
            seen = kinds(segments, base)            # tcptrace counts a FIN that comes again as data sent again
            out[one, other] = (len(texts), sum(s.length for s in texts), seen.count("again"), seen.count("late"))
    return out


def counted(path):
    """By ends what tcptrace counts."""
    out = {}
    for part in output(["tcptrace", "-l", "-n", path]).decode(errors="replace").split("TCP connection ")[1:]:
        hosts = re.findall(r"host \w+:\s+(\S+)", part)
        if len(hosts) == 2:
            columns = [list(map(int, re.findall(rf"{name}:\s+(\d+)", part))) for name in
                       ("actual data pkts", "actual data bytes", "rexmt data pkts", "outoforder pkts")]
            for side, ends in enumerate((tuple(hosts), tuple(reversed(hosts)))):
                out[ends] = tuple(column[side] for column in columns)
    return out


class Joined(unittest.TestCase):
    def setUp(self):
        folder = tempfile.TemporaryDirectory()
        self.addCleanup(folder.cleanup)
        self.folder = Path(folder.name)

    def joined(self, path, text, *words):
        (self.folder / "a.report").write_bytes(text)
        return output([TOOLS / "sqpcap", "--capture", path, *words, self.folder / "a.report"])

    def test_served_segments_and_replies(self):
        for path in captures():
            with self.subTest(path.name):
                text = sqrun(path)
                report = reports.read(text.decode(), "report")
                listed = packets(self.joined(path, text))
                replies = [(int(at), bytes.fromhex(data)) for at, data in re.findall(r"^reply (\d+) (\w+)$", text.decode(), re.M)]
                self.assertEqual(len(listed), report.counts["served"] + len(replies))
                left = list(listed)
                for reply in replies:
                    left.remove(reply)
                self.assertTrue(all(int.from_bytes(ip[4 * (ip[0] & 15) + 2:][:2], "big") in (7, 9) for _, ip in left))
                self.assertEqual([at for at, _ in listed], sorted(at for at, _ in listed))

    def test_tcptrace_counts_the_same(self):
        need("tcptrace")
        for path in captures():
            with self.subTest(path.name):
                text = sqrun(path)
                report = reports.read(text.decode(), "report")
                (self.folder / "a.pcap").write_bytes(self.joined(path, text))
                self.assertEqual(counted(self.folder / "a.pcap"), expected(capture.read(path, report.verified()).conns, report))

    def test_pcapng_gives_the_same(self):
        need("editcap")
        for path in captures():
            with self.subTest(path.name):
                text, other = sqrun(path), self.folder / "a.pcapng"
                output(["editcap", "-F", "pcapng", path, other])
                self.assertEqual(self.joined(other, text), self.joined(path, text))

    def test_chosen_connections(self):
        path = captures()[0]
        text = sqrun(path)
        apart = [packets(self.joined(path, text, "--conn", str(c))) for c in range(text.count(b"\nconn "))]
        self.assertEqual(sorted(packets(self.joined(path, text))), sorted(sum(apart, [])))
        self.assertEqual(sorted(packets(self.joined(path, text, "--conn", "0,2"))), sorted(apart[0] + apart[2]))

    def test_replies_stand_behind_what_they_answer(self):
        path = captures()[0]
        listed = [ip[20:] for _, ip in packets(self.joined(path, sqrun(path), "--conn", "0"))]
        flags = [tcp[13] & (SYN | RST | 16) for tcp in listed]
        self.assertEqual(flags[:3], [SYN, SYN | 16, 16])

    def test_comments_say_what_was_captured(self):
        """tshark reads the pcapng: the same packets, each captured one with its frame in the capture, each reply as answered by sqrun."""
        need("tshark")
        for path in captures():
            with self.subTest(path.name):
                text, other = sqrun(path), self.folder / "a.pcapng"
                other.write_bytes(self.joined(path, text, "--pcapng"))
                fields = ["-T", "fields", "-e", "frame.comment", "-e", "tcp.seq_raw", "-e", "tcp.ack_raw", "-e", "tcp.dstport"]
                rows = [line.split("\t") for line in output(["tshark", "-r", other, *fields]).decode().splitlines()]
                self.assertEqual(len(rows), len(packets(self.joined(path, text))))
                known = {line.split("\t")[0]: line.split("\t")[1:] for line in output(
                    ["tshark", "-r", path, "-T", "fields", "-e", "frame.number", "-e", "tcp.seq_raw", "-e", "tcp.ack_raw", "-e", "tcp.dstport"]).decode().splitlines()}
                for said, *ends in rows:
                    if ends[2] in ("7", "9"):
                        self.assertEqual(known[re.fullmatch(r"captured, frame (\d+)", said)[1]], ends)
                    else:
                        self.assertEqual(said, "answered by sqrun")
                times = lambda file: [line for line in output(["tshark", "-r", file, "-T", "fields", "-e", "frame.time_epoch"]).decode().split()]
                (self.folder / "a.pcap").write_bytes(self.joined(path, text))
                self.assertEqual([t.rstrip("0") for t in times(other)], [t.rstrip("0") for t in times(self.folder / "a.pcap")])

    def test_both_servers(self):
        """The captured conversation as it was, and the same client with the reference at another address: two streams each, all sums right, as tshark sees them."""
        need("tshark")
        path = TOP / "examples" / "echo_short.pcap"
        text, other = sqrun(path), self.folder / "both.pcapng"
        other.write_bytes(self.joined(path, text, "--beside"))
        names = ("frame.interface_name", "ip.src", "tcp.srcport", "ip.dst", "tcp.dstport", "tcp.seq_raw", "tcp.ack_raw", "tcp.len", "tcp.checksum.status", "ip.checksum.status")
        shown = lambda file, *words: [line.split("\t") for line in output(["tshark", "-r", file, "-o", "tcp.check_checksum:TRUE", "-o", "ip.check_checksum:TRUE", *words, "-T", "fields", *(
            word for name in names for word in ("-e", name))]).decode().splitlines()]
        rows, captured = shown(other), shown(path, "-Y", "tcp.port in {7, 9}")
        self.assertEqual({row[8:][n] for row in rows for n in (0, 1)}, {"1"})
        self.assertEqual(sorted(row[1:] for row in rows if row[0] == "captured"), sorted(row[1:] for row in captured))
        beside, alone = [row[1:] for row in rows if row[0] == "reference"], self.folder / "alone.pcap"
        alone.write_bytes(self.joined(path, text))
        server = captured[0][3]
        self.assertEqual(sorted([server if end == "198.18.0.1" else end for end in row] for row in beside), sorted(row[1:] for row in shown(alone)))
        self.assertTrue(all("198.18.0.1" in (row[0], row[2]) for row in beside))
        self.assertIn(f"sqrun-for-{server}".encode(), other.read_bytes())

    def test_wrong_sums_stay_wrong_beside(self):
        """A client's checksum that is wrong is wrong in both conversations."""
        need("tshark")
        talk = Talk().open().up(0x18, b"hello", wrong=True).down(0x18, b"hello").up().close()
        path = talk.save(self.folder)
        other = self.folder / "both.pcapng"
        other.write_bytes(self.joined(path, sqrun(path), "--beside"))
        wrong = output(["tshark", "-r", other, "-o", "tcp.check_checksum:TRUE", "-Y", "tcp.checksum.status == 0", "-T", "fields", "-e", "frame.interface_name", "-e", "tcp.len"]).decode()
        self.assertEqual(wrong.splitlines(), ["captured\t5", "reference\t5"])

    def test_right_sums_on_a_word(self):
        """Of an offloading client: tshark finds wrong sums without the word, and none with it; nothing else is changed."""
        need("tshark")
        path = self.folder / "offload.pcap"
        rnd, listed = random.Random(4), []
        for at, data in records(7, 300, 5):
            if len(data) >= 40 and data[22:24] in (b"\0\7", b"\0\11") and data[9] == 6 and rnd.random() < .5:
                data = data[:36] + rnd.randbytes(2) + data[38:]
                data = data[:2] + b"\0\0" + data[4:] if rnd.random() < .3 else data
            listed.append((at, data))
        write(path, listed, 101)
        text, wrong = sqrun(path), []
        for words in ((), ("--fix-sums",)):
            (self.folder / "a.pcap").write_bytes(self.joined(path, text, *words))
            wrong.append(output(["tshark", "-r", self.folder / "a.pcap", "-o", "tcp.check_checksum:TRUE", "-Y", "tcp.checksum.status == 0 && tcp.dstport < 10",
                                 "-T", "fields", "-e", "frame.number"]).split())
            lengths = output(["tshark", "-r", self.folder / "a.pcap", "-o", "ip.check_checksum:TRUE", "-Y", "ip.checksum.status == 0", "-T", "fields", "-e", "ip.id"])
            self.assertEqual(lengths.split() if words else [], [])
        self.assertGreater(len(wrong[0]), 20)
        self.assertEqual(wrong[1], [])
        for (at, one), (again, other) in zip(*(packets(self.joined(path, text, *words)) for words in ((), ("--fix-sums",)))):
            size = 4 * (one[0] & 15)
            self.assertEqual((at, one[:size + 16] + one[size + 18:]), (again, other[:size + 16] + other[size + 18:]))

    def test_a_time_past_what_pcap_says(self):
        """A reply's timer behind the end of 2106: refused as pcap, and written as pcapng."""
        path = self.folder / "late.pcap"
        write(path, [(2 ** 32 * 1_000_000 - 1, datagram((0x0a000001, 4_000), (0x0a000002, 7), 5, 0, SYN))], 101)
        path.write_bytes(path.read_bytes() + struct.pack("<IIII", 2 ** 32 - 1, 2 ** 32 - 1, 1, 1) + b"\x60")
        text = sqrun(path)
        self.assertGreater(max(int(at) for at in re.findall(rb"\nreply (\d+)", text)), 2 ** 32 * 1_000_000)
        (self.folder / "a.report").write_bytes(text)
        words = [TOOLS / "sqpcap", "--capture", path, self.folder / "a.report"]
        self.assertIn(b"past what a pcap file can say: --pcapng can", output(words, status=1))
        self.assertEqual(output([*words, "--pcapng"]).count(b"answered by sqrun"), text.count(b"\nreply "))

    def test_faults_name_the_file(self):
        path = captures()[0]
        (self.folder / "a.report").write_bytes(sqrun(path))
        words = [TOOLS / "sqpcap", "--capture", path, self.folder / "a.report"]
        self.assertEqual(output([*words, "-o", "/dev/full"], status=5), b"sqpcap: '/dev/full': No space left on device\n")
        with open("/dev/full", "wb") as full:
            done = subprocess.run(words, stdout=full, stderr=subprocess.PIPE)
        self.assertEqual((done.returncode, done.stderr), (5, b"sqpcap: standard output: No space left on device\n"))

    def test_a_capture_through_a_pipe(self):
        path = captures()[0]
        (self.folder / "a.report").write_bytes(sqrun(path))
        done = subprocess.run(["bash", "-c", f"{TOOLS}/sqpcap --capture <(cat {path}) {self.folder}/a.report"], capture_output=True, check=True)
        self.assertEqual(done.stdout, self.joined(path, sqrun(path)))

    def test_refusals(self):
        path = captures()[0]
        text = sqrun(path)
        (self.folder / "other.pcap").write_bytes(path.read_bytes()[:24])
        for broken, words, line in ((text[:-5], [path], "isn't whole"), (b"", [path], "line 1 isn't"), (text, [self.folder / "other.pcap"], "and "),
                                    (text, [path, "--conn", "99"], "--conn 99: there are"), (text, [path, "--conn", "3-1"], "begins behind its end"), (text, [self.folder / "none"], "No such file"),
                                    (text.replace(b"\nend ", b"\nfin ", 1), [path], "isn't a report's")):
            (self.folder / "a.report").write_bytes(broken)
            said = output([TOOLS / "sqpcap", "--capture", *words, self.folder / "a.report"], status=1).decode()
            self.assertIn(line, said)
            self.assertEqual(said.count("\n"), 1)


if __name__ == "__main__":
    unittest.main()
