"""Tests of the live server's tools: datagrams written and read again, what is counted, and a few cases of live_test where they can run."""
import contextlib
import ctypes
import io
import ipaddress
import json
import os
import random
import re
import resource
import shutil
import signal
import socket
import stat
import struct
import subprocess
import sys
import tempfile
import threading
import time
import unittest
from importlib.machinery import SourceFileLoader
from pathlib import Path
from unittest import mock

from common import TOOLS, TOP, need

sys.path.insert(0, str(TOOLS / "live"))
import ends_log
import floods
import http_model
import meanings
import orders
import pages
import resets
import rings
import seen
import status
import tcp_segments
import wire
from compiled import compiled
from programs import built
from tcp_segments import ACK, FIN, PSH, RST, SYN

live_test = SourceFileLoader("live_test", str(TOOLS / "live_test")).load_module()

CLIENT, SERVER = b"\x0a\x09\0\1", b"\x0a\x09\0\2"
SQLIVE = os.environ.get("SQLIVE", built("sqlive"))


class Packets(unittest.TestCase):
    def test_what_is_written_is_read(self):
        for text, options in ((b"", b""), (b"odd", b"\2\4\5\xb4"), (bytes(1460), b"\3\3\7")):
            found = tcp_segments.read(tcp_segments.segment(CLIENT, 40000, SERVER, 7, 2**32 + 5, 9, tcp_segments.PSH | tcp_segments.ACK, text=text, options=options))
            self.assertEqual((found.source, found.source_port, found.target, found.target_port), (CLIENT, 40000, SERVER, 7))
            self.assertEqual((found.seq, found.ack, found.flags, found.text), (5, 9, tcp_segments.PSH | tcp_segments.ACK, text))

    def test_a_wrong_sum_is_seen(self):
        datagram = bytearray(tcp_segments.segment(CLIENT, 40000, SERVER, 7, 5, 9, tcp_segments.ACK, text=b"text"))
        datagram[-1] ^= 1
        with self.assertRaises(AssertionError):
            tcp_segments.read(bytes(datagram))

    def test_spoofed(self):
        for number in (0, 1, 249, 250, 65535, 65536, 123456, 15_999_999):
            found = tcp_segments.read(floods.spoofed(number))
            self.assertEqual((found.source[3], found.source_port, found.seq, found.flags), (3 + number % 250, 1024 + number // 250, number, SYN))


class Deadlines(unittest.TestCase):
    """Text sent at once, and again at one second: only there, and only between close segments, may a report lack it."""
    def test_what_may_be_sent_live_alone(self):
        def client(at):
            return False, at, tcp_segments.segment(CLIENT, 40000, SERVER, 7, 5, 100, tcp_segments.ACK)

        def ours(at, seq=100, text=b"text"):
            return True, at, tcp_segments.segment(SERVER, 7, CLIENT, 40000, seq, 5, tcp_segments.ACK, text=text)

        for reply, behind, alone in ((ours(1_005_000), 99_999, True), (ours(1_005_000), 100_000, False), (ours(1_005_000), 9_000, False),
                                     (ours(1_005_000, text=b""), 99_999, False), (ours(1_005_000, seq=104), 99_999, False)):
            records = [client(0), ours(100), client(990_000), reply, client(990_000 + behind)]
            self.assertEqual(live_test.is_by_deadline_alone(records, 3), alone)


class Counted(unittest.TestCase):
    """What `status` tells of connections, by the segments that open or end one."""
    def setUp(self):
        self.connections = seen.Connections(ipaddress.ip_address(SERVER), (7, 9))

    def comes(self, flags, seq=1, client=40000, port=7, ack=10):
        self.connections.see(tcp_segments.segment(CLIENT, client, SERVER, port, seq, ack, flags))

    def goes(self, flags, client=40000, port=7):
        self.connections.see(tcp_segments.segment(SERVER, port, CLIENT, client, 9, 0, flags))

    def assert_counted(self, **wanted):
        self.assertEqual(self.connections.facts(), {"asked": 0, "opened": 0, "open": 0, "refused": 0, "resets_in": 0, "resets_out": 0, **wanted})

    def test_a_connection(self):
        for _ in range(2):
            self.comes(SYN)
            self.goes(SYN | ACK)
        self.assert_counted(asked=1)
        self.comes(ACK)
        self.assert_counted(asked=1, opened=1, open=1)
        self.comes(FIN | ACK)
        self.assert_counted(asked=1, opened=1, open=1)
        self.goes(FIN | ACK)
        self.goes(FIN | ACK)
        self.assert_counted(asked=1, opened=1)

    def test_between_the_same_ends(self):
        for seq in (1, 2):
            self.comes(SYN, seq)
            self.goes(SYN | ACK)
            self.comes(ACK, seq + 1)
        self.assert_counted(asked=2, opened=2, open=1)

    def test_half_open(self):
        """Neither a SYN that is answered nor a segment that acknowledges something else opens a connection."""
        for client in range(100):
            self.comes(SYN, client=client)
            self.goes(SYN | ACK, client=client)
            self.comes(ACK, client=client, ack=9)
            self.comes(ACK, client=client, ack=10 + 65536)
        self.assert_counted(asked=100)

    def test_a_third_segment_with_text(self):
        """It isn't seen; the next one without text shows the connection, and so does the server's FIN."""
        for client in (1, 2):
            self.comes(SYN, client=client)
            self.goes(SYN | ACK, client=client)
        self.comes(ACK, client=1, ack=10 + 65535)
        self.assert_counted(asked=2, opened=1, open=1)
        self.goes(FIN | ACK, client=2)
        self.assert_counted(asked=2, opened=2, open=2)

    def test_other_ports(self):
        self.connections = seen.Connections(ipaddress.ip_address(SERVER), (7007,))
        for port in (7, 7007):
            self.comes(SYN, port=port)
            self.goes(RST | ACK, port=port)
        self.assert_counted(asked=1, refused=1, resets_out=1)

    def test_resets(self):
        for port in (7, 80):
            self.comes(SYN, port=port)
            self.goes(RST | ACK, port=port)
        self.assert_counted(asked=1, refused=1, resets_out=1)
        self.comes(SYN, seq=5)
        self.goes(SYN | ACK)
        self.comes(ACK)
        self.comes(RST)
        self.assert_counted(asked=2, opened=1, refused=1, resets_out=1, resets_in=1)

    def test_the_log(self):
        """A line for each connection that was open, when it ends."""
        with tempfile.NamedTemporaryFile() as log:
            self.connections = seen.Connections(ipaddress.ip_address(SERVER), (7, 9), ends_log.Log(log.name))
            for client in range(1, 6):
                self.comes(SYN, client=client)
                self.goes(SYN | ACK, client=client)
                if client != 5:
                    self.comes(ACK, client=client)
            self.comes(FIN | ACK, client=1)
            self.goes(FIN | ACK, client=1)
            self.comes(RST, client=2)
            self.goes(RST, client=3)
            self.connections.finish()
            log.seek(0)
            lines = [line.split() for line in log.read().decode().splitlines()]
        self.assertEqual([(client, port, how) for _, client, port, _, how in lines],
                         [(f"{socket.inet_ntoa(CLIENT)}:{n}", "7", how) for n, how in enumerate(("closed", "reset-by-client", "reset-by-server", "left-open"), 1)])
        for at, _, _, seconds, _ in lines:
            self.assertRegex(at, r"^\d{4}-\d\d-\d\dT\d\d:\d\d:\d\d\.\d{3}Z$")
            self.assertLess(float(seconds), 60)

    def test_nobody_is_kept_for_ever(self):
        self.connections.MOST = 3
        for client in range(5):
            self.comes(SYN, client=client)
            self.goes(SYN | ACK, client=client)
            self.comes(ACK, client=client)
        self.assert_counted(asked=5, opened=5, open=3)
        self.assertEqual(len(self.connections.known), 3)


class Logs(unittest.TestCase):
    """The file of a log, whose lines are those of connections that end."""
    ENDS = CLIENT + struct.pack(">HH", 40000, 7)
    LINE = r"\d{4}-\d\d-\d\dT\d\d:\d\d:\d\d\.\d{3}Z 10\.9\.0\.1:40000 7 \d+\.\d{3} closed\n"

    def setUp(self):
        folder = tempfile.TemporaryDirectory()
        self.addCleanup(folder.cleanup)
        self.path = Path(folder.name, "log")

    def tell(self, log, count=1):
        with contextlib.redirect_stderr(io.StringIO()) as said:
            for _ in range(count):
                log.tell(self.ENDS, time.monotonic(), "closed")
        return said.getvalue()

    def assert_lines(self, count, begins="", path=None):
        self.assertRegex((path or self.path).read_text(), f"^{begins}({self.LINE}){{{count}}}$")

    def test_whose_end_is_no_line(self):
        """Such a file is somebody else's, and stays as it is."""
        self.tell(ends_log.Log(self.path), 2)
        line = self.path.read_bytes().splitlines(True)[0]
        for other in (struct.pack("<IHHIIII", 0xA1B2C3D4, 2, 4, 0, 0, 65535, 101), b"text\n", b"text", b"\n", line + b"text\n", line + b"text", line + b"\n", b"7" * 200, line + bytes(9)):
            self.path.write_bytes(other)
            self.assertRaisesRegex(ends_log.NoLog, "no line of a log", ends_log.Log, self.path)
            self.assertEqual(self.path.read_bytes(), other)

    def test_a_line_that_was_cut(self):
        """It stays, and the next one is a line of its own; nothing is written before there is one."""
        for before in ("", "2026-12-01T19:45:31.011Z 10.9.0.1:56548 7 0.000 closed\n"):
            for cut in ("2", "2026-12-01T19:45:31.0", "2026-12-01T19:45:31.011Z 10.9.0.1:56548 7 0.000 closed"):
                self.path.write_text(before + cut)
                log = ends_log.Log(self.path)
                self.assertEqual(self.path.read_text(), before + cut)
                self.assertEqual(self.tell(log, 2), "")
                self.assert_lines(2, re.escape(f"{before}{cut}\n"))

    def test_a_full_disk(self):
        """No line is cut; the log goes on when there is space again, and both are told once."""
        log, limits = ends_log.Log(self.path), resource.getrlimit(resource.RLIMIT_FSIZE)
        self.tell(log, 2)
        resource.setrlimit(resource.RLIMIT_FSIZE, (self.path.stat().st_size + 20, limits[1]))
        try:
            self.assertEqual(self.tell(log, 3), "sqlive: the log can't be written: File too large\n")
        finally:
            resource.setrlimit(resource.RLIMIT_FSIZE, limits)
        self.assert_lines(2)
        self.assertEqual(self.tell(log, 2), "sqlive: the log goes on; it lacks 3 lines\n")
        self.assert_lines(4)
        self.assertEqual(log.lacks, 3)

    def test_one_that_is_moved(self):
        """The next line begins a new file at its name."""
        log, moved = ends_log.Log(self.path), self.path.with_name("log.1")
        self.tell(log, 2)
        self.path.rename(moved)
        self.assertEqual(self.tell(log, 3), "")
        self.assert_lines(3)
        self.assert_lines(2, path=moved)
        moved.replace(self.path)
        self.tell(log)
        self.assert_lines(3)

    def test_another_file_in_its_place(self):
        log = ends_log.Log(self.path)
        self.path.unlink()
        self.path.write_text("somebody's\n")
        self.assertRegex(self.tell(log, 2), "^sqlive: the log can't be written: .* no line of a log.*\n$")
        self.assertEqual((self.path.read_text(), log.lacks), ("somebody's\n", 2))


class Resets(unittest.TestCase):
    """What an ended server's clients get, by the connections that were seen, on a device that is a pair of sockets here."""
    def setUp(self):
        self.connections = seen.Connections(ipaddress.ip_address(SERVER), (7, 9))
        self.device, self.clients = socket.socketpair(socket.AF_UNIX, socket.SOCK_DGRAM)
        self.addCleanup(self.device.close)
        self.addCleanup(self.clients.close)
        self.clients.setblocking(False)

    def comes(self, flags, client, seq, ack=0, port=7):
        self.connections.see(tcp_segments.segment(CLIENT, client, SERVER, port, seq, ack, flags))

    def opens(self, client, port=7, answer=99, acked=100):
        self.comes(SYN, client, 1000, port=port)
        self.connections.see(tcp_segments.segment(SERVER, port, CLIENT, client, answer, 1001, SYN | ACK))
        self.comes(ACK, client, 1001, acked, port)

    def written(self, head=b"", most=10, answers=()):
        """What is written to the device, as (port of the client, service, number, acknowledgement, flags), where each round is answered so."""
        rounds = iter(answers)

        class Taps:
            """Shows the next answers behind the first call, which comes before the first round."""
            calls = 0

            def catch_up(taps, until):
                taps.calls += 1
                for client, ack, flags in next(rounds, ()) if taps.calls > 1 else ():
                    self.comes(flags, client, 1001, ack)

        class Clock:
            """No time passes but what is slept."""
            now = 0

            def monotonic(clock):
                return clock.now

            def sleep(clock, seconds):
                clock.now += seconds

        with mock.patch.multiple(resets, ROUND=1, LONGEST=3, time=Clock()):
            resets.reset_all(self.device.fileno(), head, Taps(), self.connections, most)
        found = []
        with contextlib.suppress(BlockingIOError):
            while said := self.clients.recv(2000):
                self.assertEqual(said[:len(head)], head)
                its = tcp_segments.read(said[len(head):])
                self.assertEqual((its.source, its.target, its.text), (SERVER, CLIENT, b""))
                found.append((its.target_port, its.source_port, its.seq, its.ack, its.flags))
        return found

    def test_a_reset_and_a_keep_alive(self):
        """The reset has the number that the client awaits; a keep-alive goes behind it (RFC 9293, 3.8.4), and its reset ends both."""
        for head in (b"", bytes(10)):
            self.opens(1)
            self.assertEqual(self.written(head, answers=[[(1, 0, RST)]]), [(1, 7, 100, 0, RST), (1, 7, 99, 1001, ACK)])

    def test_a_later_number(self):
        """The acknowledgement that answers a keep-alive tells the number that is awaited."""
        self.opens(1, port=7, answer=2**32 - 1, acked=0)
        self.assertEqual(self.written(answers=[[(1, 40, ACK)], [(1, 40, RST)]]),
                         [(1, 7, 0, 0, RST), (1, 7, 2**32 - 1, 1001, ACK), (1, 7, 40, 0, RST), (1, 7, 39, 1001, ACK)])

    def test_who_gets_none(self):
        """A connection that is half open, over, or reset, and whoever is beyond the places; the youngest go first."""
        self.comes(SYN, 1, 1000)
        for client in (2, 3, 4, 5, 6):
            self.opens(client)
        self.comes(FIN | ACK, 2, 1001, 100)
        self.connections.see(tcp_segments.segment(SERVER, 7, CLIENT, 2, 100, 1002, FIN | ACK))
        self.comes(RST, 3, 1001)
        gone = [[(client, 0, RST) for client in (4, 5, 6)]]
        self.assertEqual({client for client, *_ in self.written(most=2, answers=gone)}, {6, 5})
        self.assertEqual(self.written(), [])

    def test_a_client_that_never_answers(self):
        """It is asked so many rounds, and then left."""
        self.opens(1)
        self.assertEqual(self.written(), [(1, 7, 100, 0, RST), (1, 7, 99, 1001, ACK)] * 3)


def captured(told):
    """The time in microseconds and the datagram of each record of a capture, which ends at a whole one."""
    found, at = [], 24
    while at < len(told):
        seconds, part, length, whole = struct.unpack_from("<IIII", told, at)
        assert length == whole and at + 16 + length <= len(told)
        found.append((seconds * 10**6 + part, told[at + 16:at + 16 + length]))
        at += 16 + length
    return found


class Captures(unittest.TestCase):
    """What a capture on one thread holds."""
    def setUp(self):
        self.file = tempfile.NamedTemporaryFile(buffering=0)
        self.addCleanup(self.file.close)
        Path(self.file.name).write_bytes(b"of an earlier run" * 1000)
        seen.begin_capture(self.file.fileno())
        self.capture = seen.Capture(self.file.fileno())
        self.some = [tcp_segments.segment(CLIENT, 40000, SERVER, 7, 5, 9, ACK, text=bytes(size)) for size in (0, 1460, 1460, 0)]

    def told(self):
        return Path(self.file.name).read_bytes()

    def test_what_is_kept(self):
        before = time.time_ns() // 1000
        for datagram in (*self.some, b"no datagram", bytes(40)):
            self.capture.keep(datagram)
        self.capture.write()
        self.assertEqual(self.told()[:24], struct.pack("<IHHIIII", 0xA1B2C3D4, 2, 4, 0, 0, 65535, 101))
        self.assertEqual([datagram for _, datagram in captured(self.told())], self.some)
        self.assertTrue(all(before <= at <= time.time_ns() // 1000 for at, _ in captured(self.told())))
        self.assertEqual(self.capture.lacks, 0)

    def test_a_full_disk(self):
        """It is told once, and the capture ends behind its last whole record."""
        limits = resource.getrlimit(resource.RLIMIT_FSIZE)
        said = io.StringIO()
        resource.setrlimit(resource.RLIMIT_FSIZE, (3000, limits[1]))
        try:
            with contextlib.redirect_stderr(said):
                for datagram in self.some:
                    self.capture.keep(datagram)
                    if datagram is self.some[0] or datagram is self.some[2]:
                        self.capture.write()
        finally:
            resource.setrlimit(resource.RLIMIT_FSIZE, limits)
        self.assertEqual([datagram for _, datagram in captured(self.told())], self.some[:2])
        self.assertEqual((self.capture.lacks, said.getvalue()), (2, "sqlive: the capture ends here: File too large\n"))


class Status(unittest.TestCase):
    """What a launcher tells to whoever asks, by a socket in a folder of the test's own."""
    class Knows:
        def facts(self):
            return {"open": 3, "lost_in": 0}

    def setUp(self):
        folder = tempfile.TemporaryDirectory()
        self.addCleanup(folder.cleanup)
        self.places = [Path(folder.name) / name / "sqlive0" for name in ("first", "other")]
        self.addCleanup(setattr, status, "places", status.places)
        status.places = lambda device: self.places

    def test_who_asks_is_told(self):
        self.assertIsNone(status.facts_of("sqlive0"))
        with status.told("sqlive0", self.Knows()):
            for _ in range(3):
                self.assertEqual(status.facts_of("sqlive0"), {"open": "3", "lost_in": "0"})
            self.assertEqual(stat.S_IMODE(self.places[0].stat().st_mode), 0o666)
        self.assertFalse(self.places[0].exists())
        self.assertIsNone(status.facts_of("sqlive0"))

    def test_what_a_killed_launcher_left(self):
        self.places[0].parent.mkdir()
        with socket.socket(socket.AF_UNIX) as left:
            left.bind(str(self.places[0]))
        self.assertIsNone(status.facts_of("sqlive0"))
        with status.told("sqlive0", self.Knows()):
            self.assertEqual(status.facts_of("sqlive0"), {"open": "3", "lost_in": "0"})

    def test_a_folder_that_cannot_be_written(self):
        self.places[0].parent.write_text("a file")
        with status.told("sqlive0", self.Knows()):
            self.assertTrue(self.places[1].is_socket())
            self.assertEqual(status.facts_of("sqlive0"), {"open": "3", "lost_in": "0"})

    def test_no_place(self):
        """The server serves without it, and a line says so."""
        for place in self.places:
            place.parent.write_text("a file")
        with contextlib.redirect_stderr(io.StringIO()) as said, status.told("sqlive0", self.Knows()):
            self.assertIsNone(status.facts_of("sqlive0"))
        self.assertRegex(said.getvalue(), "^sqlive: it serves without status: .*\n$")

    def test_the_format_of_prometheus(self):
        facts = {"seconds": "1.5", "open": 3, "ring_0_in": 5, "ring_1_in": 7, "answers_200": 2, "answers_other": 1, "connections": 2, "opened_total": 5}
        self.assertEqual(status.exposition("sqlive0", facts), """# HELP sqlive_seconds For how many seconds the server has run.
# TYPE sqlive_seconds counter
sqlive_seconds{device="sqlive0"} 1.5
# HELP sqlive_open Connections that were seen to open, and not to end.
# TYPE sqlive_open gauge
sqlive_open{device="sqlive0"} 3
# HELP sqlive_ring_in Datagrams that a ring was brought.
# TYPE sqlive_ring_in counter
sqlive_ring_in{device="sqlive0",ring="0"} 5
sqlive_ring_in{device="sqlive0",ring="1"} 7
# HELP sqlive_answers_by_status Answers over HTTP by their status.
# TYPE sqlive_answers_by_status counter
sqlive_answers_by_status{device="sqlive0",status="200"} 2
sqlive_answers_by_status{device="sqlive0",status="other"} 1
# HELP sqlive_connections Connections that have a place, half-open ones too.
# TYPE sqlive_connections gauge
sqlive_connections{device="sqlive0"} 2
# HELP sqlive_opened_total Connections that took a place.
# TYPE sqlive_opened_total counter
sqlive_opened_total{device="sqlive0"} 5
""")
        self.assertIn('{device="a\\\\\\"b"}', status.exposition('a\\"b', {"open": 3}))

    def test_what_both_count(self):
        """Names that differ by `_total` alone are one to OpenMetrics: what the launcher saw has a name of its own."""
        told = status.exposition("sqlive0", {"opened": 7, "open": 3, "opened_total": 5})
        self.assertEqual(re.findall(r"(?m)^(sqlive_\w+){", told), ["sqlive_seen_opened", "sqlive_open", "sqlive_opened_total"])
        self.assertEqual(told.count("whose handshake was seen to be over"), 1)

    def test_each_fact_has_a_meaning(self):
        """Each count of the program, and each fact of the launcher."""
        counts = re.findall(r"(?m)^    pub (\w+): u64,$", (TOP / "crates" / "live_server" / "src" / "counts.rt").read_text())
        self.assertEqual(list(meanings.PROGRAMS), [*orders.GAUGES, *(f"{name}_total" for name in counts)])
        self.assertLessEqual({"seconds", "unseen", *seen.device_facts("lo"), *seen.Connections(ipaddress.ip_address(SERVER), ()).facts()}, set(meanings.LAUNCHERS))

    def test_who_reads_the_first_line_alone(self):
        """As `status | head -1` does."""
        with status.told("sqlive0", self.Knows()):
            asked = f"import os, sys; sys.path[:0] = {sys.path!r}; import status; from pathlib import Path; status.places = lambda _: [Path({str(self.places[0])!r})]; " \
                "reads, writes = os.pipe(); os.close(reads); os.dup2(writes, 1); sys.exit(status.tell('sqlive0', False))"
            done = subprocess.run([sys.executable, "-c", asked], capture_output=True, text=True)
        self.assertEqual((done.returncode, done.stderr), (0, ""))

    def test_a_full_disk(self):
        with open("/dev/full", "w") as full:
            done = subprocess.run([TOOLS / "sqlive", "status", "--device", "nowhere"], stdout=full, stderr=subprocess.PIPE, text=True)
            self.assertEqual((done.returncode, done.stderr), (1, "sqlive: no tools/sqlive runs on nowhere in this network namespace\n"))
            with status.told("sqlive0", self.Knows()), contextlib.redirect_stdout(full):
                self.assertEqual(status.tell("sqlive0", False), "sqlive: standard output: No space left on device")

    def test_why_that_is_not_all(self):
        self.assertRegex(status.why_not_all("sqlive0", {}), "no tools/sqlive runs on sqlive0")
        self.assertRegex(status.why_not_all("sqlive0", {"open": "3"}), "told no counts")
        self.assertIsNone(status.why_not_all("sqlive0", {"open": "3", "connections": "3"}))

    def test_only_this_machines_users_may_write_there(self):
        self.doCleanups()
        self.assertEqual([place.parent for place in status.places("sqlive0")][0], Path("/run/sqlive"))
        self.assertTrue(all(place.name.startswith("sqlive0-") and place.is_absolute() for place in status.places("sqlive0")))


class Orders(unittest.TestCase):
    """What the rings of a server tell their host."""
    HOST, SERVER = "127.0.0.1", "127.0.0.2"

    def serve(self, *answers):
        """A server at whose systat each order gets as many answers as it has texts here, and later ones none."""
        try:
            server = socket.socket(socket.AF_INET, socket.SOCK_DGRAM)
            self.addCleanup(server.close)
            server.bind((self.SERVER, orders.SYSTAT))
            orders.bound(self.HOST).close()
        except PermissionError:
            self.skipTest("no right to ports below 1,024")

        def answer():
            for texts in answers:
                order, asks = server.recvfrom(100)
                self.asked.append((order, asks[1] < 1024))
                for text in texts:
                    server.sendto(text, asks)

        self.asked = []
        threading.Thread(target=answer, daemon=True).start()

    def test_all_rings_together(self):
        self.serve([b"connections 1\nopened 2\n"], [b"connections 2\nopened 3\n", b"connections 5\nopened 8\n"])
        self.assertEqual(orders.Counts(self.HOST, self.SERVER, 2).facts(), {"connections": 7, "opened_total": 11})
        self.assertEqual(self.asked, [(b"counts", True)] * 2)

    def test_one_that_does_not_answer(self):
        self.serve([b"connections 1\n"], [], [b"connections 1\n"])
        self.assertEqual(orders.Counts(self.HOST, self.SERVER, 2).facts(), {})

    def test_what_is_no_count(self):
        self.serve([b"connections\n"])
        self.assertEqual(orders.Counts(self.HOST, self.SERVER, 1).facts(), {})

    def test_one_ring_drains(self):
        self.assertEqual(orders.sums([{"draining": 1, "held": 3}, {"draining": 1, "held": 4}]), {"draining": 1, "held": 7})


class Compiled(unittest.TestCase):
    """What is compiled is kept, and needs no compiler any more."""
    def test_it_is_kept(self):
        need("cc")
        with tempfile.TemporaryDirectory() as folder, mock.patch.dict(os.environ, XDG_CACHE_HOME=f"{folder}/cache"):
            source = Path(folder, "answer.c")
            source.write_text("int main(void) { return 3; }")
            first = compiled(source)
            self.assertEqual(subprocess.run([first]).returncode, 3)
            with mock.patch.dict(os.environ, PATH=""):
                self.assertEqual(compiled(source), first)
                source.write_text("int main(void) { return 4; }")
                self.assertRaisesRegex(OSError, "takes a C compiler", compiled, source)
            self.assertEqual(subprocess.run([compiled(source)]).returncode, 4)
            for broken, mode in ((b"x", 0o644), (b"x", 0o755), (b"", 0o755), (first.read_bytes(), 0o644)):
                made = compiled(source)
                made.write_bytes(broken)
                made.chmod(mode)
                self.assertEqual(subprocess.run([compiled(source)]).returncode, 4)
            source.write_text("no C")
            self.assertRaisesRegex(OSError, "can't compile", compiled, source)
            self.assertEqual(len(list(first.parent.iterdir())), 2)


class Queues(unittest.TestCase):
    """queues.c between a pair of sockets, which stands for a queue of the device, and two pipes."""
    HEAD, DEVICE = struct.Struct(">QQ"), struct.Struct("=BBHHHH")
    NEEDS_SUM, TCP = 1, 1

    def start(self, join, capture=None, longest=resource.RLIM_INFINITY):
        need("cc")
        self.device, queue = socket.socketpair(socket.AF_UNIX, socket.SOCK_DGRAM)
        self.device.settimeout(30)
        to_ring, from_ring, self.counts = os.pipe(), os.pipe(), os.memfd_create("counts")
        os.ftruncate(self.counts, 2 * rings.DIRECTION)
        ends, kept = [queue.fileno(), to_ring[1], from_ring[0]], [] if capture is None else [capture]
        words = [int(join), self.counts, *(kept or [-1]), *ends]
        self.program = subprocess.Popen([rings.mover(), *map(str, words)], pass_fds=[self.counts, *kept, *ends], stderr=subprocess.PIPE,
                                        preexec_fn=lambda: resource.setrlimit(resource.RLIMIT_FSIZE, (longest, longest)))
        queue.close()
        for pipe in (to_ring[1], from_ring[0]):
            os.close(pipe)
        self.ring, self.join = (open(to_ring[0], "rb"), open(from_ring[1], "wb")), join
        self.addCleanup(self.end)

    def end(self):
        for end in self.ring:
            end.close()
        self.program.kill()
        self.program.wait()
        self.program.stderr.close()
        self.device.close()
        os.close(self.counts)

    def comes(self, datagram, *head):
        """A datagram of the device, and the frame that the ring gets for it."""
        self.device.send((self.DEVICE.pack(*head) if self.join else b"") + datagram)
        while True:
            length, self.time = self.HEAD.unpack(self.ring[0].read(16))
            self.assertGreater(self.time, 0)
            if length:
                return self.ring[0].read(length)

    def goes(self, *datagrams):
        self.ring[1].write(b"".join(self.HEAD.pack(len(datagram), 5) + datagram for datagram in datagrams))
        self.ring[1].flush()

    def got(self):
        """The head and the datagram that the device gets next."""
        said = self.device.recv(1 << 17)
        return (self.DEVICE.unpack(said[:10]), said[10:]) if self.join else (None, said)

    def segment(self, at, text, flags=ACK, **fields):
        return tcp_segments.segment(SERVER, 7, CLIENT, 40000, 100 + at, 5, flags, text=text, **fields)

    def test_each_datagram(self):
        self.start(join=False)
        some = [self.segment(0, b"one"), self.segment(3, b"two"), b"no datagram", self.segment(6, bytes(1460))]
        for datagram in some:
            self.assertEqual(self.comes(datagram), datagram)
        self.goes(*some, b"", some[0])
        for datagram in (*some, some[0]):
            self.assertEqual(self.got(), (None, datagram))
        counts = os.pread(self.counts, 128, 0)
        self.assertEqual(struct.unpack_from("QQQ", counts), (4, sum(map(len, some)), 0))

    def test_a_capture(self):
        """What is brought stands in the capture with the time of its frame; what is no TCP doesn't."""
        with tempfile.NamedTemporaryFile(buffering=0) as capture:
            seen.begin_capture(capture.fileno())
            self.start(join=False, capture=capture.fileno())
            some = [self.segment(0, b"one"), b"no datagram", self.segment(3, bytes(1460))]
            brought = [(self.comes(datagram), self.time)[1] for datagram in some]
            self.goes(some[0])
            self.got()
            self.program.terminate()
            self.ring[1].close()
            self.assertEqual(self.program.wait(30), 0)
            found = captured(Path(capture.name).read_bytes())
        self.assertEqual([datagram for _, datagram in found], [some[0], some[2], some[0]])
        self.assertEqual([at for at, _ in found[:2]], [brought[0], brought[2]])

    def test_a_full_disk(self):
        """It is told once, and by the status; the capture ends behind its last whole record, and datagrams are moved as before."""
        with tempfile.NamedTemporaryFile(buffering=0) as capture:
            seen.begin_capture(capture.fileno())
            self.start(join=False, capture=capture.fileno(), longest=3000)
            some = [self.segment(0, bytes(size)) for size in (0, 1460, 1460, 0)]
            self.assertEqual([self.comes(datagram) for datagram in some], some)
            self.goes(some[0])
            self.assertEqual(self.got(), (None, some[0]))
            self.program.terminate()
            self.ring[1].close()
            self.assertEqual((self.program.wait(30), self.program.stderr.read()), (1, b"sqlive: the capture ends here: File too large\n"))
            self.assertEqual([datagram for _, datagram in captured(Path(capture.name).read_bytes())], some[:2])

    def test_the_time_alone(self):
        before = time.time_ns() // 1000
        self.start(join=True)
        times = [self.HEAD.unpack(self.ring[0].read(16)) for _ in range(4)]
        self.assertTrue(all(length == 0 for length, _ in times) and times == sorted(times), times)
        self.assertTrue(before <= times[0][1] <= times[-1][1] <= time.time_ns() // 1000, times)

    def test_one_time_at_once(self):
        """A ring that takes nothing gets one frame with the time alone, and datagrams; the next time comes once it took that one. In half a second there
        would be 25."""
        self.start(join=False)
        some, lengths = self.segment(0, b"one"), []
        for turn in range(1, 4):
            time.sleep(0.17)
            self.device.send(some)
            while lengths.count(len(some)) < turn:
                read, at = self.ring[0].raw.read(1 << 16), 0
                while at < len(read):
                    lengths.append(self.HEAD.unpack_from(read, at)[0])
                    at += 16 + lengths[-1]
        self.assertLess(lengths.count(0), 10)

    def test_a_pause(self):
        """After a pause the time that is told runs twice as fast as the clock, until it has caught up."""
        self.start(join=True)
        told = [self.HEAD.unpack(self.ring[0].read(16))[1] for _ in range(5)][-1]
        self.program.send_signal(signal.SIGSTOP)
        time.sleep(2)
        resumed = time.time_ns() // 1000
        self.program.send_signal(signal.SIGCONT)
        late = 2_000_000
        while late > 100_000:
            next_told, now = self.HEAD.unpack(self.ring[0].read(16))[1], time.time_ns() // 1000
            self.assertTrue(told <= next_told <= told + 250_000 + 2 * (now - resumed), (told, next_told, now - resumed))
            late = now - next_told
            self.assertLess(now - resumed, 10_000_000, late)

    def test_an_open_sum(self):
        self.start(join=True)
        for text in (b"", b"odd", bytes(range(256)) * 200):
            whole = self.segment(0, text, PSH | ACK)
            of_ends = tcp_segments.inet_sum(whole[12:20] + struct.pack(">HH", 6, len(whole) - 20)) ^ 0xFFFF
            left_open = whole[:36] + struct.pack(">H", of_ends) + whole[38:]
            self.assertEqual(self.comes(left_open, self.NEEDS_SUM, self.TCP, 40, 1460, 20, 16), whole)
            self.assertEqual(self.comes(whole, 0, 0, 0, 0, 0, 0), whole)

    def cut_again(self, head, datagram):
        """The segments that the kernel cuts a joined one into."""
        needs, kind, length, size, start, offset = head
        if not needs:
            self.assertEqual(head, (0,) * 6)
            return [datagram]
        self.assertEqual((kind, length, start, offset), (self.TCP, 40, 20, 16))
        whole = self.segment(int.from_bytes(datagram[24:28], "big") - 100, datagram[40:], datagram[33])
        self.assertEqual((datagram[:36], datagram[38:]), (whole[:36], whole[38:]))
        self.assertEqual(struct.unpack(">H", datagram[36:38])[0], tcp_segments.inet_sum(datagram[12:20] + struct.pack(">HH", 6, len(datagram) - 20)) ^ 0xFFFF)
        found, text = tcp_segments.read(whole), datagram[40:]
        parts = [text[at:at + size] for at in range(0, len(text), size)]
        return [self.segment(found.seq - 100 + place * size, part, found.flags if place + 1 == len(parts) else ACK) for place, part in enumerate(parts)]

    def test_what_is_joined(self):
        """Whatever is joined is the same segments again when it is cut; and rows end where they have to."""
        self.start(join=True)
        full, text = 1460, random.Random(1).randbytes(1460)
        row = [self.segment(full * i, text) for i in range(20)]
        last = self.segment(full * 20, text[:100], PSH | ACK)
        for datagrams, many in ((row, 1), ([*row, last], 1),
                                ([*row, last, self.segment(full * 20 + 100, text)], 2),
                                ([row[0], row[2]], 2), ([row[0], row[0]], 2),
                                ([self.segment(0, text, PSH | ACK), row[1]], 2),
                                ([self.segment(0, text[:9]), self.segment(9, text)], 2),
                                ([row[0], self.segment(full, text, window=9)], 2),
                                ([row[0], self.segment(full, text, FIN | ACK)], 2),
                                ([row[0], self.segment(full, b"")], 2),
                                ([self.segment(full * i, text) for i in range(60)], 2),
                                ([self.segment(0, b"", SYN | ACK, options=b"\2\4\5\xb4"), self.segment(1, text)], 2),
                                ([row[0], self.segment(full, text, options=b"\3\3\7\0")], 2),
                                ([bytes(40), bytes(41)], 2)):
            self.goes(*datagrams)
            joined = [self.got() for _ in range(many)]
            self.assertEqual([segment for head, datagram in joined for segment in self.cut_again(head, datagram)], datagrams)

    def test_what_is_no_frame(self):
        self.start(join=True)
        self.ring[1].write(b"\xff" * 16)
        self.ring[1].flush()
        self.assertEqual(self.program.wait(30), 0)
        self.assertEqual(self.program.stderr.read(), b"sqlive: what ring 0 writes is no frame\n")

    def test_its_end(self):
        """SIGTERM ends the ring's input; where its output ends too, so does the program."""
        self.start(join=True)
        self.comes(self.segment(0, b"one"), 0, 0, 0, 0, 0, 0)
        self.program.terminate()
        while self.ring[0].read(16):
            pass
        self.goes(self.segment(0, b"late"))
        self.assertEqual(self.got()[1], self.segment(0, b"late"))
        self.ring[1].close()
        self.assertEqual(self.program.wait(30), 0)


class ForAllRings(unittest.TestCase):
    """queues.c with two queues: what is for the whole server comes to both rings."""
    def setUp(self):
        need("cc")
        self.devices, self.rings, self.outputs, ends = [], [], [], []
        for _ in range(2):
            device, queue = socket.socketpair(socket.AF_UNIX, socket.SOCK_DGRAM)
            to_ring, from_ring = os.pipe(), os.pipe()
            self.devices.append(device)
            self.rings.append(open(to_ring[0], "rb"))
            ends += [queue.detach(), to_ring[1], from_ring[0]]
            self.outputs.append(open(from_ring[1], "wb"))
        counts = os.memfd_create("counts")
        os.ftruncate(counts, 4 * rings.DIRECTION)
        self.program = subprocess.Popen([rings.mover(), "0", str(counts), "-1", *map(str, ends)], pass_fds=[counts, *ends])
        for end in (counts, *ends):
            os.close(end)

    def tearDown(self):
        self.program.kill()
        self.program.wait()
        for end in (*self.devices, *self.rings, *self.outputs):
            end.close()

    def next_of(self, ring):
        """The next datagram that a ring gets."""
        while True:
            length, _ = Queues.HEAD.unpack(self.rings[ring].read(16))
            if length:
                return self.rings[ring].read(length)

    def test_who_gets_what(self):
        order = tcp_segments.udp(CLIENT, 1023, SERVER, 11, b"drain")
        too_long = tcp_segments.echo(CLIENT, SERVER, 3, bytes(4) + bytes(28))
        too_long = too_long[:21] + b"\4" + too_long[22:]
        alone = [tcp_segments.udp(CLIENT, 1023, SERVER, 12, b"drain"), tcp_segments.udp(CLIENT, 11, SERVER, 9, b"drain"), tcp_segments.echo(CLIENT, SERVER, 8, bytes(32)),
                 order[:27], tcp_segments.segment(CLIENT, 40000, SERVER, 11, 1, 0, ACK)]
        for datagram in (order, *alone, too_long):
            self.devices[0].send(datagram)
        self.assertEqual([self.next_of(0) for _ in range(7)], [order, *alone, too_long])
        self.assertEqual([self.next_of(1) for _ in range(2)], [order, too_long])
        self.devices[1].send(order)
        self.assertEqual([self.next_of(1), self.next_of(0)], [order, order])


class OnADevice(unittest.TestCase):
    """The launcher with the program, in a network namespace of each test's own."""
    WORDS = TOOLS / "sqlive", "--program", SQLIVE, "--device", "test0", "--grace", "0"

    def setUp(self):
        need("ip")
        if not os.access(SQLIVE, os.X_OK):
            self.skipTest("no sqlive: run ./build sqlive or tools/try-build --fast sqlive, or name it by SQLIVE")
        if os.geteuid() != 0 or not os.path.exists("/dev/net/tun"):
            self.skipTest("a device takes root, and TUN")
        before = os.open("/proc/thread-self/ns/net", os.O_RDONLY | os.O_CLOEXEC)
        self.addCleanup(os.close, before)
        wire.new_namespace()
        self.addCleanup(ctypes.CDLL(None).setns, before, wire.CLONE_NEWNET)

    def start(self, *words, **streams):
        """The launcher, once it serves."""
        launcher = subprocess.Popen([*self.WORDS, *words], **{"stdout": subprocess.PIPE, "stderr": subprocess.PIPE, "text": True, **streams})
        self.addCleanup(self.finish, launcher)
        if launcher.stdout:
            self.assertIn("echo on 10.9.0.2", launcher.stdout.readline())
        return launcher

    @staticmethod
    def finish(launcher):
        launcher.kill()
        launcher.communicate()

    def ended(self, launcher):
        """Its status, and what it says on standard error but for what is built without proof."""
        said = launcher.communicate(timeout=60)[1]
        return launcher.returncode, [line for line in said.splitlines() if "without any proof" not in line]

    @staticmethod
    def program(launcher, place=0):
        """One of the processes that the launcher started: the program, or with rings behind it what moves its datagrams."""
        return int(Path(f"/proc/{launcher.pid}/task/{launcher.pid}/children").read_text().split()[place])

    def echo(self, text=b"text"):
        """A connection that echoes."""
        client = socket.create_connection(("10.9.0.2", 7), timeout=30)
        self.addCleanup(client.close)
        client.sendall(text)
        self.assertEqual(client.recv(100), text)
        return client

    def refused(self, *words):
        """What is said where it doesn't serve."""
        done = subprocess.run([*self.WORDS, *words], capture_output=True, text=True, timeout=60)
        self.assertEqual((done.returncode, done.stdout), (1, ""), words)
        return done.stderr

    def test_no_device(self):
        """It names the cause: another kind of device, one that is in use, or a name that the kernel keeps for itself."""
        self.start()
        for name, why in (("lo", "lo is a device of another kind"), ("test0", "there is a device test0 already, as another tools/sqlive has it"),
                          ("all", "the kernel takes no device of the name all"), ("default", "the kernel takes no device of the name default")):
            for words in ((), ("--rings", "2")):
                self.assertIn(f"no TUN device: {why}", self.refused("--device", name, *words))

    def test_another_way_to_the_server(self):
        subprocess.run(["ip", "route", "add", "10.9.0.2/32", "dev", "lo"], check=True)
        self.assertIn("sqlive: this machine reaches 10.9.0.2 by lo, and not by test0", self.refused())

    def test_who_ended(self):
        """The program, what moves its datagrams, or the device."""
        for words, place, said in (((), 0, "the program was ended by SIGKILL"), (("--rings", "2"), 0, "the program was ended by SIGKILL"),
                                   (("--rings", "2"), 1, "queues.c, which moves datagrams, was ended by SIGKILL")):
            launcher = self.start(*words)
            os.kill(self.program(launcher, place), signal.SIGKILL)
            self.assertEqual(self.ended(launcher), (1, [f"sqlive: {said}"]))
        for words in ((), ("--rings", "2")):
            launcher = self.start(*words)
            subprocess.run(["ip", "link", "del", "test0"], check=True)
            status, told = self.ended(launcher)
            self.assertEqual((status, told[-1]), (1, "sqlive: the device test0 is gone"))

    def test_a_program_that_is_none(self):
        with tempfile.TemporaryDirectory() as folder:
            (none := Path(folder, "none")).write_text("no program")
            none.chmod(0o755)
            done = subprocess.run([*self.WORDS, "--program", none], capture_output=True, text=True)
        self.assertEqual((done.returncode, done.stderr), (1, f"sqlive: {none} can't be started: Exec format error\n"))

    def assert_told(self, **wanted):
        """`status` tells this, or does so soon."""
        for _ in range(100):
            facts = status.facts_of("test0") or {}
            if wanted.items() <= facts.items():
                return
            time.sleep(0.1)
        self.fail(f"{wanted} isn't told, but {facts}")

    def order(self, text, port):
        """An order from a port of the host."""
        with socket.socket(socket.AF_INET, socket.SOCK_DGRAM) as host:
            host.bind(("10.9.0.1", port))
            host.sendto(text, ("10.9.0.2", orders.SYSTAT))

    def test_a_closed_end(self):
        """What stands for standard error then is no file of the launcher's."""
        with tempfile.NamedTemporaryFile() as log:
            launcher = self.start("--log", log.name, preexec_fn=lambda: os.close(2))
            self.assertEqual(os.readlink(f"/proc/{launcher.pid}/fd/2"), os.devnull)
            launcher.terminate()
            self.assertEqual(self.ended(launcher), (0, []))

    def test_a_log_that_lacks_lines(self):
        """It is told, by `status` too, and by the launcher's own."""
        with tempfile.NamedTemporaryFile() as log:
            launcher = self.start("--log", log.name, preexec_fn=lambda: resource.setrlimit(resource.RLIMIT_FSIZE, (10, 10)))
            with self.echo():
                pass
            self.echo()
            self.assert_told(unlogged="1")
            launcher.terminate()
            self.assertEqual(self.ended(launcher), (1, ["sqlive: the log can't be written: File too large", "sqlive: the log lacks 2 lines"]))

    def test_a_drain_of_somebody_else(self):
        """It is told once; counts are nobody's secret, and who has no right is passed over. The launcher's own isn't told."""
        launcher = self.start("--grace", "1")
        for text, port in ((b"counts", 900), (b"drain", 2000), (b"drains", 900), (b"drain", 900), (b"drain", 901)):
            self.order(text, port)
        self.assert_told(draining="1")
        launcher.terminate()
        self.assertEqual(self.ended(launcher), (0, ["sqlive: 10.9.0.1 port 900 told the server to drain, and this launcher didn't"]))
        launcher = self.start("--grace", "1")
        self.echo()
        launcher.terminate()
        self.assertEqual(self.ended(launcher), (0, []))

    def test_ports_that_take_no_right(self):
        Path("/proc/sys/net/ipv4/ip_unprivileged_port_start").write_text("900")
        launcher = self.start()
        launcher.terminate()
        self.assertEqual(self.ended(launcher), (0, ["sqlive: all users of this machine may give the server orders, as to drain: "
                                                    "sysctl net.ipv4.ip_unprivileged_port_start is 900, and not 1024"]))

    def test_words_that_nobody_takes(self):
        """It serves, whatever becomes of its line."""
        reads, closed = os.pipe()
        os.close(reads)
        for output in (open("/dev/full", "w"), open(closed, "w")):
            with output:
                launcher = self.start(stdout=output)
            while not status.facts_of("test0"):
                self.assertIsNone(launcher.poll())
                time.sleep(0.05)
            self.echo()
            launcher.terminate()
            self.assertEqual(self.ended(launcher), (0, []))


    def test_the_log_of_what_the_launcher_resets(self):
        """The client's own reset only answers the launcher's: the server ended first. So it is behind each way of ending, and with rings."""
        for words, end in (((), signal.SIGTERM), (("--grace", "1"), signal.SIGTERM), (("--grace", "30"), signal.SIGINT), ((), signal.SIGKILL), (("--rings", "2"), signal.SIGTERM)):
            with self.subTest(words=words, end=end), tempfile.NamedTemporaryFile() as log:
                launcher = self.start(*words, "--log", log.name)
                with self.echo() as client, self.echo() as resets:
                    resets.setsockopt(socket.SOL_SOCKET, socket.SO_LINGER, struct.pack("ii", 1, 0))
                    resets.close()
                    time.sleep(0.2)
                    if end == signal.SIGKILL:
                        os.kill(self.program(launcher), end)
                    for _ in range(1 if end == signal.SIGTERM else 2):
                        time.sleep(0.2)
                        launcher.send_signal(end if end != signal.SIGKILL else signal.SIGTERM)
                    self.ended(launcher)
                    if not words:
                        self.assertRaises(ConnectionResetError, client.recv, 1)
                self.assertEqual([line.split()[-1] for line in Path(log.name).read_text().splitlines()], ["reset-by-client", "left-open"])


class Launcher(unittest.TestCase):
    def refused(self, *words, files=None):
        """What is said in one line of words that are refused, before a device is opened; the launcher may have so many files."""
        limit = (files,) * 2 if files else resource.getrlimit(resource.RLIMIT_NOFILE)
        program = () if "status" in words else ("--program", "/bin/true")
        done = subprocess.run([TOOLS / "sqlive", *program, *words], capture_output=True, text=True, timeout=60,
                              preexec_fn=lambda: resource.setrlimit(resource.RLIMIT_NOFILE, limit))
        self.assertEqual((done.returncode, done.stdout, done.stderr.count("\n")), (2, "", 1), (words, done.stderr))
        self.assertRegex(done.stderr, "^sqlive: .* [(]--help tells all words[)]\n$")
        return done.stderr

    def test_words_that_are_none(self):
        self.assertIn("--squeues goes with --rings", self.refused("--squeues", "2"))
        self.assertIn("from 1 to 63", self.refused("--rings", "64"))
        for words in (("--rings", "0"), ("--rings", "2", "--mode", "none"), ("--places", "-1"), ("--server", "10.9.0.1"), ("--server", "10.8.0.2"), ("--mtu", "500")):
            self.refused(*words)

    def test_help(self):
        self.assertIn("usage: sqlive", subprocess.run([TOOLS / "sqlive", "--help"], capture_output=True, text=True, check=True).stdout)
        with open("/dev/full", "w") as full:
            done = subprocess.run([TOOLS / "sqlive", "--help"], stdout=full, stderr=subprocess.PIPE, text=True)
        self.assertEqual((done.returncode, done.stderr), (1, "sqlive: standard output: No space left on device\n"))

    def test_words_of_another_mode(self):
        for words, said in (("--follow", "--follow goes with status"), ("--prometheus", "--prometheus goes with status"), ("--single-segments", "--single-segments goes with --rings"),
                            ("--mode fill", "--mode goes with --rings"), ("status --rings 4", "--rings doesn't go with status"), ("status --log zz", "--log doesn't go with status"),
                            ("status --single-segments", "--single-segments doesn't go with status"), ("status --grace 3", "--grace doesn't go with status"),
                            ("status --prometheus --follow", "--prometheus tells all once, and --follow a line each second")):
            self.assertIn(said, self.refused("--device", "lo", *words.split()))

    def test_bounds_are_told(self):
        for words, said in (("--memory 4096", "from 1 to 4095"), ("--idle 4294967296", "from 1 to 4294967295"), ("--places 4294967296", "from 1 to 4294967295"),
                            ("--mtu 1501", "from 576 to 1500"), ("--ttl 0", "from 1 to 255"), ("--ttl 256", "from 1 to 255"), ("--dscp 64", "from 0 to 63"), ("--pings 4294967296", "from 0 to 4294967295"), ("--rings 2 --squeues 64", "from 1 to 63"), ("--rings 2 --budget 0", "from 1 to 4294967295"),
                            ("--rings 2 --places 65537", "at most 65536 with --rings"), ("--rings 2 --conns", "--conns is no more"), ("--device a/b", "no device's name"),
                            ("--device tun%d", "no device's name"), ("--device sixteen.letters0", "no device's name"),
                            ("--capture /nonexistent/run.pcap", "--capture '/nonexistent/run.pcap': nothing can be written there"),
                            ("--capture /", "--capture '/': it is a folder"), ("--log /", "--log '/': it is a folder")):
            self.assertIn(said, self.refused(*words.split()))
        self.assertIn("it takes 56 file descriptors, 5 of them for each ring, and may have 32", self.refused("--rings", "8", files=32))
        self.assertIn("it takes 72 file descriptors, 5 of them for each ring, and may have 64", self.refused("--rings", "8", "--pages", "/", files=64))

    def test_addresses_that_nobody_serves(self):
        """Those whose segments the program drops, and the network's own and its broadcast address."""
        for host, server in (("240.0.0.1/24", "240.0.0.2"), ("0.0.0.1/8", "0.0.0.2"), ("127.0.0.1/8", "127.0.0.2"), ("224.0.0.1/24", "224.0.0.2"), ("10.9.0.0/24", "10.9.0.2"),
                             ("10.9.0.255/24", "10.9.0.2"), ("126.0.0.1/7", "127.0.0.2"), ("127.0.0.1/7", "126.0.0.2"), ("223.0.0.1/3", "255.0.0.2")):
            self.assertIn("no host's address", self.refused("--device", "lo", "--host", host, "--server", server))

    def test_a_capture_that_is_there_is_kept(self):
        with tempfile.NamedTemporaryFile() as capture:
            Path(capture.name).write_text("of another launcher")
            self.assertIn(f"--capture {capture.name} is there, and isn't empty", self.refused("--capture", capture.name, "--log", f"{capture.name}.log"))
            self.assertFalse(os.path.exists(f"{capture.name}.log"))
            self.assertEqual(Path(capture.name).read_text(), "of another launcher")

    def test_one_file_for_both(self):
        """By its name, by links, and where it isn't there yet."""
        with tempfile.TemporaryDirectory() as folder:
            names = [Path(folder, name) for name in ("new", "empty", "link", "hard", "dangling")]
            names[1].touch()
            names[2].symlink_to(names[1])
            names[3].hardlink_to(names[1])
            names[4].symlink_to(names[0])
            for log, capture in ((0, 0), (0, 4), (1, 1), (1, 2), (2, 3)):
                self.assertIn("is written already", self.refused("--device", "lo", "--log", names[log], "--capture", names[capture]))
            self.assertFalse(names[0].exists())

    def test_a_pipe_that_nobody_reads(self):
        with tempfile.TemporaryDirectory() as folder:
            os.mkfifo(pipe := f"{folder}/pipe")
            for word in ("--log", "--capture"):
                self.assertIn(f"{word} {pipe}: no program reads this pipe", self.refused("--device", "lo", word, pipe))

    def test_no_name_of_a_file(self):
        for word in ("--log", "--capture"):
            self.assertIn(f"{word} wants the name of a file, and - is none", self.refused("--device", "lo", word, "-"))

    def test_a_log_grows(self):
        """A launcher that finds no device adds nothing to what is there."""
        with tempfile.NamedTemporaryFile() as log:
            Path(log.name).write_text(of_yesterday := "2026-12-01T19:45:31.011Z 10.9.0.1:56548 7 0.000 closed\n")
            done = subprocess.run([TOOLS / "sqlive", "--program", "/bin/true", "--device", "lo", "--log", log.name], capture_output=True, text=True)
            self.assertEqual((done.returncode, Path(log.name).read_text()), (1, of_yesterday))
        self.assertIn("no TUN device", done.stderr)

    def test_a_file_that_is_no_log(self):
        with tempfile.NamedTemporaryFile() as other:
            Path(other.name).write_bytes(b"of somebody\n")
            self.assertIn(f"--log {other.name}: it ends with no line of a log", self.refused("--device", "lo", "--log", other.name))
            self.assertEqual(Path(other.name).read_bytes(), b"of somebody\n")

    def test_the_unit_file(self):
        need("systemd-analyze")
        with tempfile.TemporaryDirectory() as folder:
            unit = Path(folder, "sqlive.service")
            unit.write_text((TOOLS / "live" / unit.name).read_text().replace("/opt/squeues", str(TOP)))
            done = subprocess.run(["systemd-analyze", "verify", unit], capture_output=True, text=True)
        self.assertEqual((done.returncode, done.stdout + done.stderr), (0, ""))

    def test_no_server_to_ask(self):
        done = subprocess.run([TOOLS / "sqlive", "status", "--device", "nowhere"], capture_output=True, text=True)
        self.assertEqual(done.returncode, 1)
        self.assertIn("no tools/sqlive runs on nowhere", done.stderr)


def spelled(text):
    """What comes, as a row of pages_rows writes it."""
    ends = {"r": b"\r", "n": b"\n", "\\": b"\\"}

    def part(found):
        if found["times"]:
            return found["byte"].encode() * int(found["times"])
        return bytes.fromhex(found["hex"]) if found["hex"] else ends[found["end"]] if found["end"] else found["text"].encode()

    form = r"\\x(?P<hex>..)|\\\*(?P<times>\d{4})(?P<byte>.)|\\(?P<end>.)|(?P<text>[^\\]+)"
    return b"".join(map(part, re.finditer(form, text)))


def told(answer):
    """An answer of the model, as pages_rows tells it."""
    said = [str(answer.status)]
    for name in ("Allow", "Location", "Content-Range", "Connection"):
        if value := answer.fields.get(name.lower().encode()):
            said.append(f"{name}={value.decode()}")
    if answer.status in (200, 206):
        said.append(f"+{len(answer.body)}" if len(answer.body) > 16 else json.dumps(answer.body.decode("latin1")).replace("\\u0000", "\\0"))
    return " ".join(said)


class Pages(unittest.TestCase):
    def setUp(self):
        self.folder = tempfile.TemporaryDirectory()
        self.addCleanup(self.folder.cleanup)
        self.top = Path(self.folder.name)

    def test_a_pack(self):
        """An index page stands for its folder too; what begins with a dot is left out, and told."""
        (self.top / "sub").mkdir()
        (self.top / "sub" / "index.html").write_bytes(b"<p>here")
        (self.top / "a.css").write_bytes(b"")
        (self.top / ".hidden").write_bytes(b"no")
        pack, count, hidden = pages.pack_of(self.top)
        found = http_model.pages_in(pack)
        self.assertEqual((sorted(found), count, len(hidden)), ([b"/a.css", b"/sub/", b"/sub/index.html"], 2, 1))
        self.assertEqual((found[b"/sub/"].body, found[b"/a.css"].kind), (b"<p>here", b"text/css; charset=utf-8"))

    def test_refused_folders(self):
        """No folder, no file, a link that leads out, and a name that isn't UTF-8."""
        (self.top / "none").mkdir()
        for name, target in (("out", "/etc/hostname"), ("folders", "/etc")):
            (self.top / name).mkdir()
            (self.top / name / "link").symlink_to(target)
        (self.top / "bytes").mkdir()
        Path(os.fsdecode(os.fsencode(self.top / "bytes") + b"/\xff")).write_bytes(b"x")
        for name in ("none", "out", "folders", "bytes", "nowhere"):
            with self.assertRaises(pages.Refused, msg=name):
                pages.pack_of(self.top / name)

    def test_the_model(self):
        """What the model answers to the examples of RFC 9112: a whole request, half of one, and one that ends the connection."""
        known = {b"/": http_model.Page(b"text/html", b'"t"', b"hello")}
        asked = b"GET / HTTP/1.1\r\nHost: a\r\n\r\n"
        self.assertEqual([(a.status, a.body, a.keeps) for a in http_model.answers(known, asked * 2 + asked[:9])[0]], [(200, b"hello", True)] * 2)
        self.assertEqual([a.status for a in http_model.answers(known, b"GET / HTTP/1.1\r\n\r\n" + asked)[0]], [400])

    def test_rows_of_requests(self):
        """The model answers to each row as is wanted of the server."""
        folder = TOP / "crates" / "pages_rows"
        known = http_model.pages_in((folder / "data" / "pack").read_bytes())
        said = []
        for line in (folder / "data" / "rows").read_text("ascii").splitlines():
            if line and line[0] != "#":
                name, text = line.split(": ", 1)
                given, over = http_model.answers(known, spelled(text))
                said.append(" ".join([name + ":", *map(told, given), "ends" if over else "stays"]))
        self.assertEqual(said, (folder / "stdout").read_text("ascii").splitlines())

    def test_the_model_of_ranges(self):
        """The forms of RFC 9110, 14.1.2, on a page of 10,000 bytes as in its examples, and what it says of others."""
        body = bytes(k % 251 for k in range(10000))
        known = {b"/": http_model.Page(b"text/html", b'"t"', body)}
        for said, status, part in (
                (b"Range: bytes=0-499", 206, body[:500]), (b"Range: bytes=500-999", 206, body[500:1000]), (b"Range: bytes=-500", 206, body[9500:]),
                (b"Range: bytes=9500-", 206, body[9500:]), (b"Range: bytes=-20000", 206, body), (b"Range: bytes=10000-", 416, None),
                (b"Range: bytes=-0", 416, None), (b"Range: bytes=0-0,-1", 200, body), (b"Range: lines=0-1", 200, body), (b"Range: bytes=2-1", 200, body),
                (b'Range: bytes=0-0\r\nIf-Range: "t"', 206, body[:1]), (b'Range: bytes=0-0\r\nIf-Range: W/"t"', 200, body)):
            (answer,), _ = http_model.answers(known, b"GET / HTTP/1.1\r\nHost: a\r\n" + said + b"\r\n\r\n")
            self.assertEqual((answer.status, answer.body), (status, part), said)


class Live(unittest.TestCase):
    def setUp(self):
        if not os.access(SQLIVE, os.X_OK):
            self.skipTest("no sqlive: run ./build sqlive or tools/try-build --fast sqlive, or name it by SQLIVE")

    def test_the_stored_run(self):
        folder = TOP / "crates" / "sqlive"
        words = (folder / "args").read_text().split()
        done = subprocess.run([SQLIVE, *words], input=(folder / "stdin").read_bytes(), capture_output=True, cwd=folder / "data")
        self.assertEqual((done.returncode, done.stdout), (0, (folder / "stdout").read_bytes()))

    def test_a_cut_input(self):
        folder = TOP / "crates" / "sqlive"
        words = (folder / "args").read_text().split()
        done = subprocess.run([SQLIVE, *words], input=(folder / "stdin").read_bytes()[:-1], capture_output=True, cwd=folder / "data")
        self.assertEqual((done.returncode, done.stderr), (6, b"the input isn't whole frames\n"))

    def test_its_words(self):
        for words in ([], ["frames"], ["frames", "00", "1"], ["frames", "0" * 32, "x"], ["other", "0" * 32, "1"]):
            done = subprocess.run([SQLIVE, *words], capture_output=True, stdin=subprocess.DEVNULL)
            self.assertEqual((done.returncode, done.stdout), (2, b""), words)

    def run_live_test(self, *cases, **environment):
        need("ip")
        if os.geteuid() != 0 or not os.path.exists("/dev/net/tun"):
            self.skipTest("live_test takes root and a TUN device")
        done = subprocess.run([TOOLS / "live_test", *cases], capture_output=True, text=True, env={**os.environ, **environment})
        self.assertEqual(done.returncode, 0, done.stdout + done.stderr)
        return done.stdout

    def test_with_this_machine(self):
        self.run_live_test("short", "full")

    def test_on_rings(self):
        need("cc")
        self.run_live_test("rings-status", "rings-pause", "rings-half-open")

    def test_with_lwip(self):
        need("cc")
        if not os.path.isdir("/usr/include/lwip"):
            self.skipTest("lwIP isn't installed")
        self.assertIn("\n1 cases passed", self.run_live_test("lwip"))

    def test_a_missing_package_is_told(self):
        need("ip")
        with tempfile.TemporaryDirectory() as folder:
            os.symlink(shutil.which("ip"), f"{folder}/ip")
            said = self.run_live_test("lwip", "full", PATH=folder)
        self.assertIn("missing: gcc", said)
        self.assertIn("1 cases passed, 0 failed, 1 skipped", said)
