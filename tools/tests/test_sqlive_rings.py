"""Tests of the live server by several rings: what each stream's output gets is what sqlive writes for the same frames."""
import hashlib
import itertools
import os
import shutil
import socket
import struct
import subprocess
import sys
import tempfile
import unittest
from pathlib import Path

from common import TOOLS

sys.path.insert(0, str(TOOLS / "live"))
from frames import HEAD, SERVER, frames_words
from programs import built
from tcp_segments import ACK, FIN, PSH, SYN, segment

SQLIVE = os.environ.get("SQLIVE", built("sqlive"))
AT, SECRET = 1_000_000, bytes(range(16))


def session(client, port, texts):
    """The datagrams of a client that sends these texts to the echo service, acknowledges what comes back, and closes."""
    source, server = socket.inet_aton(client), socket.inet_aton(SERVER)
    found = hashlib.sha256(SECRET + server + struct.pack(">H", 7) + source + struct.pack(">H", port)).digest()
    seq, ack = port, (AT // 4 + struct.unpack(">I", found[:4])[0] + 1) % 2**32
    yield segment(source, port, server, 7, seq, 0, SYN, options=b"\2\4\5\xb4")
    seq += 1
    for text in texts:
        yield segment(source, port, server, 7, seq, ack, PSH | ACK, text=text)
        seq, ack = seq + len(text), ack + len(text)
    yield segment(source, port, server, 7, seq, ack, FIN | ACK)
    yield segment(source, port, server, 7, seq + 1, ack + 1, ACK)


def frames(stream, conns=6, texts=8):
    """The frames of some sessions at once, with the time alone in between."""
    sessions = [session(f"10.9.0.{3 + stream}", 20000 + i, [bytes([65 + i]) * (1 + 97 * n) for n in range(texts)]) for i in range(conns)]
    rounds = itertools.zip_longest(*sessions)
    return b"".join(HEAD.pack(len(body), AT) + body for bodies in rounds for body in (*filter(None, bodies), b""))


@unittest.skipUnless(os.path.exists(SQLIVE), "no sqlive (SQLIVE)")
class Streams(unittest.TestCase):
    def serve(self, inputs, rings, squeues=1, mode="process", budget=64):
        """The status, and what each output got."""
        with tempfile.TemporaryDirectory() as folder:
            ends = [(Path(folder, f"in.{k}"), Path(folder, f"out.{k}")) for k in range(rings)]
            for (path, _), text in zip(ends, inputs):
                path.write_bytes(text)
            files = [str(path) for pair in ends for path in pair]
            words = ["--rings", str(rings), "--squeues", str(squeues), "--mode", mode, "--budget", str(budget), *frames_words(), *files]
            ran = subprocess.run([SQLIVE, *words], capture_output=True, timeout=60)
            return ran.returncode, [path.read_bytes() if path.exists() else b"" for _, path in ends]

    def test_the_stored_run(self):
        """What the gate runs, with its bytes: there a program may not open its own output, so the gate itself sees the status alone."""
        crate = TOOLS.parent / "crates" / "sqlive_on_rings"
        with tempfile.TemporaryDirectory() as folder:
            shutil.copy(crate / "data" / "in.0", folder)
            ran = subprocess.run([SQLIVE, *(crate / "args").read_text().split()], capture_output=True, cwd=folder, timeout=60)
            self.assertEqual((ran.returncode, Path(folder, "out.0").read_bytes()), (0, (crate / "data" / "answers.0").read_bytes()))

    def by_one_thread(self, text):
        return subprocess.run([SQLIVE, *frames_words()], input=text, capture_output=True, timeout=60).stdout

    def test_each_output_is_that_of_one_thread(self):
        inputs = [frames(k) for k in range(4)]
        wanted = [self.by_one_thread(text) for text in inputs]
        self.assertTrue(all(len(text) > 10_000 for text in wanted))
        for rings, squeues, mode, budget in itertools.product((1, 2, 4), (1, 3), ("process", "fill", "nodrain"), (1, 64)):
            with self.subTest(rings=rings, squeues=squeues, mode=mode, budget=budget):
                self.assertEqual(self.serve(inputs, rings, squeues, mode, budget), (0, wanted[:rings]))

    def test_a_fault_ends_its_own_stream_alone(self):
        whole = frames(0)
        for bad, status in ((whole[:-1], 6), (whole + b"\xff" * 16, 6)):
            with self.subTest(status=status, length=len(bad)):
                self.assertEqual(self.serve([bad, frames(1)], 2), (status, [self.by_one_thread(bad), self.by_one_thread(frames(1))]))

    def test_words_that_are_none(self):
        for words in ([], ["--rings", "0"], ["--rings", "1", "--squeues", "1", "--mode", "process", "--budget", "1", *frames_words(), "one"]):
            self.assertEqual(subprocess.run([SQLIVE, *words], capture_output=True, timeout=60).returncode, 2)
