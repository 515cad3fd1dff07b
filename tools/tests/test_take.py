"""take: a library with all that it stands on, and a first program beside the door of the squeues. (That rt runs it is tried by hand.)"""
import re
import tempfile
import unittest
from pathlib import Path

from common import TOOLS, TOP, output

LINES = {line.split()[0].rstrip(":"): line for line in (TOP / "crates.txt").read_text().splitlines() if re.match(r"\w", line)}


class Taken(unittest.TestCase):
    def setUp(self):
        folder = tempfile.TemporaryDirectory()
        self.addCleanup(folder.cleanup)
        self.to = Path(folder.name) / "mine"

    def test_the_door(self):
        said = output([TOOLS / "take", "squeue", self.to]).decode()
        lines = (self.to / "crates.txt").read_text().splitlines()[1:]
        names = [line.split()[0].rstrip(":") for line in lines]
        self.assertEqual(lines, [LINES[name] for name in names])
        for line in lines:
            self.assertLessEqual({word for word in line.partition(":")[2].split() if word in LINES}, set(names), line)
        self.assertEqual(sorted(path.name for path in (self.to / "crates").iterdir()), sorted(names))
        self.assertLessEqual({"squeue", "key_counters", "totals", "squeue_arrivals", "arriving_counters", "arrivals"}, set(names))
        for name in names:
            for part in ("src", "specs", "proofs"):
                files = lambda top: {path.relative_to(top): path.read_bytes() for path in top.rglob("*") if path.is_file()}
                self.assertEqual(files(self.to / "crates" / name / part), files(TOP / "crates" / name / part))
        for name in ("totals", "arrivals"):
            self.assertEqual((self.to / "crates" / name / "stdout").read_bytes(), (TOP / "crates" / name / "stdout").read_bytes())
        for name in ("HANDLES", "LICENSE"):
            self.assertEqual((self.to / name).read_bytes(), (TOP / name).read_bytes())
        self.assertIn(f"{len(names)} crates with ", said)
        self.assertIn("crates/totals && rt try", said)
        self.assertIn("crates/arrivals && rt try", said)

    def test_another_library(self):
        output([TOOLS / "take", "perimeter_core", self.to])
        self.assertEqual((self.to / "crates.txt").read_text().splitlines()[1:], [LINES["perimeter_core"]])

    def test_refusals(self):
        self.assertIn(b"no library of crates.txt", output([TOOLS / "take", "sqrun", self.to], status=2))
        self.assertIn(b"error: /proc/x: No such", output([TOOLS / "take", "squeue", "/proc/x"], status=2))
        self.to.mkdir()
        (self.to / "notes").write_text("mine")
        self.assertIn(b"isn't empty", output([TOOLS / "take", "squeue", self.to], status=2))
        self.assertEqual([path.name for path in self.to.iterdir()], ["notes"])


if __name__ == "__main__":
    unittest.main()
