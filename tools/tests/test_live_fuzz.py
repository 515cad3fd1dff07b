"""live_fuzz: two servers that answer alike differ in nothing, and one that loses a byte is found, with its input."""
import os
import re
import subprocess
import sys
import tempfile
import unittest
from pathlib import Path

from common import TOOLS

sys.path.insert(0, str(TOOLS / "live"))
from programs import built

SQLIVE = os.environ.get("SQLIVE", built("sqlive"))
LOSES = '#!/bin/sh\n"{}" "$@" | head -c -1\n'


class Compared(unittest.TestCase):
    def setUp(self):
        if not os.access(SQLIVE, os.X_OK):
            raise unittest.SkipTest("no sqlive: run ./build sqlive, or name it by SQLIVE")

    def fuzz(self, other):
        return subprocess.run([TOOLS / "live_fuzz", "--count", "4", "--sqlive", SQLIVE, "--rings", "/nonexistent", "--against", other],
                              capture_output=True, text=True)

    def test_alike(self):
        done = self.fuzz(SQLIVE)
        self.assertEqual((done.returncode, done.stdout), (0, "4 inputs, 0 seeds with a difference\n"))

    def test_one_byte_less(self):
        with tempfile.TemporaryDirectory() as folder:
            other = Path(folder) / "loses"
            other.write_text(LOSES.format(os.path.abspath(SQLIVE)))
            other.chmod(0o755)
            done = self.fuzz(other)
        self.assertEqual(done.returncode, 1, done.stdout)
        kept = Path(re.search(r"its input is (\S+)", done.stdout)[1])
        self.assertGreater(kept.stat().st_size, 0)
        kept.unlink()

    def test_nothing_to_compare_with(self):
        done = subprocess.run([TOOLS / "live_fuzz", "--sqlive", SQLIVE, "--rings", "/nonexistent"], capture_output=True, text=True)
        self.assertEqual(done.returncode, 2)
        self.assertIn("nothing to compare sqlive with", done.stderr)


if __name__ == "__main__":
    unittest.main()
