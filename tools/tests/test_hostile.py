"""hostile: a good program passes its rows, and a program that hides a fault fails them."""
import os
import subprocess
import tempfile
import unittest
from pathlib import Path

from common import SQRUN, TOOLS, need

CARELESS = r"""
#include <stdio.h>
#include <stdlib.h>
#include <string.h>
#include <unistd.h>
int main(void)
{
    static char data[1 << 16];
    long size = 0, got;
    while ((got = read(0, data + size, 1000)) > 0)
        size += got;
    char *out = malloc(200);
    int length = out ? sprintf(out, "report 1\nrecords 0 tail 0 size %ld\ndone\n", size) : 0;
    if (!out || write(1, out, length) != length)
        return 0;
    return 0;
}
"""


class Hostile(unittest.TestCase):
    def setUp(self):
        need("cc")
        folder = tempfile.TemporaryDirectory()
        self.addCleanup(folder.cleanup)
        self.folder = Path(folder.name)

    def table(self, program, *rows):
        done = subprocess.run([TOOLS / "hostile", "--sqrun", program, *rows], capture_output=True, text=True)
        self.told = done.stderr
        return done.returncode, done.stdout if done.returncode < 2 else done.stderr

    def test_sqrun_passes(self):
        if not os.access(SQRUN, os.X_OK):
            self.skipTest("no sqrun: run ./build, or name it by SQRUN")
        status, said = self.table(SQRUN, "memory five_segment_echo fill", "memory traced fill", "memory untold fill", "reads fill", "writes fill", "steps fill", "ends fill", "signals fill")
        self.assertEqual(status, 0, said)
        self.assertRegex(said, r"\n\d rows passed, 0 failed, 0 known to fail, \d skipped\n$")

    def careless(self):
        (self.folder / "careless.c").write_text(CARELESS)
        subprocess.run(["cc", "-o", self.folder / "careless", self.folder / "careless.c"], check=True)
        return self.folder / "careless"

    def test_a_careless_program_fails(self):
        rows = ["memory four sessions fill", "memory untold fill", "reads fill", "writes fill", "steps fill", "ends fill", "signals fill", "vanished clients fill"]
        status, said = self.table(self.careless(), *rows)
        self.assertEqual(status, 1, said)
        self.assertIn("\n0 rows passed, 8 failed, 0 known to fail, 0 skipped\n", said)
        self.assertEqual(sorted(line for line in self.told.splitlines() if "without any proof" not in line), sorted(f"begins: {row}" for row in rows))

    def test_a_careless_checker_fails(self):
        """In the place of sqreplay and sqmore, a program that always says the same."""
        if not os.access(SQRUN, os.X_OK):
            self.skipTest("no sqrun: run ./build, or name it by SQRUN")
        status, said = self.table(SQRUN, "--sqreplay", self.careless(), "--sqmore", self.careless(), "sqreplay", "sqmore")
        self.assertEqual(status, 1, said)
        self.assertIn("\n0 rows passed, 12 failed, 0 known to fail, 0 skipped\n", said)

    def test_what_has_no_time_is_told(self):
        status, said = self.table(self.careless(), "--minutes", "0", "reads", "writes fill")
        self.assertEqual((status, said.count("LEFT OUT, for want of time\n")), (0, 5))
        self.assertIn("\n0 rows passed, 0 failed, 0 known to fail, 0 skipped, 5 left out for want of time (--minutes)\n", said)

    def test_the_other_programs_are_skipped_where_they_are_not(self):
        status, said = self.table(self.careless(), "--sqreplay", self.folder / "none", "sqreplay inputs")
        self.assertEqual(status, 0)
        self.assertEqual(said.count("skipped: no "), 2)

    def test_no_program(self):
        status, said = self.table(self.folder / "none")
        self.assertEqual(status, 2)
        self.assertIn("run ./build", said)


if __name__ == "__main__":
    unittest.main()
