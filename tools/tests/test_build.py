"""./build: each crate is proved once, side by side where none stands on the other, and a kit that can't prove the repository is refused. A
made-up `rt`, which keeps nothing from one folder to the next, stands for the kit's."""
import os
import shutil
import subprocess
import tempfile
import unittest
from pathlib import Path

from common import TOP, need

LOGIC = "dac8208d650f15bf"
RT = """#!/usr/bin/python3
import os, sys
from pathlib import Path
if sys.argv[1] == "version":
    sys.exit(print(os.environ["SAYS"]))
here, top = Path.cwd(), Path.cwd().parents[1]
lines = (line.partition(":") for line in (top / "crates.txt").read_text().splitlines())
below = {name.split()[0]: stands_on.split() for name, _, stands_on in lines}
def prove(name):
    for other in below[name]:
        prove(other)
    stamp = top / "crates" / name / "out" / "rlib" / "stamp"
    if not stamp.exists():
        stamp.parent.mkdir(parents=True)
        stamp.write_text("proved")
        with open(os.environ["PROVED"], "a") as told:
            told.write(name + "\\n")
for name in [here.name] if sys.argv[1] == "lib" else below[here.name]:
    prove(name)
if sys.argv[1] == "lib" and (here / "made.a").exists():
    (here / "out").mkdir(exist_ok=True)
    (here / "out" / f"lib{here.name}.a").write_bytes((here / "made.a").read_bytes())
if sys.argv[1] == "run":
    (here / "out").mkdir(exist_ok=True)
    (here / "out" / here.name).write_text("a program")
"""


class Built(unittest.TestCase):
    def setUp(self):
        folder = tempfile.TemporaryDirectory()
        self.addCleanup(folder.cleanup)
        self.top, self.proved = Path(folder.name) / "checkout", Path(folder.name) / "proved"
        bin = Path(folder.name) / "bin"
        bin.mkdir()
        (bin / "rt").write_text(RT)
        (bin / "rt").chmod(0o755)
        self.path = f"{bin}:{os.environ['PATH']}"
        (self.top / "crates").mkdir(parents=True)
        shutil.copy(TOP / "build", self.top)
        (self.top / "HANDLES").write_text("Handles allowed: none.\n")
        (self.top / "crates.txt").write_text("low:\nleft: low\nright: low\nhigh: left right\nsqrun: high\nanother: low\n")
        for name in ("low", "left", "right", "high", "sqrun", "another"):
            (self.top / "crates" / name).mkdir()

    def build(self, *words, says=f"rattle-kit-13b logic {LOGIC}"):
        its = {**os.environ, "PATH": self.path, "SAYS": says, "PROVED": str(self.proved)}
        return subprocess.run([self.top / "build", *words], capture_output=True, text=True, env=its)

    def test_each_crate_once(self):
        done = self.build("sqrun")
        self.assertEqual(done.returncode, 0, done.stderr)
        self.assertEqual(sorted(self.proved.read_text().split()), ["high", "left", "low", "right"])
        self.assertEqual((self.top / "sqrun").read_text(), "a program")
        self.assertIn("crate 4 of 4: high", done.stdout)

    def test_what_is_built_stays_built(self):
        self.build("sqrun")
        self.proved.write_text("")
        self.assertEqual(self.build("sqrun").returncode, 0)
        self.assertEqual(self.proved.read_text(), "")

    def test_another_kit(self):
        done = self.build("sqrun", says="rattle-kit-12 logic 0123456789abcdef")
        self.assertEqual(done.returncode, 2)
        self.assertIn(f"the proofs are for logic {LOGIC}", done.stderr)
        self.assertFalse(self.proved.exists())

    def test_no_such_program(self):
        self.assertEqual(self.build("sqwalk").returncode, 2)

    def archive(self, end, source):
        """An archive of one object of C."""
        with tempfile.TemporaryDirectory() as folder:
            (Path(folder) / "a.c").write_text(source)
            subprocess.run(["cc", "-fPIC", "-c", "a.c", "-o", f"{end.stem}.o"], cwd=folder, check=True)
            end.parent.mkdir(parents=True, exist_ok=True)
            subprocess.run(["ar", "rcs", end, f"{end.stem}.o"], cwd=folder, check=True)

    def test_a_library_of_c(self):
        """Its crates are proved; the kit's object comes in, and only the crate's names are global."""
        for program in ("cc", "ar", "ld", "objcopy", "nm"):
            need(program)
        shutil.copytree(TOP / "tools" / "parts", self.top / "tools" / "parts", ignore=shutil.ignore_patterns("__pycache__"))
        with open(self.top / "crates.txt", "a") as lines:
            lines.write("sqtcp_c staticlib: left\n")
        self.archive(self.top / "crates" / "sqtcp_c" / "made.a", "void *kit_alloc(unsigned long n);\nvoid *sqtcp_made(void) { return kit_alloc(8); }\n")
        self.archive(self.top.parent / "c" / "liblibc_c.a", "void *malloc(unsigned long n);\nvoid *kit_alloc(unsigned long n) { return malloc(n); }\n")
        done = self.build("libsqtcp")
        self.assertEqual(done.returncode, 0, done.stderr)
        self.assertEqual(sorted(self.proved.read_text().split()), ["left", "low", "sqtcp_c"])
        for words, name in (("-g", "libsqtcp.a"), ("-D", "libsqtcp.so")):
            said = subprocess.run(["nm", words, "--defined-only", self.top / name], capture_output=True, text=True, check=True).stdout
            self.assertEqual([line.split()[2] for line in said.splitlines() if len(line.split()) == 3], ["sqtcp_made"])
        self.assertEqual(sorted(path.name for path in self.top.iterdir() if path.name.startswith("lib")), ["libsqtcp.a", "libsqtcp.so"])


if __name__ == "__main__":
    unittest.main()
