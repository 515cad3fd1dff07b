"""more-edits: asks rt, on a copy, of the named edits and of no others. A small script stands in for rt here."""
import os
import shutil
import subprocess
import tempfile
import unittest
from pathlib import Path

from common import TOOLS, output

RT = """#!/bin/sh
if [ "$1" = lib ]; then
    basename "$PWD" >> "$SEEN.lib"
    [ "$(cat out/rlib/stamp 2> /dev/null)" = built ] || echo "proved $(basename "$PWD")" >> "$SEEN.lib"
    exit
fi
echo "$2" >> "$SEEN.crates"
ls crates/$2/must-fail > "$SEEN"
for edit in crates/$2/must-fail/*.edit; do
    name=$(basename $edit)
    case $name in
        proved.edit) echo "rt: must-fail $2/$name: NOT REFUSED" ; status=1 ;;
        silent.edit) ;;
        *) echo "rt: must-fail $2/$name: refused, as it must be: note: src/lib.rt:1:1: it is not proved" ;;
    esac
done
exit ${status:-0}
"""


class Edits(unittest.TestCase):
    def setUp(self):
        folder = tempfile.TemporaryDirectory()
        self.addCleanup(folder.cleanup)
        self.top = Path(folder.name) / "repository"
        self.seen = Path(folder.name) / "seen"
        for name, edits in (("low/must-fail", ["gate"]), ("low/more-edits", ["one", "two"]), ("high/more-edits", ["proved"]), ("mid/more-edits", ["silent"])):
            (self.top / "crates" / name).mkdir(parents=True)
            for edit in edits:
                (self.top / "crates" / name / f"{edit}.edit").write_text("file: src/lib.rt\n")
        (self.top / ".gitignore").write_text("crates/*/out/\n")
        (self.top / "crates.txt").write_text("# NAME: what it stands on\nlow:\nmid: low hex\nhigh may_wait=1: mid\n")
        (self.top / "tools").mkdir()
        shutil.copy2(TOOLS / "more-edits", self.top / "tools")
        subprocess.run(["git", "init", "-q", self.top], check=True)
        (Path(folder.name) / "bin").mkdir()
        rt = Path(folder.name) / "bin" / "rt"
        rt.write_text(RT)
        rt.chmod(0o755)
        self.environment = {"PATH": f"{rt.parent}:{os.environ['PATH']}", "SEEN": str(self.seen)}

    def tried(self, *words, status=0):
        return output([self.top / "tools" / "more-edits", *words], status=status, environment=self.environment).decode()

    def test_these_and_no_others(self):
        said = self.tried("low")
        self.assertEqual(self.seen.read_text(), "one.edit\ntwo.edit\n")
        self.assertEqual([line.split(":")[0] for line in said.split("\n")[:2]], ["low one", "low two"])
        self.assertIn("\n2 of 2 refused\n", said)

    def test_all_of_them(self):
        """What was refused stands in the list with the commit, and isn't tried again until the crate or one below it changes."""
        listed = self.top / "tools" / "edits-tried"
        said = self.tried("--all", "--jobs", "2", status=1)
        self.assertEqual(sorted(Path(f"{self.seen}.crates").read_text().split()), ["high", "low", "mid"])
        self.assertEqual([line.split()[:2] for line in listed.read_text().splitlines()[1:]], [["low", "2"]])
        Path(f"{self.seen}.crates").unlink()
        self.tried("--all", status=1)
        self.assertEqual(sorted(Path(f"{self.seen}.crates").read_text().split()), ["high", "mid"])
        (self.top / "crates/low/src").mkdir()
        (self.top / "crates/low/src/lib.rt").write_text("fn f() {}\n")
        Path(f"{self.seen}.crates").unlink()
        self.tried("--all", status=1)
        self.assertIn("low", Path(f"{self.seen}.crates").read_text().split())

    def test_libraries_are_handed_on(self):
        """Lowest first, each once; what is built in this checkout, or in one that is named, comes with its stamp."""
        (self.top / "crates/low/out/rlib").mkdir(parents=True)
        (self.top / "crates/low/out/rlib/stamp").write_text("built")
        self.tried("high", status=1)
        self.assertEqual(Path(f"{self.seen}.lib").read_text().splitlines(), ["low", "mid", "proved mid"])
        Path(f"{self.seen}.lib").unlink()
        self.tried("high", "--built", self.seen.parent, status=1)
        self.assertEqual(Path(f"{self.seen}.lib").read_text().splitlines(), ["low", "proved low", "mid", "proved mid"])

    def test_one_of_them(self):
        self.assertIn("1 of 1 refused", self.tried("low", "two"))
        self.assertEqual(self.seen.read_text(), "two.edit\n")

    def test_the_repository_stays_as_it_was(self):
        before = sorted(self.top.rglob("*"))
        self.tried("low")
        self.assertEqual(sorted(self.top.rglob("*")), before)

    def test_proved_and_silent_edits_fail(self):
        self.tried("high", status=1)
        self.tried("mid", status=1)
        done = subprocess.run([self.top / "tools" / "more-edits", "--all"], capture_output=True, env={**os.environ, **self.environment})
        self.assertEqual(done.returncode, 1)
        for line in (b"high proved: NOT REFUSED", b"mid silent: not tried", b"2 of 4 refused"):
            self.assertIn(line, done.stdout)

    def test_unknown_names(self):
        self.assertIn("crates/low/more-edits has no three", self.tried("low", "three", status=2))
        self.assertIn("crates/none/more-edits has no edit", self.tried("none", status=2))


class Standing(unittest.TestCase):
    def test_each_old_line_stands_once(self):
        """What an edit replaces stands once in its file, as the code is now."""
        for edit in sorted((TOOLS.parent / "crates").glob("*/*-*/*.edit")):
            words = [line.partition(": ") for line in edit.read_text(encoding="utf-8").splitlines()]
            file = next(text for key, _, text in words if key == "file")
            code = (edit.parents[1] / file).read_text(encoding="utf-8")
            for key, _, old in words:
                if key == "old":
                    self.assertEqual(code.count(old), 1, edit)


if __name__ == "__main__":
    unittest.main()
