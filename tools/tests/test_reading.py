"""reading: the sums are up to date, the lists the same at each run, and each file stands behind those of its list that it stands on."""
import re
import shutil
import subprocess
import tempfile
import unittest
from pathlib import Path

from common import TOOLS, TOP, output

ROW = re.compile(r'<tr><td>(\d+)<td><a href="\.\./definitions/(\w+)\.html#(\w+)">[^<]*</a><td>(\d+) of (\d+)<td>')


class Lists(unittest.TestCase):
    def setUp(self):
        folder = tempfile.TemporaryDirectory()
        self.addCleanup(folder.cleanup)
        self.top = Path(folder.name)
        shutil.copy2(TOP / "crates.txt", self.top)
        for name in ("docs/READING.md", "tools/reading", "tools/parts/definitions.py"):
            (self.top / name).parent.mkdir(parents=True, exist_ok=True)
            shutil.copy2(TOP / name, self.top / name)
        for part in TOP.glob("crates/*/s[pr]*c*"):
            shutil.copytree(part, self.top / part.relative_to(TOP))
        self.page = self.top / "docs" / "READING.md"
        self.lists = self.top / "api-pages" / "reading"
        output([self.top / "tools" / "reading"])

    def listed(self, name="squeue_run"):
        """By part of a list its rows: crate, file, lines reached, lines."""
        parts = []
        for number, *row in ROW.findall((self.lists / f"{name}.html").read_text()):
            if number == "1":
                parts.append([])
            self.assertEqual(int(number), len(parts[-1]) + 1)
            parts[-1].append(row)
        return parts

    def imports(self, crate, name):
        text = (self.top / "crates" / crate / "specs" / f"{name}.antt").read_text()
        return set(re.findall(r"^use Rattle\.(\w+)\.specs\.(\w+)\.", text, re.M)) - {(crate, name)}

    def test_this_repository_s_sums_are_up_to_date(self):
        self.assertIn(b"up to date", output([TOOLS / "reading", "--check"]))

    def test_what_stands_in_a_module_with_parameters_is_followed(self):
        listed = {(crate, name) for part in self.listed() for crate, name, *_ in part}
        for row in [("ring_quotas", "Fits"), ("perimeter_core", "Legal"), ("histories", "Stays"), ("histories", "Keeping"), ("histories", "Endings")]:
            self.assertIn(row, listed)

    def test_a_name_that_is_not_there_is_an_error(self):
        file = self.top / "crates/ring_quotas/specs/Fits.antt"
        file.write_text(file.read_text().replace("pub record Fits ", "pub record Suits "))
        said = subprocess.run([self.top / "tools" / "reading"], capture_output=True, check=False)
        self.assertEqual(said.returncode, 1)
        self.assertIn(b"reading: Fits is imported from crates/ring_quotas/specs/Fits.antt, and isn't defined there", said.stderr)

    def test_a_call_that_is_gone_is_an_error(self):
        file = self.top / "crates/trace_replay/src/run.rt"
        file.write_text(file.read_text().replace("pub fn replay_run", "pub fn replay_all"))
        said = subprocess.run([self.top / "tools" / "reading"], capture_output=True, check=False)
        self.assertEqual((said.returncode, said.stderr), (1, b"reading: the call replay_run stands in 0 files\n"))

    def test_traits_types_seen_as_values_and_private_types_are_listed(self):
        text = (self.lists / "squeue_run.html").read_text()
        for row in ["<code>Sink</code>, <code>Source</code>", "<code>Served</code>"]:
            self.assertIn(row, text)
        self.assertIn("<code>Ended</code>", (self.lists / "serve_by_key.html").read_text())
        self.assertRegex(text, r"<code>Way</code><td>[1-9]")

    def test_every_type_has_lines(self):
        for path in self.lists.glob("*.html"):
            self.assertNotIn("</code><td>0", path.read_text(), path.name)

    def test_lowest_first(self):
        for path in self.lists.glob("*.html"):
            for part in self.listed(path.stem):
                rows = [(crate, name) for crate, name, *_ in part]
                for at, row in enumerate(rows):
                    self.assertLessEqual(self.imports(*row) & set(rows), set(rows[:at]), (path.stem, row))
        self.assertEqual([row[:2] for row in self.listed()[0]][-1], ["squeue_run", "Ran"])

    def test_sums(self):
        """The sums of the page are those of the lists, whose lines a file has."""
        text = self.page.read_text()
        self.assertEqual(len(re.findall(r"^\| [^–-].* \| \d+ \| [\d,]+ \| \d+ \|$", text, re.M)), len(list(self.lists.glob("*.html"))))
        rows = [row for part in self.listed() for row in part]
        for *_, reached, whole in rows:
            self.assertLessEqual(int(reached), int(whole))
        self.assertIn(f"| {len(rows)} | {sum(int(row[2]) for row in rows):,} |", text)

    def test_check_sees_a_change(self):
        output([self.top / "tools" / "reading", "--check"])
        before = self.page.read_text()
        changed = self.top / "crates" / "ring_quotas" / "specs" / "Fits.antt"
        changed.write_text(changed.read_text().replace("  -- the history", "  -- more\n  -- the history", 1))
        self.assertIn(b"out of date", output([self.top / "tools" / "reading", "--check"], status=1))
        output([self.top / "tools" / "reading"])
        self.assertNotEqual(self.page.read_text(), before)
        output([self.top / "tools" / "reading", "--check"])

    def test_links_lead_somewhere(self):
        for where in re.findall(r"\]\(\.\./([^)#]+)", self.page.read_text()):
            self.assertTrue((TOP / where).exists(), where)


if __name__ == "__main__":
    unittest.main()
