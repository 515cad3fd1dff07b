"""gate-cost: whose work a process is, and what a command costs that looks like the prover. A small script stands in for the kit here."""
import importlib.machinery
import importlib.util
import os
import re
import shutil
import subprocess
import tempfile
import unittest
from pathlib import Path

from common import TOOLS, TOP

import definitions

loader = importlib.machinery.SourceFileLoader("gate_cost", str(TOOLS / "gate-cost"))
gate_cost = importlib.util.module_from_spec(importlib.util.spec_from_loader("gate_cost", loader))
loader.exec_module(gate_cost)

PROVER = ["/opt/rattle/bin/rattle", "build", "--crate-name", "low", "src/lib.rt"]


class Cost(unittest.TestCase):
    def test_whose_work_it_is(self):
        work = gate_cost.work_of
        self.assertEqual(work(PROVER, "/top/crates/low"), ("low", "proofs"))
        self.assertEqual(work([*PROVER, "--test"], "/top/crates/low"), ("low", "tests"))
        self.assertEqual(work(PROVER, "/tmp/rt-edit-12-ab"), ("low", "edits"))
        self.assertEqual(work(["/opt/rattle/bin/rattle-link", "-o", "/top/crates/low/out/low_tests"], "/top/crates/low"), ("low", "tests"))
        self.assertEqual(work(["/top/crates/low/out/low_tests", "one"], "/tmp/empty"), ("low", "tests"))
        self.assertEqual(work(["/top/crates/prog/out/prog.llvm"], "/tmp/empty"), ("prog", "proofs"))
        self.assertIsNone(work(["/usr/bin/python3", "/opt/rattle/bin/rt", "ci"], "/top"))
        self.assertEqual(work([*PROVER[:3], "low_tests", "src/lib.rt"], "/top/crates/low_tests"), ("low_tests", "proofs"))
        self.assertIsNone(work([], "/top"))

    def test_a_kit_whose_gate_takes_no_names(self):
        """It's found out by asking; a crate then goes through the two commands that this kit has."""
        script = '#!/bin/sh\necho "$(basename "$PWD") $*" >> "$SAID"\n[ "$1 $2" = "ci low" ] && [ $NAMES = no ] && { echo "usage: rt" >&2; exit 2; }\nexit 0\n'
        for names, said in (("no", ["top ci low", "low verdict", "top must-fail low"]), ("yes", ["top ci low"])):
            with tempfile.TemporaryDirectory() as folder:
                top = Path(folder) / "top"
                for name in ("tools", "bin", "crates/low"):
                    (top / name).mkdir(parents=True)
                shutil.copy2(TOOLS / "gate-cost", top / "tools")
                (top / "crates.txt").write_text("low:\n")
                (top / "bin" / "rt").write_text(script)
                (top / "bin" / "rt").chmod(0o755)
                its = {**os.environ, "PATH": f"{top / 'bin'}:{os.environ['PATH']}", "SAID": str(top / "said"), "NAMES": names}
                done = subprocess.run([top / "tools" / "gate-cost", "low"], capture_output=True, text=True, timeout=100, env=its)
                self.assertEqual((done.returncode, (top / "said").read_text().splitlines()), (0, said), done.stderr)

    def test_no_command(self):
        done = subprocess.run([TOOLS / "gate-cost", "no_such_crate"], capture_output=True, text=True)
        self.assertEqual((done.returncode, done.stderr.splitlines()[-1].partition("error: ")[2]), (2, "'no_such_crate' is no crate of crates.txt, and no command"))

    def test_what_a_command_costs(self):
        with tempfile.TemporaryDirectory() as folder:
            top = Path(folder)
            (top / "tools").mkdir()
            shutil.copy2(TOOLS / "gate-cost", top / "tools")
            (top / "crates.txt").write_text("# NAME: what it stands on\nlow:\nhigh may_wait=1: low\n")
            prover = top / "rattle"
            shutil.copy2("/bin/bash", prover)           # its name alone tells the prover
            beside = subprocess.Popen([prover, "-c", "while :; do :; done", "--crate-name", "low"])      # of somebody else: not counted
            self.addCleanup(beside.wait)
            self.addCleanup(beside.kill)
            busy = "end=$((SECONDS + 3)); while [ $SECONDS -lt $end ]; do :; done; exit 4"
            done = subprocess.run([top / "tools" / "gate-cost", "--table", str(prover), "-c", busy, "--crate-name", "high"],
                                  capture_output=True, text=True, timeout=300, env=os.environ)
        self.assertEqual(done.returncode, 4)
        lines = done.stdout.splitlines()
        rows = [[word.strip() for word in line.strip("|").split("|")] for line in lines[2:4]]
        self.assertEqual([[row[0], len(row)] for row in rows], [["`high`", 6], ["all", 6]])
        self.assertIn("of 0.", lines[-1])


class Page(unittest.TestCase):
    def test_counts_are_those_of_the_tree(self):
        """docs/GATE.md has a line for each crate, has minutes of edits where there are some, and says how many there are."""
        text, edits = (TOP / "docs" / "GATE.md").read_text(), {crate: len([*(TOP / "crates" / crate).glob("must-fail/*.edit")]) for crate in gate_cost.order()}
        rows = [[cell.strip() for cell in line.strip("|").split("|")] for line in text.splitlines() if line.startswith("| `")]
        told = {row[0].strip("`"): bool(row[4]) for row in rows if len(row) == 6}
        self.assertEqual(told, {crate: bool(count) for crate, count in edits.items()})
        self.assertIn(f"tries {sum(edits.values())} wrong bodies", text)

    def test_sums_are_those_of_the_lines(self):
        """What it costs to prove a program with all below it, as the second table says, follows from the first one."""
        text = (TOP / "docs" / "GATE.md").read_text()
        proofs = {name: float(figure) for name, figure in re.findall(r"(?m)^\| `(\w+)` \| [\d.]+ \| ([\d.]+) ", text)}
        stands_on, checked = definitions.directly(), 0
        for told, figure in re.findall(r"(?m)^\| (.*`.*) \| (\d+)", text.partition("To prove, ")[2]):
            left, needed = [name for name in re.findall(r"`(\w+)`", told) if name in proofs], set()
            while left:
                needed.add(left[-1])
                left += [name for name in stands_on[left.pop()] if name not in needed]
            self.assertLessEqual(abs(10 * int(figure) - sum(round(10 * proofs[name]) for name in needed)), 5, told)
            checked += 1
        self.assertGreater(checked, 3)


if __name__ == "__main__":
    unittest.main()
