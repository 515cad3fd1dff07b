"""README: its commands can be followed in the order in which they stand, and its links lead somewhere."""
import re
import unittest
from itertools import permutations

from common import TOP

TEXT = (TOP / "README.md").read_text()
MADE = {"./sqrun": "./build ", "./sqreplay": "./build ", "./sqmore": "./build ", "sudo tools/sqlive": "./build sqlive", "tools/sq ": "tools/try-build",
        "tools/sqdiff ": "tools/try-build"}


def commands():
    """The lines of a shell, in order."""
    return [line.strip() for line in re.findall(r"^    ((?:\(cd |\./|tools/|cat |sudo |nc ).*)$", TEXT, re.M)]


def stands_on(page, figure):
    """Whether the page has the figure, or two in one row of a table that make it."""
    if re.search(rf"(?<![\d.]){re.escape(figure)}(?!\d)", page):
        return True
    digits = len(figure.partition(".")[2])
    rows = [[float(cell) for cell in re.findall(r"\d+\.\d+", line)] for line in page.splitlines() if line.startswith("|")]
    return any(f"{a / b:.{digits}f}" == figure for row in rows for a, b in permutations(row, 2) if b)


class Order(unittest.TestCase):
    def test_what_a_command_needs_was_made_before(self):
        lines = commands()
        self.assertGreater(len(lines), 8)
        for n, line in enumerate(lines):
            for program, maker in MADE.items():
                if program in line and not line.startswith(("./build", "tools/try-build")):
                    self.assertTrue(any(before.startswith(maker) for before in lines[:n]), f"{line}: nothing before it is {maker}")

    def test_each_file_that_is_read_was_written(self):
        """Reports and pages that a command reads come from one before it."""
        written = set()
        for line in commands():
            for name in re.findall(r"\b[a-z]+\.report\b", line):
                if not re.search(rf"> {name}", line):
                    self.assertIn(name, written, line)
            written |= set(re.findall(r"> (\S+)", line)) | set(re.findall(r"-o (\S+)", line))

    def test_the_first_commands_need_no_build(self):
        first = commands()[:3]
        self.assertEqual(first[0], "tools/sqplot crates/sqrun/stdout --capture crates/sqrun/stdin > a.html")
        self.assertTrue(first[1].startswith("(cd crates/sqrun && rt try"))
        self.assertTrue(first[2].startswith("tools/sqplot "))

    def test_figures_are_those_of_their_pages(self):
        """Each figure of the table of numbers stands on the page that its row links, or that the row above it does; or it's a ratio of two of a row there."""
        rows = [line.strip("| ").split(" | ") for line in TEXT.partition("## Numbers")[2].partition("\n## ")[0].splitlines() if line.startswith("| ")][1:]
        self.assertGreater(len(rows), 4)
        page = ""
        for row in rows:
            told = " ".join(row[1:])
            for target in re.findall(r"\]\(([^)#]+\.md)", told):
                page = (TOP / target).read_text()
            for figure in re.findall(r"(?<![\w/])\d+\.\d+", told):
                self.assertTrue(stands_on(page, figure), f"{figure} of {row[0]!r}")

    def test_links(self):
        for name, page in (("README.md", TEXT), ("docs/TOOLS.md", (TOP / "docs" / "TOOLS.md").read_text())):
            folder = (TOP / name).parent
            for target in re.findall(r"\]\(([^)]+)\)", page):
                path, _, anchor = target.partition("#")
                if path.startswith("http"):
                    continue
                found = (folder / path) if path else TOP / name
                self.assertTrue(found.exists(), f"{name}: {target}")
                if anchor:
                    heads = [re.sub(r"[^\w\- ]", "", head.lower()).replace(" ", "-") for head in re.findall(r"^#+ (.*)$", found.read_text(), re.M)]
                    self.assertIn(anchor, heads, f"{name}: {target}")


if __name__ == "__main__":
    unittest.main()
