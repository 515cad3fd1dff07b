"""The pages: they are short, what they show is so, links lead somewhere, the map has each crate, the glossary each name of two crates."""
import os
import re
import unittest
from collections import defaultdict

from common import SQREPLAY, TOP, output

import definitions

PAGES = sorted([*TOP.glob("*.md"), *TOP.glob("docs/*.md"), *TOP.glob("bench/*/README.md"), *TOP.glob("examples/*.md")])

MOST_WORDS, MOST_OF_README = 42_000, 1_400


def text_of(page):
    """A page without what it shows as code."""
    return re.sub(r"^```.*?^```", "", page.read_text(encoding="utf-8"), flags=re.M | re.S)


def places(page):
    """The places of a page to which a link may lead: its heads."""
    return {re.sub(r"[^\w\- ]", "", head.lower()).replace(" ", "-") for head in re.findall(r"^#+ (.*)$", text_of(page), re.M)}


def drawn():
    """The edges of the map's drawing: (a crate, what it stands on)."""
    drawing = re.search(r"^```\n(.*?)^```", (TOP / "docs" / "MAP.md").read_text(encoding="utf-8"), re.M | re.S)[1]
    out = set()
    for line in drawing.splitlines():
        steps = [[name.strip() for name in step.split(",")] for step in line.split(" ─ ")]
        out |= {(high, low) for below, above in zip(steps, steps[1:]) for low in below for high in above}
    return out


def without_what_follows(below):
    """The edges of these crates, but for those that follow from others."""
    reached = {}

    def all_below(name):
        if name not in reached:
            reached[name] = set().union(set(), *({low} | all_below(low) for low in below[name]))
        return reached[name]

    return {(name, low) for name in below for low in below[name] if not any(low in all_below(other) for other in below[name] if other != low)}


class Pages(unittest.TestCase):
    maxDiff = None

    def test_links(self):
        dead = []
        for page in PAGES:
            for target in re.findall(r"\]\(([^)\s]+)\)", text_of(page)):
                path, _, place = target.partition("#")
                found = page.parent / path if path else page
                if "://" not in target and (not found.exists() or place and place not in places(found)):
                    dead.append(f"{page.relative_to(TOP)}: {target}")
        self.assertEqual(dead, [])


    def test_words(self):
        words = {page: len(re.findall(r"\S*\w\S*", page.read_text(encoding="utf-8"))) for page in PAGES}
        self.assertLessEqual(words[TOP / "README.md"], MOST_OF_README)
        self.assertLessEqual(sum(words.values()), MOST_WORDS)


class Shown(unittest.TestCase):
    """What the pages show as a program's output or as code is so."""

    def test_the_trace_replays(self):
        if not os.access(SQREPLAY, os.X_OK):
            self.skipTest("no sqreplay: run ./build, or name it by SQREPLAY")
        lines = re.search(r"(?m)^    report 2\n(?:    .*\n)+", (TOP / "docs" / "RUN.md").read_text())[0]
        report = re.sub(r"(?m)^    ", "", lines).encode()
        self.assertEqual(output([SQREPLAY], report + (TOP / "crates" / "sqrun" / "stdin").read_bytes()), b"yes\n")

    def test_programs_are_those_of_crates(self):
        """Code of more than two lines stands in a file that the gate checks."""
        plain = lambda text: " ".join(text.split())
        held = [plain(path.read_text(encoding="utf-8")) for path in TOP.glob("crates/*/src/**/*.rt")]
        shown = [(page, code) for page in PAGES for code in re.findall(r"```rust\n(.*?)```", page.read_text(encoding="utf-8"), re.S)]
        self.assertEqual([f"{page.name}: {code[:60]}" for page, code in shown if code.count("\n") > 2 and not any(plain(code) in text for text in held)], [])


class Glossary(unittest.TestCase):
    maxDiff = None

    def test_names_of_two_crates(self):
        """Each public type that has its name in two crates and more stands in the glossary, with these crates."""
        found = defaultdict(set)
        for crate in definitions.directly():
            for path in (TOP / "crates" / crate / "src").rglob("*.rt"):
                for name in re.findall(r"(?m)^pub (?:struct|enum|trait|type) (\w+)", path.read_text(encoding="utf-8")):
                    found[name].add(crate)
        rows = [line.strip("| ").split(" | ") for line in (TOP / "docs" / "GLOSSARY.md").read_text(encoding="utf-8").partition("## One name in two crates")[2].splitlines()]
        told = {name: row[1] for row in rows if len(row) == 2 for name in re.findall(r"`(\w+)`", row[0])}
        missing = [(name, crate) for name, crates in sorted(found.items()) if len(crates) > 1 for crate in sorted(crates) if f"`{crate}`" not in told.get(name, "")]
        self.assertEqual(missing, [])


class Map(unittest.TestCase):
    maxDiff = None

    def test_edges_are_those_of_crates_txt(self):
        shown = drawn()
        names = {name for edge in shown for name in edge}
        real = without_what_follows(definitions.directly())
        self.assertEqual(sorted(shown - real), [], "drawn, and no edge")
        self.assertEqual(sorted(edge for edge in real - shown if names.issuperset(edge)), [], "an edge, and not drawn")

    def test_each_crate_has_its_place(self):
        text = (TOP / "docs" / "MAP.md").read_text(encoding="utf-8")
        named = set(re.findall(r"\.\./crates/(\w+)/", text)) | set(re.findall(r"`(\w+)`", text))
        self.assertEqual([name for name in definitions.directly() if name not in named and not name.endswith("_refused")], [])


if __name__ == "__main__":
    unittest.main()
