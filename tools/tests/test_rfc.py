"""The page of RFC 9293: each MUST stands once, and what a row of its tables names is there."""
import ast
import re
import unittest

from common import TOP

PAGE = TOP / "docs" / "RFC9293.md"
MUSTS = range(1, 70)
VERDICTS = ("met", "**not met**", "by choice", "no ", "there is none")


def tables(text):
    """The tables of a page, each as its rows behind the head; a row is a list of cells."""
    found = re.findall(r"(?m)^\|[^\n]*\n\|[-|]+\n((?:\|.*\n)+)", text)
    return [[[cell.strip() for cell in row.strip("\n")[1:-1].split("|")] for row in table.splitlines()] for table in found]


def numbers(cell):
    """The numbers that `7` or `24–29` names."""
    first, _, last = cell.partition("–")
    return range(int(first), int(last or first) + 1)


def rows_of(file):
    return re.findall(r"(?m)^row (.*)$", (TOP / "crates" / file).read_text(encoding="utf-8"))


def worked():
    return re.findall(r"(?m)^pub fn (\w+)", (TOP / "crates" / "echo_services" / "src" / "worked.rt").read_text(encoding="utf-8"))


def cases():
    """The names of live_test's cases, and of those over frames."""
    test = (TOP / "tools" / "live_test").read_text(encoding="utf-8")
    rules = ast.parse((TOP / "tools" / "live" / "rules.py").read_text(encoding="utf-8"))
    return re.findall(r'(?m)^        "([\w-]+)":', test) + [each.name.replace("_", "-") for each in rules.body if isinstance(each, ast.FunctionDef)]


def laws():
    """The names of all laws: what a clause may be cited by without its file."""
    return {name for path in TOP.glob("crates/*/src/laws.rt") for name in re.findall(r"(?m)^pub fn (\w+)", path.read_text(encoding="utf-8"))}


class Rfc(unittest.TestCase):
    maxDiff = None

    def setUp(self):
        self.musts, self.others = tables(PAGE.read_text(encoding="utf-8"))

    def test_each_number_stands_once(self):
        self.assertEqual([number for row in self.musts for number in numbers(row[0])], list(MUSTS))

    def test_each_row_has_a_verdict(self):
        self.assertEqual([row[:3] for row in self.musts + self.others if len(row) != 5 or not row[2].startswith(VERDICTS)], [])

    def test_what_is_met_is_stated_and_shown(self):
        self.assertEqual([row[:3] for row in self.musts + self.others if row[2].startswith("met") and not (row[3] and row[4])], [])

    def test_what_shows_it_is_there(self):
        known = {"R": rows_of("cases_programs/data/sqlive.rows"), "X": rows_of("cases_library/data/exchanges.rows"), "W": worked(), "C": cases()}
        missing = []
        for row in self.musts + self.others:
            named = re.findall(r"([RXWC]) \*([^*]+)\*", row[4])
            if row[4] not in ("", "each row") and ", ".join(f"{kind} *{name}*" for kind, name in named) != row[4]:
                missing.append((row[0], row[4]))
            for kind, name in named:
                exact = kind in "WC"
                if not any(other == name if exact else other.startswith(name) for other in known[kind]):
                    missing.append((row[0], f"{kind} {name}"))
        self.assertEqual(missing, [])

    def test_what_states_it_is_there(self):
        """A name beside a link stands in that file; one without a link is a law, or a definition of tcb_machine or of the live server."""
        specs = "".join(path.read_text(encoding="utf-8") for crate in ("tcb_machine", "live_server") for path in TOP.glob(f"crates/{crate}/specs/*.antt"))
        missing = []
        for row in self.musts + self.others:
            for part in row[3].split("; "):
                linked = re.findall(r"\]\(([^)]+)\)", part)
                for name in re.findall(r"`(\w+)`", part):
                    texts = [(PAGE.parent / file).read_text(encoding="utf-8") for file in linked]
                    if not any(re.search(rf"\b{name}\b", text) for text in texts or [specs]) and not (not linked and name in laws()):
                        missing.append((row[0], name))
        self.assertEqual(missing, [])


if __name__ == "__main__":
    unittest.main()
