"""api: what is public is on a page once, with its clauses and their definitions; what is missing is told; pages can be used without a mouse."""
import re
import shutil
import subprocess
import tempfile
import unittest
from pathlib import Path

from common import TOOLS, TOP, need, output

LIB = """//! Sums of numbers.
//!
//! See [`Total`], and [`total::add`].
#![tactic(auto)]

ghost use Rattle.low.specs.Sums.{sum_of};

pub mod total;
mod hidden;

pub use hidden::{Kept, keep};

/// A total so far.
#[derive(Clone, Drop)]
pub struct Total {
    /// What was added.
    pub sum: u64,
    count: u64,
    ghost whole: { sum ≡ sum_of [] },
}

impl Total {
    /// The sum.
    ///
    /// # Example
    ///
    /// ```
    /// let t = total < 3;
    /// ```
    pub fn get(&self) -> u64
        requires { 0 ≤ self.now.sum }
        ensures sum { result ≡ self.now.sum }

        // behind a comment
        ensures long { result
            ≡ self.now.sum }
    {
        let f = || -> u64
            ensures closure { result ≡ 1 }
        { 1 };
        f()
    }

    pub(crate) fn inner(&self) {}
}
"""
TOTAL = """//! Adding.
ghost use Rattle.std.specs.Prelude.{◌≡◌, ℕ, List};
ghost use Rattle.low.specs.Sums.{sum_of as total_of};
ghost use Rattle.low.specs.Sums as S;

use crate::Total;

/// Adds *all* numbers.
///
/// | Word | Meaning |
/// |---|---|
/// | `a` | one |
pub fn add(list: &[u64]) -> Total
    ensures added { result.sum ≡ total_of list.now }
    ensures again { (n : ℕ) → result.sum ≡ S.sum_of list.now }
{
    todo()
}
"""
HIDDEN = """//! Not public itself.
ghost use Rattle.std.specs.Prelude.{◌≡◌, List};

/// What is kept, for who gives a [`crate::Total`].
pub trait Kept {
    /// One of them.
    type One;

    /// How many there are.
    ghost size: { Self → List One };

    // It stays.
    ghost stays: { (s : Self) → size s ≡ size s };

    /// Counts.
    fn count(&self) -> u64
        ensures { result ≡ size self.now };
}

/// Keeps it.
pub fn keep<K: Kept>(k: K)
    ensures kept { K.size k ≡ K.size k }
{}

/// Nobody sees it.
pub fn unseen() {}
"""
SUMS = """-- What a sum is.
use Rattle.std.specs.Prelude.{ℕ, List, [], ◌∷◌}

-- the sum of all numbers
abbrev pub sum_of : List ℕ → ℕ
sum_of [] = 0
sum_of (n ∷ ns) = n + sum_of ns
"""
HIGH = """//! On top.

pub use low::{Total, keep};

/// Twice.
pub fn twice(t: &Total) {}
"""
PARTS = ("definitions.py", "items.py", "cited.py", "apipage.py", "api.css", "api.js", "definitions.js", "packets.py", "words.py", "output.py", "capture.py", "files.py")


class Small(unittest.TestCase):
    """A checkout with two small crates."""

    def setUp(self):
        folder = tempfile.TemporaryDirectory()
        self.addCleanup(folder.cleanup)
        self.top = Path(folder.name)
        (self.top / "tools" / "parts").mkdir(parents=True)
        shutil.copy2(TOOLS / "api", self.top / "tools")
        for name in PARTS:
            shutil.copy2(TOOLS / "parts" / name, self.top / "tools" / "parts")
        self.write("tools/parts/api_known.txt", "# none\n")
        self.write("crates.txt", "low:\nhigh: low hex\n")
        self.write("crates/low/src/lib.rt", LIB)
        self.write("crates/low/src/total.rt", TOTAL)
        self.write("crates/low/src/hidden.rt", HIDDEN)
        self.write("crates/low/specs/Sums.antt", SUMS)
        self.write("crates/low/specs/Lib.antt", "pub mod Sums\n")
        self.write("crates/high/src/lib.rt", HIGH)

    def write(self, path, text):
        path = self.top / path
        path.parent.mkdir(parents=True, exist_ok=True)
        path.write_text(text, encoding="utf-8")

    def change(self, path, old, new):
        text = (self.top / path).read_text(encoding="utf-8")
        self.assertIn(old, text)
        self.write(path, text.replace(old, new))

    def made(self, *words):
        output([self.top / "tools" / "api", "-o", self.top / "pages", *words])
        return {path.relative_to(self.top / "pages").as_posix(): path.read_text(encoding="utf-8") for path in (self.top / "pages").rglob("*") if path.is_file()}

    def checked(self, status=0):
        done = subprocess.run([self.top / "tools" / "api", "--check"], capture_output=True, text=True, check=False)
        self.assertEqual(done.returncode, status, done.stderr)
        return done.stderr.rstrip("\n").split("\n") if status else done.stdout

    def section(self, text, ident):
        """What stands on a page from this place on, up to the next call."""
        self.assertEqual(text.count(f'id="{ident}"'), 1, ident)
        return text.split(f'id="{ident}"')[1].split("<section")[0]


class Pages(Small):
    def test_what_is_public_and_nothing_else(self):
        low = self.made()["low.html"]
        for ident in ("Total", "Total.get", "total.add", "Kept", "Kept.count", "keep"):
            self.assertIn(f'id="{ident}"', low)
        for name in ("unseen", "Total.inner", "hidden.keep"):
            self.assertNotIn(name, low)

    def test_clauses_by_name_and_none_of_a_closure(self):
        get = self.section(self.made()["low.html"], "Total.get")
        self.assertEqual(re.findall(r"<span>(requires|ensures)</span>(?: <a[^>]*>(\w+)</a>)?", get), [("requires", ""), ("ensures", "sum"), ("ensures", "long")])
        self.assertIn("<pre>result\n    ≡ self.now.sum</pre>", get)
        self.assertIn('<pre class=example tabindex=0>let t = total &lt; 3;</pre>', get)
        self.assertNotIn("let f", get)

    def test_a_clause_leads_to_its_definition(self):
        pages = self.made()
        add = self.section(pages["low.html"], "total.add")
        self.assertIn('<a href="definitions/low.html#Sums.sum_of" target=beside title="low/specs/Sums.antt">total_of</a>', add)
        self.assertIn('S</a>.<a href="definitions/low.html#Sums.sum_of"', add)
        definition = pages["definitions/low.html"]
        self.assertIn('id="Sums.sum_of"', definition)
        self.assertIn("<p>What a sum is.</p>", definition)
        self.assertIn("<p>the sum of all numbers</p>", definition)

    def test_docstrings(self):
        low = self.made()["low.html"]
        add = self.section(low, "total.add")
        self.assertIn("<p>Adds <em>all</em> numbers.</p>", add)
        self.assertIn("<tr><th>Word<th>Meaning<tr><td><code>a</code><td>one</table>", add)
        self.assertIn('See <a href="#Total"><code>Total</code></a>, and <a href="#total.add"><code>total::add</code></a>.', low)

    def test_the_index_has_each_head_whole(self):
        index = self.made()["index.html"]
        self.assertIn("Sums of numbers.<details><summary>More</summary><p>See <code>Total</code>, and <code>total::add</code>.</p></details>", index)
        self.assertIn('<td>On top.<td class=on><a href="low.html">', index)

    def test_fields_and_ghost_members(self):
        low = self.made()["low.html"]
        total = self.section(low, "Total")
        self.assertIn("<dt>sum<dd><pre>u64</pre><p>What was added.</p>", total)
        self.assertIn("<span>ghost</span> whole", total)
        self.assertIn("private fields", total)
        self.assertNotIn("<dt>count", total)
        self.assertIn("<p>It stays.</p>", self.section(low, "Kept"))
        self.assertIn('<a href="low.html#Kept.ghost.size" title="low::Kept, ghost size">size</a>', self.section(low, "Kept.count"))
        self.assertIn('K.<a href="low.html#Kept.ghost.size"', self.section(low, "keep"))

    def test_what_is_handed_on_has_one_entry(self):
        pages = self.made()
        self.assertNotIn('id="Total"', pages["high.html"])
        self.assertIn('Hands on: <a href="low.html#Total"><code>low::Total</code></a>, <a href="low.html#keep"><code>low::keep</code></a>.', pages["high.html"])
        self.assertIn('<a href="low.html#Total" title="low::Total">Total</a>', self.section(pages["high.html"], "twice"))
        self.assertEqual(pages["names.js"].count('"keep","function"'), 1)

    def test_what_stands_on_what(self):
        pages = self.made()
        self.assertIn('Stands on: <a href="low.html">low</a>.<br>Under: nothing here.', pages["high.html"])
        self.assertIn('Stands on: nothing here.<br>Under: <a href="high.html">high</a>.', pages["low.html"])

    def test_one_crate_alone_has_no_dead_links(self):
        pages = self.made("high")
        self.assertNotIn("low.html", pages)
        self.assertNotIn('href="low.html', pages["high.html"])
        self.assertIn(b"no crate other in crates.txt", output([self.top / "tools" / "api", "other"], status=2))


class Check(Small):
    def test_nothing_is_missing(self):
        self.assertEqual(self.checked(), "2 crates, 5 functions, 11 names: 0 missing, 0 known to be missing\n")

    def test_a_name_that_is_not_found(self):
        self.change("crates/low/specs/Sums.antt", "sum_of", "total_of_all")
        said = self.checked(1)
        self.assertIn("crates/low/src/total.rt:13: add, ensures added: total_of isn't found", said)
        self.assertIn("crates/low/src/total.rt:13: add, ensures again: sum_of isn't found", said)

    def test_a_name_that_nobody_gives(self):
        self.change("crates/low/src/total.rt", "result.sum ≡ total_of", "outcome.sum ≡ total_of")
        self.assertEqual(self.checked(1), ["crates/low/src/total.rt:13: add, ensures added: outcome isn't found"])

    def test_without_a_docstring(self):
        self.change("crates/low/src/lib.rt", "    /// The sum.\n    ///\n    /// # Example\n    ///\n    /// ```\n    /// let t = total < 3;\n    /// ```\n", "")
        self.change("crates/low/src/hidden.rt", "    /// Counts.\n", "")
        self.assertEqual(self.checked(1), ["crates/low/src/hidden.rt:15: low::Kept::count has no docstring", "crates/low/src/lib.rt:23: low::Total::get has no docstring"])

    def test_a_link_that_leads_nowhere(self):
        self.change("crates/low/src/lib.rt", "[`Total`]", "[`Sum`]")
        self.assertEqual(self.checked(1)[0].split(": ", 1)[1], "the link to Sum leads nowhere")

    def test_what_is_known_is_no_failure_until_it_is_mended(self):
        self.change("crates/low/src/total.rt", "/// Adds *all* numbers.\n///\n/// | Word | Meaning |\n/// |---|---|\n/// | `a` | one |\n", "")
        self.write("tools/parts/api_known.txt", "crates/low/src/total.rt: low::total::add has no docstring\n")
        self.assertIn("0 missing, 1 known", self.checked())
        self.change("crates/low/src/total.rt", "pub fn add", "/// Adds.\npub fn add")
        self.assertIn("no longer missing", self.checked(1)[0])


class Repository(unittest.TestCase):
    @classmethod
    def setUpClass(cls):
        cls.folder = tempfile.TemporaryDirectory()
        cls.addClassCleanup(cls.folder.cleanup)
        cls.pages = Path(cls.folder.name)
        output([TOOLS / "api", "-o", cls.pages])

    def test_nothing_is_missing_that_is_not_known(self):
        self.assertIn(b": 0 missing, ", output([TOOLS / "api", "--check"]))

    def test_a_page_for_each_crate(self):
        for line in (TOP / "crates.txt").read_text().split("\n"):
            if line and not line.startswith("#"):
                self.assertTrue((self.pages / f"{line.split(':')[0].split()[0]}.html").exists(), line)

    def test_every_public_function_of_a_root_module_is_there(self):
        for path in sorted(TOP.glob("crates/*/src/lib.rt")):
            page = (self.pages / f"{path.parts[-3]}.html").read_text()
            for name in re.findall(r"^pub fn (\w+)", path.read_text(), re.M):
                self.assertIn(f'id="{name}"', page)

    def test_nothing_from_the_net(self):
        for path in self.pages.rglob("*"):
            if path.suffix in (".html", ".css", ".js"):
                self.assertNotRegex(path.read_text(), r"(?:src|href)=.?https?:|url\(|import |fetch\(|XMLHttp", path.name)

    def test_the_manual_has_all_words(self):
        told = output([TOOLS / "api", "--help"]).decode()
        page = (TOP / "docs" / "man" / "api.1").read_text()
        for word in set(re.findall(r"(?<![\w-])--[a-z]+", told)):
            self.assertIn(word.replace("-", "\\-"), page)

    def test_in_a_browser(self):
        if not shutil.which("chromium"):
            need("chromium-headless-shell")
        from browser import Browser
        browser = Browser()
        self.addCleanup(browser.close)
        browser.open(self.pages / "squeue_enter.html")
        browser.key("/")
        self.assertEqual(browser.js("document.activeElement.id"), "find")
        browser.js("find.value='synch enter call';find.dispatchEvent(new Event('input'))")
        self.assertEqual(browser.js("hits.querySelector('a').firstChild.textContent"), "synch_enter::call")
        browser.key("ArrowDown")
        self.assertEqual(browser.js("document.activeElement.getAttribute('href')"), "synch_enter.html#call")
        browser.key("Escape")
        self.assertTrue(browser.js("hits.hidden"))
        browser.js("document.querySelector('#enter a[target=beside]').click()")
        browser.until("!beside.hidden")
        self.assertIn("definitions/squeue_enter.html#Entering.MayEnter", browser.js("whole.href"))
        browser.js("document.getElementById('beside.close').focus()")
        browser.key("Escape")
        self.assertTrue(browser.js("beside.hidden"))
        browser.phone()
        for name in ("index", "squeue_state", "tcb_machine", "case_rows"):
            browser.open(self.pages / f"{name}.html")
            browser.settle()
            self.assertLessEqual(browser.js("document.documentElement.scrollWidth"), 390, name)
            self.assertEqual([e for e in browser.complaints() if e["method"] != "Network.requestWillBeSent" or not e["params"]["request"]["url"].startswith("file:")], [])


if __name__ == "__main__":
    unittest.main()
