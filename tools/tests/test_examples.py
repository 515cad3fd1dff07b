"""examples: the lines of a block are found in what tests run, and nowhere else."""
import tempfile
import unittest
from pathlib import Path

from common import TOOLS, output

TESTS = """
use crate::Sink;

fn filled(sink: &mut Sink) -> Result<(), Fail> {
    sink.put(b"ab")?;
    Ok(())
}

fn unused(sink: &mut Sink) {
    sink.forget();
    drop(sink);
}

#[test]
fn bytes_are_kept(rt: HostRuntime) -> Result<(), Fail> {
    let mut sink = Sink::make(rt.alloc(), 64)?;

    filled(&mut sink)?;
    for i in 0..2 {
        sink.put(&[i])?;
    }
    assert_eq!(rt; sink.len(), 4);
    Ok(())
}
"""


class Examples(unittest.TestCase):
    def setUp(self):
        folder = tempfile.TemporaryDirectory()
        self.addCleanup(folder.cleanup)
        self.top = Path(folder.name)
        self.write("low", "tests.rt", TESTS)

    def write(self, crate, name, text):
        path = self.top / "crates" / crate / "src" / name
        path.parent.mkdir(parents=True, exist_ok=True)
        path.write_text(text)
        (self.top / "crates" / crate / "src" / "lib.rt").touch()

    def sink(self, *lines, crate="low", close="/// ```\n"):
        block = "".join(f"/// {line}\n" for line in lines)
        self.write(crate, "sink.rt", f"//! Sinks.\n\n/// A sink.\n///\n/// # Example\n///\n/// ```\n{block}{close}#[derive(Drop)]\npub struct Sink;\n")

    def told(self, status=0):
        return output([TOOLS / "examples", self.top], status=status).decode()

    def refused(self, *lines):
        self.sink(*lines)
        self.assertEqual(self.told(1), "crates/low/src/sink.rt:7: Sink: in no test\n")

    def test_this_repository_s_examples_stand_in_tests(self):
        self.assertIn(b": in a_file_is_written_and_read of crates/input_tests/src/ends.rt\n", output([TOOLS / "examples"]))

    def test_lines_of_a_test(self):
        self.sink("let mut sink = Sink::make(rt.alloc(), 64)?;", "filled(&mut sink)?;")
        self.assertEqual(self.told(), "crates/low/src/sink.rt:7: Sink: in bytes_are_kept of crates/low/src/tests.rt\nwithout an example: none\n")

    def test_leading_spaces_and_lines_that_are_skipped(self):
        self.sink("let mut sink = Sink::make(rt.alloc(), 64)?;", "...", "    sink.put(&[i])?;", "}", "...", "Ok(())")
        self.assertIn("in bytes_are_kept", self.told())

    def test_a_call_in_several_lines_and_a_name_that_is_not_used(self):
        self.write("low", "tests.rt", TESTS + "\n#[test]\nfn broken(rt: HostRuntime) -> Result<(), Fail> {\n    let kept = fill(\n        &mut sink,\n        2,\n    )?;\n    Ok(())\n}\n")
        self.sink("let _kept = fill(&mut sink, 2)?;")
        self.assertIn("in broken of", self.told())
        self.refused("let _kept = fill(&mut sink, 3)?;")

    def test_what_a_test_calls_counts_and_other_code_not(self):
        self.sink('sink.put(b"ab")?;', "Ok(())")
        self.assertIn("in filled of crates/low/src/tests.rt, which the test bytes_are_kept runs", self.told())
        self.refused("sink.forget();", "drop(sink);")

    def test_lines_of_no_test(self):
        self.refused("let mut sink = Sink::make(rt.alloc(), 63)?;")
        self.refused("let mut sink = Sink::make(rt.alloc(), 64)?;", "assert_eq!(rt; sink.len(), 4);")
        self.refused("assert_eq!(rt; sink.len(), 4);", "...", "let mut sink = Sink::make(rt.alloc(), 64)?;")
        self.refused("sink.put(&[i])?;", "...", 'sink.put(b"ab")?;')
        self.refused("...")
        self.refused()

    def test_a_block_without_an_end(self):
        self.sink("filled(&mut sink)?;", close="")
        self.assertEqual(self.told(1), "crates/low/src/sink.rt:7: Sink: the block isn't closed\n")

    def test_a_module_s_own_block(self):
        self.write("low", "lib.rt", "//! ```\n//! filled(&mut sink)?;\n//! ```\n\npub mod sink;\n")
        self.assertIn("crates/low/src/lib.rt:1: the module: in bytes_are_kept", self.told())

    def test_tests_of_another_crate_and_code_of_an_example(self):
        self.sink("filled(&mut sink)?;", crate="high")
        self.assertIn("crates/high/src/sink.rt:7: Sink: in bytes_are_kept of crates/low/src/tests.rt", self.told())
        self.sink("sink.close();", crate="high")
        self.write("other", "counting.rt", "pub fn count(sink: Sink) {\n    sink.close();\n}\n")
        self.write("other", "tests.rt", "#[test]\nfn counts(rt: HostRuntime) {\n    count(Sink);\n}\n")
        self.assertIn("in no test", self.told(1))
        self.write("key_counters", "counting.rt", "pub fn count(sink: Sink) {\n    sink.close();\n}\n")
        self.write("key_counters", "tests.rt", "#[test]\nfn counts(rt: HostRuntime) {\n    count(Sink);\n}\n")
        self.assertIn("in count of crates/key_counters/src/counting.rt, which the test counts runs", self.told())

    def test_a_crate_of_tests(self):
        self.sink("sink.close();", crate="high")
        self.write("high_tests", "sinks.rt", "#[test]\nfn closes(rt: HostRuntime) {\n    sink.close();\n}\n")
        self.assertIn("in closes of crates/high_tests/src/sinks.rt", self.told())

    def test_crates_without_an_example_are_told(self):
        self.write("low", "sink.rt", "/// A sink.\npub struct Sink;\n")
        self.write("laws", "lib.rt", "//! Nothing public.\n")
        self.assertEqual(self.told(), "without an example: low\n")


if __name__ == "__main__":
    unittest.main()
