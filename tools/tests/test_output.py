"""Where the tools write: never over what they read, by whatever name; whole or not at all; and a fault is one sentence with the file's name."""
import os
import re
import shutil
import signal
import stat
import subprocess
import tempfile
import time
import unittest
from pathlib import Path

from common import TOOLS, TOP, need
from test_sqdiff import program

EXAMPLE = TOP / "examples" / "echo_short.pcap"
WRITING = 5


def catches(process, number):
    """Whether a process has a handler for the signal: then it's at its work."""
    told = Path(f"/proc/{process}/status").read_text()
    return int(re.search(r"SigCgt:\s+(\w+)", told)[1], 16) >> number - 1 & 1


class Output(unittest.TestCase):
    def setUp(self):
        folder = tempfile.TemporaryDirectory()
        self.addCleanup(folder.cleanup)
        self.folder = Path(folder.name)
        self.capture, self.report = self.folder / "a.pcap", self.folder / "a.report"
        shutil.copyfile(EXAMPLE, self.capture)
        with open(self.capture, "rb") as source, open(self.report, "wb") as out:
            subprocess.run(program().split(), stdin=source, stdout=out, check=True)
        os.symlink(self.capture, self.folder / "symbolic.pcap")
        os.link(self.capture, self.folder / "hard.pcap")
        (self.folder / "inside").mkdir()

    def commands(self):
        """Each way of each tool to write a file: the words before `-o FILE`, and the option."""
        sq, sqdiff, sqrun = TOOLS / "sq", TOOLS / "sqdiff", ["--sqrun", program()]
        yield from (([sq, *sqrun, *shape, self.capture], "-o") for shape in ((), ("--report",), ("--json",), ("--csv",), ("--page",), ("--pcap",)))
        yield [sq, *sqrun, "--quiet", self.capture], "--keep"
        yield [sq, *sqrun, "--check", self.report, self.capture], "-o"
        yield from (([sqdiff, *sqrun, *shape, self.capture], "-o") for shape in ((), ("--each",), ("--alone",), ("--json",), ("--csv",), ("--page",), ("--svg",), ("--report", self.report)))
        yield [TOOLS / "sqpcap", "--capture", self.capture, self.report], "-o"
        yield [TOOLS / "sqpcap", "--pcapng", "--capture", self.capture, self.report], "-o"
        yield [TOOLS / "sqpcap", "--beside", "--capture", self.capture, self.report], "-o"
        yield [TOOLS / "sqplot", "--capture", self.capture, self.report], "-o"
        yield [TOOLS / "sqplot", "--capture", self.capture, "--figure", "ladder", self.report], "-o"

    def told(self, command, status, **more):
        """The one line that a command tells where it ends so."""
        done = subprocess.run(list(map(str, command)), stderr=subprocess.PIPE, text=True, **{"stdout": subprocess.DEVNULL, **more})
        self.assertEqual(done.returncode, status, (command, done.stderr))
        self.assertNotIn("Traceback", done.stderr)
        lines = [line for line in done.stderr.splitlines() if " records: " not in line]         # what the capture had is told before
        self.assertEqual(len(lines), 1, (command, done.stderr))
        return lines[0]

    def names(self):
        return sorted(path.name for path in self.folder.rglob("*"))

    def test_an_input_is_never_written_over(self):
        """By its name, another path, a symbolic link, a hard link; nor is the report."""
        for command, option in self.commands():
            inputs = [self.capture, self.folder / "inside" / ".." / "a.pcap", self.folder / "symbolic.pcap", self.folder / "hard.pcap"]
            inputs += [self.report] * (self.report in command)
            for path in inputs:
                with self.subTest(command=command[0].name, words=command[3:5], path=path.name):
                    before = path.read_bytes()
                    said = self.told([*command, option, path], 2)
                    self.assertIn("is read", said)
                    self.assertIn(path.name, said)
                    self.assertEqual(path.read_bytes(), before)

    def test_nor_where_it_comes_by_standard_input_or_goes_to_standard_output(self):
        before = self.capture.read_bytes()
        with open(self.capture, "rb") as source:
            self.assertIn("standard input, which is read", self.told([TOOLS / "sq", "--sqrun", program(), "-", "-o", self.capture], 2, stdin=source))
        for command, _ in self.commands():
            with self.subTest(command=command), open(self.capture, "ab") as out:
                if "--keep" not in command:
                    self.assertIn("standard output is ", self.told(command, 2, stdout=out))
            self.assertEqual(self.capture.read_bytes(), before)

    def test_two_outputs_are_two_files(self):
        same = self.folder / "out"
        self.assertIn("is written already", self.told([TOOLS / "sq", "--sqrun", program(), self.capture, "-o", same, "--keep", self.folder / "inside" / ".." / "out"], 2))

    def test_a_full_disk(self):
        """One sentence with the name, by the manual's status; through a device as through standard output."""
        for command, option in self.commands():
            with self.subTest(command=command):
                self.assertIn("'/dev/full': No space left on device", self.told([*command, option, "/dev/full"], WRITING))
                if option == "-o":
                    with open("/dev/full", "wb") as full:
                        self.assertIn("standard output: No space left on device", self.told(command, WRITING, stdout=full))

    def test_a_full_disk_leaves_no_half_file(self):
        """Where a file may not grow further: what stood there stands, and nothing stands beside it."""
        for command, option in self.commands():
            if command[0].name.startswith("sqp"):       # the others' temporary files are as large
                with self.subTest(command=command):
                    kept = self.folder / "kept"
                    kept.write_text("mine")
                    names = self.names()
                    self.told(["bash", "-c", 'trap "" XFSZ; ulimit -f 1; exec "$@"', "bash", *command, option, kept], WRITING)
                    self.assertEqual((kept.read_text(), self.names()), ("mine", names))

    def test_a_closed_pipe(self):
        for command, option in self.commands():
            with self.subTest(command=command):
                if option == "-o":
                    read, write = os.pipe()
                    os.close(read)
                    with os.fdopen(write, "wb") as out:
                        self.assertIn("standard output: Broken pipe", self.told(command, WRITING, stdout=out))
                    self.assertIn("standard output is closed", self.told(["bash", "-c", 'exec "$@" 1>&-', "bash", *command], WRITING))

    def test_what_is_told_never_stands_in_the_output(self):
        for command, option in self.commands():
            if option == "-o":
                with self.subTest(command=command):
                    right = subprocess.run(command, capture_output=True).stdout
                    self.assertEqual(subprocess.run(["bash", "-c", 'exec "$@" 2>&-', "bash", *command], stdout=subprocess.PIPE).stdout, right)

    def test_temporary_files_on_a_full_disk(self):
        """The folder of temporary files is blamed, and not the capture."""
        packed = self.folder / "b.pcap.gz"
        packed.write_bytes(subprocess.run(["gzip", "-c", self.capture], stdout=subprocess.PIPE, check=True).stdout)
        for tool in ("sq", "sqdiff"):
            said = self.told(["bash", "-c", 'trap "" XFSZ; ulimit -f 1; exec "$@"', "bash", TOOLS / tool, "--sqrun", program(), packed], WRITING)
            self.assertIn("for temporary files: ", said)
            self.assertNotIn("b.pcap", said)

    def test_a_file_keeps_its_rights_and_its_link(self):
        target, link = self.folder / "inside" / "page", self.folder / "link"
        target.write_text("old")
        target.chmod(0o640)
        os.symlink(target, link)
        self.assertEqual(subprocess.run([TOOLS / "sqplot", self.report, "-o", link]).returncode, 0)
        self.assertTrue(link.is_symlink())
        self.assertIn("<svg", target.read_text())
        self.assertEqual(stat.S_IMODE(target.stat().st_mode), 0o640)
        fresh, mask = self.folder / "fresh", os.umask(0o027)
        try:
            subprocess.run([TOOLS / "sqplot", self.report, "-o", fresh], check=True)
        finally:
            os.umask(mask)
        self.assertEqual(stat.S_IMODE(fresh.stat().st_mode), 0o640)

    def test_told_to_stop_it_leaves_nothing(self):
        """SIGTERM and SIGHUP, while its input is open."""
        names = self.names()
        for tool in (["sq", "-"], ["sqdiff", "-"], ["sqpcap", "--capture", self.capture, "-"], ["sqplot", "-"]):
            for ends, status in (("TERM", 143), ("HUP", 129)):
                with self.subTest(tool=tool[0], ends=ends), tempfile.TemporaryDirectory() as temporary:
                    words = [TOOLS / tool[0], *tool[1:], "-o", self.folder / "out"]
                    done = subprocess.Popen(list(map(str, words)), stdin=subprocess.PIPE, env={**os.environ, "TMPDIR": temporary})
                    done.stdin.write(self.capture.read_bytes()[:100] if tool[-1] == "-" and tool[0] in ("sq", "sqdiff") else b"report 1\n")
                    done.stdin.flush()
                    while not catches(done.pid, signal.SIGTERM):
                        time.sleep(0.05)
                    done.send_signal(getattr(signal, f"SIG{ends}"))
                    self.assertEqual(done.wait(60), status)
                    done.stdin.close()
                    self.assertEqual((os.listdir(temporary), self.names()), ([], names))

    def test_folders(self):
        """What stands in a folder that isn't a tool's own stays as it is."""
        need("parallel")
        mine = self.folder / "inside"
        (mine / "words").write_text("mine")
        (mine / "index.html").write_text("mine")
        for command, status in (([TOOLS / "sqshard", "begin", mine, self.capture], 2), ([TOOLS / "api", "-o", mine, "sq_base"], 2), ([TOOLS / "take", "sq_base", mine], 2)):
            with self.subTest(command[0].name):
                done = subprocess.run(command, capture_output=True, text=True)
                self.assertEqual(done.returncode, status, done.stderr)
                self.assertIn(str(mine), done.stderr)
                self.assertEqual(sorted((path.name, path.read_text()) for path in mine.iterdir()), [("index.html", "mine"), ("words", "mine")])
        done = subprocess.run([TOOLS / "sqlive", "--program", "/bin/true", "--ports", "echo=7,web=80", "--pages", mine, "--capture", mine / "words"], capture_output=True, text=True)
        self.assertEqual((done.returncode, (mine / "words").read_text()), (2, "mine"))
        self.assertIn("which is read", done.stderr)

    def test_what_was_not_named_is_never_written_over(self):
        """A page for a terminal takes a name of its own."""
        (self.folder / "a.sqrun.html").write_text("mine")
        words = " ".join(map(str, (TOOLS / "sq", "--sqrun", f"'{program()}'", "--page", self.capture)))
        done = subprocess.run(["script", "-qec", words, "/dev/null"], cwd=self.folder, capture_output=True, text=True)
        self.assertIn("'a.sqrun.html' is there already: name a file by -o", done.stdout)
        (self.folder / "a.sqrun.html").unlink()
        shutil.copyfile(self.capture, self.folder / "c.pcapng.gz")
        subprocess.run(["script", "-qec", words.replace("a.pcap", "c.pcapng.gz"), "/dev/null"], cwd=self.folder, capture_output=True, text=True)
        self.assertTrue((self.folder / "c.sqrun.html").exists())
        for shape, name in (("--page", "a.sqdiff.html"), ("--svg", "a.sqdiff.svg")):
            words = " ".join(map(str, (TOOLS / "sqdiff", "--sqrun", f"'{program()}'", shape, self.capture)))
            for told in (f"wrote '{name}'", f"'{name}' is there already"):
                done = subprocess.run(["script", "-qec", words, "/dev/null"], cwd=self.folder, capture_output=True, text=True)
                self.assertIn(told, done.stdout)
                self.assertNotIn("<svg", done.stdout)
            self.assertIn("</svg>", (self.folder / name).read_text())

    def test_told_to_stop_while_it_starts(self):
        """Control-C before a tool is at its work ends it without a word."""
        for tool in ("sq", "sqdiff", "sqplot", "sqpcap", "sqshard"):
            done = subprocess.Popen([TOOLS / tool, "--help"], stdout=subprocess.DEVNULL, stderr=subprocess.PIPE, text=True)
            while done.poll() is None and not catches(done.pid, signal.SIGINT):
                pass
            while done.poll() is None and catches(done.pid, signal.SIGINT):
                pass
            done.send_signal(signal.SIGINT)
            self.assertEqual(done.communicate(timeout=60)[1], "", tool)
            self.assertIn(done.returncode, (-signal.SIGINT, 0))         # 0 where it had ended


class Pipes(unittest.TestCase):
    """A pipe with a name, or <(..), is as good as a file."""

    def said(self, words, *more):
        return subprocess.run(["bash", "-c", words, "bash", *map(str, more)], capture_output=True, check=True).stdout

    def test_each_tool(self):
        with tempfile.TemporaryDirectory() as folder:
            report = Path(folder) / "a.report"
            with open(EXAMPLE, "rb") as source, open(report, "wb") as out:
                subprocess.run(program().split(), stdin=source, stdout=out, check=True)
            for words in ('"$1"/sq --report --sqrun "$4" CAPTURE', '"$1"/sq --sqrun "$4" CAPTURE', '"$1"/sq --json --sqrun "$4" CAPTURE', '"$1"/sqdiff --sqrun "$4" CAPTURE', '"$1"/sqdiff --report "$3" CAPTURE',
                          '"$1"/sqdiff --report REPORT CAPTURE', '"$1"/sq --check --sqrun "$4" REPORT CAPTURE', '"$1"/sqpcap --capture CAPTURE REPORT',
                          '"$1"/sqplot --figure ladder --capture CAPTURE REPORT'):
                with self.subTest(words):
                    more = TOOLS, EXAMPLE, report, program()
                    piped = self.said(words.replace("CAPTURE", '<(cat "$2")').replace("REPORT", '<(cat "$3")'), *more)
                    self.assertEqual(piped, self.said(words.replace("CAPTURE", '"$2"').replace("REPORT", '"$3"'), *more))
                    self.assertTrue(piped)
            for tool in ("sqpcap", "sqplot"):
                standard = subprocess.run([TOOLS / tool, "--capture", "-", report], input=EXAMPLE.read_bytes(), capture_output=True, check=True).stdout
                self.assertEqual(standard.replace(b"run on -", b"run on echo_short.pcap"), self.said(f'"$1"/{tool} --capture "$2" "$3"', TOOLS, EXAMPLE, report))
                done = subprocess.run([TOOLS / tool, "--capture", "-", "-"], input="", capture_output=True, text=True)
                self.assertEqual((done.returncode, done.stderr.count("\n")), (2, 1))

    def test_a_capture_in_place_of_a_report(self):
        for tool in ("sqpcap", "sqplot"):
            done = subprocess.run([TOOLS / tool, "--capture", EXAMPLE, EXAMPLE], capture_output=True, text=True)
            self.assertEqual(done.returncode, 2)
            self.assertIn("is a capture, and a report of it is wanted: `tools/sq --page`", done.stderr)


if __name__ == "__main__":
    unittest.main()
