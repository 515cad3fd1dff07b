"""deb: the package installs, its tools run from there as they do here, lintian finds nothing, and bash completes the words of each --help."""
import os
import re
import shutil
import subprocess
import tempfile
import unittest
from pathlib import Path

from common import SQLIVE, SQRUN, TOOLS, TOP, need, output

EXAMPLE = TOP / "examples" / "echo_short.pcap"


class Package(unittest.TestCase):
    @classmethod
    def setUpClass(cls):
        need("dpkg-deb")
        if not os.access(SQRUN, os.X_OK):
            raise unittest.SkipTest("no sqrun: run ./build, or name it by SQRUN")
        folder = tempfile.TemporaryDirectory()
        cls.addClassCleanup(folder.cleanup)
        cls.folder = Path(folder.name)
        cls.made = cls.built()
        cls.root = cls.folder / "root"
        output(["dpkg-deb", "-x", cls.made, cls.root])

    @classmethod
    def built(cls):
        """The package of a copy of this repository that has a program."""
        top = cls.folder / "top"
        output(["git", "clone", "-q", TOP, top])
        for name in ("tools", "docs"):
            shutil.rmtree(top / name)
            shutil.copytree(TOP / name, top / name)
        shutil.copy(SQRUN, top / "sqrun-unproved")
        if os.access(SQLIVE, os.X_OK):
            shutil.copy(SQLIVE, top / "sqlive-unproved")
        assert b"there is no ./sqrun" in output([top / "tools" / "deb", "-o", cls.folder], status=2)
        return Path(output([top / "tools" / "deb", "--unproved", "-o", cls.folder]).decode().strip())

    def installed(self, name, *words, **more):
        return output([self.root / "usr" / "bin" / name, *words], environment={"PATH": f"{self.root}/usr/bin:{os.environ['PATH']}", "SQRUN": ""}, **more)

    def test_the_tools_run_from_there(self):
        """Each gives what it gives here."""
        report = self.installed("sq", "--report", EXAMPLE)
        self.assertEqual(report, output([SQRUN], EXAMPLE.read_bytes()))
        (self.folder / "a.report").write_bytes(report)
        for name, words in (("sq", (EXAMPLE,)), ("sq", ("--json", EXAMPLE)), ("sqdiff", ("--each", EXAMPLE)), ("sqpcap", ("--beside", "--capture", EXAMPLE, self.folder / "a.report")),
                            ("sqplot", ("--capture", EXAMPLE, self.folder / "a.report"))):
            with self.subTest(name, words=words):
                self.assertEqual(self.installed(name, *words), output([TOOLS / name, *words]))
        self.assertTrue(self.installed("sq", "--version").startswith(b"sq of squeues 0."))

    def test_the_live_server(self):
        """Its launcher finds the program beside it, and everything that it imports."""
        if not os.access(SQLIVE, os.X_OK):
            self.skipTest("no sqlive: run ./build sqlive, or name it by SQLIVE")
        self.assertIn(b"no tools/sqlive runs on nowhere", self.installed("sqlive", "status", "--device", "nowhere", status=1))
        self.assertIn(b"no TUN device", self.installed("sqlive", "--device", "lo", status=1))

    def test_the_package_says_what_is_proved(self):
        self.assertIn(b"built without proof", output(["dpkg-deb", "-f", self.made, "Description"]))

    def test_installed_for_real_in_a_root(self):
        """dpkg takes it, lists its files, and removes them all."""
        if os.geteuid():
            self.skipTest("dpkg wants root")
        root = self.folder / "system"
        (root / "var" / "lib" / "dpkg").mkdir(parents=True)
        (root / "var" / "lib" / "dpkg" / "status").touch()
        dpkg = ["dpkg", f"--root={root}", "--force-depends", "--force-script-chrootless", "--log=/dev/null"]
        output([*dpkg, "-i", self.made])
        listed = [root / name[1:] for name in output(["dpkg", f"--root={root}", "-L", "squeues"]).decode().split() if name != "/."]
        self.assertGreater(len(listed), 60)
        self.assertTrue(all(path.exists() or path.is_symlink() for path in listed))
        self.assertTrue(os.access(root / "usr" / "bin" / "sqdiff", os.X_OK))
        output([*dpkg, "-r", "squeues"])
        self.assertEqual([path for path in listed if path.is_file()], [])

    def test_lintian(self):
        need("lintian")
        done = subprocess.run(["lintian", "--allow-root", "--fail-on", "error,warning", self.made], capture_output=True, text=True)
        self.assertEqual((done.returncode, done.stdout), (0, ""))

    def test_manual_pages(self):
        need("man")
        for path in sorted((self.root / "usr/share/man/man1").iterdir()):
            with self.subTest(path.name):
                done = subprocess.run(["man", "--warnings", "-l", path], capture_output=True, text=True, cwd=self.root / "usr/share/man", env={**os.environ, "LC_ALL": "C.UTF-8", "MANPATH": str(self.root / "usr/share/man")})
                self.assertEqual((done.returncode, done.stderr), (0, ""))
                self.assertIn("squeues", done.stdout)

    def test_completion(self):
        """Of each tool all words of its help, the values of a choice, and files."""
        for name in ("sq", "sqdiff", "sqpcap", "sqplot", "sqshard"):
            with self.subTest(name):
                told = output([TOOLS / name, *(["run"] if name == "sqshard" else []), "--help"]).decode()
                self.assertEqual(set(self.completed(name, "--")), set(re.findall(r"(?<![\w-])--[a-z][a-z-]*", told)))
        self.assertEqual(self.completed("sq", "", "--mode"), ["fill", "nodrain", "process"])
        self.assertEqual(self.completed("sqdiff", str(EXAMPLE)[:-4]), sorted(map(str, (EXAMPLE, EXAMPLE.with_suffix(".pcapng")))))

    def completed(self, name, word, before=""):
        script = f"source {self.root}/usr/share/bash-completion/completions/{name}; COMP_WORDS=({name} '{before}' '{word}'); COMP_CWORD=2; _squeues_{name}; printf '%s\\n' \"${{COMPREPLY[@]}}\""
        return sorted(output(["bash", "-c", script]).decode().split())


if __name__ == "__main__":
    unittest.main()
