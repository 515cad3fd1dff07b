"""manual: the page of sqrun is up to date, its usage line is the program's own, and those of tools have their options."""
import os
import re
import shutil
import subprocess
import unittest

from common import SQRUN, TOOLS, TOP, output

PAGE = TOP / "docs" / "man" / "sqrun.1"


class Manual(unittest.TestCase):
    def test_up_to_date(self):
        output([TOOLS / "manual", "--check"])

    def test_the_usage_line(self):
        if not os.access(SQRUN, os.X_OK):
            self.skipTest("no sqrun: run ./build, or name it by SQRUN")
        said = output([SQRUN, "--no-such-word"], status=2).decode()
        shown = PAGE.read_text().split(".B sqrun\n")[1].split("\n")[0].replace("\\-", "-")
        self.assertEqual(said, f"usage: sqrun {shown}\n")

    def test_options_of_the_tools(self):
        """The page of a tool has the options that its --help has."""
        for name in ("sq", "sqdiff", "api"):
            shown = PAGE.with_name(f"{name}.1").read_text().replace("\\-", "-")
            said = output([TOOLS / name, "--help"]).decode()
            self.assertEqual(*(set(re.findall(r"--[a-z]+", text)) for text in (shown, said)), name)

    def test_man_reads_it(self):
        if not shutil.which("man"):
            self.skipTest("man isn't installed")
        done = subprocess.run(["man", "--warnings", "-l", PAGE], capture_output=True, text=True, env={**os.environ, "LC_ALL": "C.UTF-8"})
        self.assertEqual((done.returncode, done.stderr), (0, ""))


if __name__ == "__main__":
    unittest.main()
