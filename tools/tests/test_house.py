"""The house: where files stand. The gate refuses the whole tree for one source or definition that stands elsewhere."""
import os
import tempfile
import unittest
from pathlib import Path

from common import TOP

import definitions

SUFFIXES = (".rt", ".antt")
PARTS = ("src", "specs", "proofs")
MADE = {".git", "out", "__pycache__"}       # folders of git, the kit and Python


def astray(top, crates):
    """The sources and definitions below top that stand in no src, specs or proofs of these crates."""
    found = []
    for folder, folders, files in os.walk(top):
        folders[:] = sorted(set(folders) - MADE)
        inside = Path(folder).relative_to(top).parts
        if not (len(inside) >= 3 and inside[0] == "crates" and inside[1] in crates and inside[2] in PARTS):
            found += ["/".join((*inside, name)) for name in sorted(files) if name.endswith(SUFFIXES)]
    return found


class Places(unittest.TestCase):
    def test_sources_stand_in_listed_crates(self):
        self.assertEqual(astray(TOP, set(definitions.directly())), [])

    def test_each_crate_that_stands_here_is_listed(self):
        self.assertEqual(sorted(path.name for path in (TOP / "crates").iterdir() if path.is_dir()), sorted(definitions.directly()))

    def test_strays_are_seen(self):
        with tempfile.TemporaryDirectory() as folder:
            for name in ("crates/one/src/deep/a.rt", "crates/one/specs/A.antt", "crates/one/out/B.antt", "crates/one/b.rt", "crates/two/src/c.rt", "tools/kept/D.antt",
                         "e.rt", "tools/kept/notes.md"):
                path = Path(folder) / name
                path.parent.mkdir(parents=True, exist_ok=True)
                path.touch()
            self.assertEqual(sorted(astray(Path(folder), {"one"})), ["crates/one/b.rt", "crates/two/src/c.rt", "e.rt", "tools/kept/D.antt"])


if __name__ == "__main__":
    unittest.main()
