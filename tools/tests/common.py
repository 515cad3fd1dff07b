"""What the tests of all tools share. `tools/test` says what the environment names."""
import os
import shutil
import subprocess
import sys
import unittest
from pathlib import Path

TOP = Path(__file__).resolve().parents[2]
TOOLS = TOP / "tools"
sys.path.insert(0, str(TOOLS / "parts"))

from builds import path         # noqa: E402

SQRUN, SQREPLAY, SQLIVE = path("sqrun"), path("sqreplay"), path("sqlive")
MODEL = os.environ.get("SQORACLE", "")
KEPT = Path(__file__).resolve().parent / "kept"


def captures():
    """The captures of examples/, and those of the folder that CAPTURES names."""
    folders = [TOP / "examples"] + [Path(name) for name in [os.environ.get("CAPTURES", "")] if name]
    return sorted(path for folder in folders for path in folder.glob("*.pcap"))


def need(program):
    """Skips a test where a program of a Debian package isn't there."""
    if not shutil.which(program):
        raise unittest.SkipTest(f"{program} isn't installed")


def output(command, data=b"", status=0, environment=None):
    """What a command prints; its line on the error output where it is to fail."""
    done = subprocess.run(list(map(str, command)), input=data, capture_output=True, env={**os.environ, **(environment or {})})
    assert done.returncode == status, (command, done.returncode, done.stderr[-2000:])
    return done.stdout if status == 0 else done.stderr


def sqrun(path, *words):
    if not os.access(SQRUN, os.X_OK):
        raise unittest.SkipTest("no sqrun: run ./build, or name it by SQRUN")
    return output([SQRUN, *words], Path(path).read_bytes())


def model(command, path, *words):
    """The independent model, where SQORACLE names it."""
    if not MODEL:
        raise unittest.SkipTest("needs the independent model: SQORACLE")
    return output([sys.executable, MODEL, command, *words], Path(path).read_bytes())


def simulated(path, seed, *words):
    """A report with marks that the model simulates under a schedule made from the seed."""
    return model("simulate", path, "--seed", seed, "--trace", *words)


def kept_traces():
    """(report, capture) of the reports with marks that are kept here: the model made them, of examples/echo_short.pcap."""
    return [(path.read_text(), TOP / "examples" / "echo_short.pcap") for path in sorted(KEPT.glob("*.report"))]
