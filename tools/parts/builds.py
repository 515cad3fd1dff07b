"""Which program a tool runs, and whether it is one without proof."""
import os
import shlex
import shutil
from pathlib import Path

from files import Refused

TOP = Path(__file__).resolve().parents[2]
MARK = b"\nsqueues: UNPROVED, built by tools/try-build\n"
TRACES = (b"__asan_init", b"rattle-llvm-checks")        # of a program that `rt try` compiled, however it came here
NOTE = "served by a program without proof"


def command(name, given=""):
    """The command of a program: the one given, the one that the environment names, the built one, the unproved one, or that on the path."""
    if given:
        return shlex.split(given)
    if os.environ.get(name.upper()):
        return shlex.split(os.environ[name.upper()])
    for path in (TOP / name, TOP / f"{name}-unproved"):
        if os.access(path, os.X_OK):
            return [str(path)]
    if shutil.which(name):
        return [name]
    raise Refused(f"no {name}: ./build proves and builds it, tools/try-build --fast {name} builds it unproved in some minutes, --{name} names another", 2)


def path(name):
    """The program's file as `command` finds it; where it's nowhere, the place where ./build leaves it."""
    try:
        return shutil.which(command(name)[0]) or str(TOP / name)
    except Refused:
        return str(TOP / name)


def is_unproved(words):
    """Whether a word of the command names a program that bears try-build's mark, or has code of `rt try`'s. Names of files say nothing."""
    return any(bears_mark(path) for path in map(shutil.which, words) if path)


def bears_mark(path):
    try:
        data = Path(path).read_bytes()
    except OSError:
        return False
    return data.endswith(MARK) or data.startswith(b"\x7fELF") and any(trace in data for trace in TRACES)
