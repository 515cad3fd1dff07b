"""The sources as text: definitions in specs/, imports, the files of code, and which crate stands on which.

Nothing here knows the language. It goes by how `rt fmt` leaves a file: what a line begins with, and how far it is in.
"""
import re
from dataclasses import dataclass, field
from pathlib import Path

TOP = Path(__file__).resolve().parents[2]

IMPORT = re.compile(r"^\s*(?:pub )?(?:ghost )?use Rattle\.([\w.]+?)\.(?:\{(.*)\}|TheVariants as ([\w']+));?$", re.M)
SCOPE = re.compile(r"^\s*(?:pub )?(?:ghost )?use (?:Rattle\.)?([a-z][\w.]*?)(?:\.\{(.*)\}|(\.TheVariants)? as ([\w']+));?$", re.M)
HEAD = re.compile(r"^(?:(?:abbrev|unfoldable) )?(?:pub )?(?:record |data )?([A-Za-z_][\w'-]*)(?= [:({])")
WORD = re.compile(r"[A-Za-z_][\w'-]*")
DECLARED = re.compile(r"^(\w+)\.specs\.declared\.(?:([\w.]+)\.)?(\w+)$")      # crate, module (none at its root), type
MODULE = re.compile(r"^(\w+)\.specs\.(\w+)$")
TRAIT = re.compile(r"^pub trait (\w+)", re.M)
MODEL = re.compile(r"^impl(?:<.*>)? Model for (\w+)", re.M)
STRUCT = re.compile(r"^(?:pub(?:\([^)]*\))? )?(?:struct|enum) (\w+)[^;{]*\{(.*?)^\}", re.M | re.S)


@dataclass
class File:
    """A file of definitions."""
    crate: str
    path: Path
    about: str
    whole: int                                      # lines without imports and blank ones
    imports: dict = field(default_factory=dict)     # name -> the module where it stands, without `Rattle.`
    scope: dict = field(default_factory=dict)       # name -> that module, and its name there
    blocks: dict = field(default_factory=dict)      # name -> the lines of its definition, with the comment above it


def imports_of(text):
    """By name the module that a file takes it from."""
    out = {}
    for module, names, alias in IMPORT.findall(text):
        for name in names.split(","):
            out[name.strip().split(" as ")[-1]] = module
        if alias:
            out[alias] = module
    return out


def scope_of(text):
    """By name the module that a file takes it from, and its name there; of a module under another name its name there is empty."""
    out = {}
    for module, names, variants, alias in SCOPE.findall(text):
        for name in names.split(",") if names else ():
            first, _, other = name.strip().partition(" as ")
            out[other or first] = module, first
        if alias:
            out[alias] = module, module.rsplit(".", 1)[-1] if variants else ""
    return out


def read(crate, path):
    """A file of definitions, each with the comment above it."""
    text = path.read_text(encoding="utf-8")
    lines = [line for line in text.split("\n") if line.strip() and not line.lstrip().startswith("use ")]
    about = lines[0].lstrip("- ") if lines and lines[0].startswith("--") else ""
    out = File(crate, path, about, len(lines), imports_of(text), scope_of(text))
    name, above, inside = None, [], False
    for line in lines:
        # What stands in a module with parameters is two columns in.
        if not line.startswith((" ", "--")):
            inside = line.startswith("module ")
        if inside and line.startswith("  "):
            line = line[2:]
        head = HEAD.match(line)
        if line.startswith("--"):
            above.append(line)
        elif head and not line.startswith("module ") and " = " not in line.split(" : ")[0]:
            name = head[1]
            out.blocks.setdefault(name, []).extend(above + [line])
            above = []
        elif name:
            out.blocks[name] += above + [line]
            above = []
    return out


def has_word(line, word):
    return re.search(rf"(?<![\w'-]){re.escape(word)}(?![\w'-])", line) is not None


def sources():
    """The files of code but for tests, each with its path from crates/ on."""
    for path in sorted(TOP.glob("crates/*/src/**/*.rt")):
        if not path.stem.startswith("tests") and "tests" not in path.parts:
            yield path, path.relative_to(TOP / "crates")


def directly():
    """By crate the crates of this repository that crates.txt names behind it, in that order."""
    out = {}
    for line in (TOP / "crates.txt").read_text(encoding="utf-8").split("\n"):
        name, _, below = line.partition(":")
        if name and not name.startswith("#"):
            out[name.split()[0]] = below.split()
    return {name: [other for other in below if other in out] for name, below in out.items()}


def stands_on():
    """By crate the crates of this repository that it stands on, itself among them."""
    own = directly()

    def all_of(name):
        return {name}.union(*(all_of(other) for other in own[name]))

    return {name: all_of(name) for name in own}


def depths(below):
    """By name the longest chain below it."""
    out = {}

    def depth(name):
        if name not in out:
            out[name] = 0
            out[name] = 1 + max((depth(other) for other in below[name]), default=-1)
        return out[name]

    for name in sorted(below):
        depth(name)
    return out
