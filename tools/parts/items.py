"""The public items of the crates, as their sources have them: heads, docstrings, signatures, clauses, fields and ghost members.

It goes by how `rt fmt` leaves a file, as definitions.py does: an item begins at the edge of what it stands in, and ends at a `}` or
`;` there. What is public is found from src/lib.rt: through `pub mod` and `pub use`, to the one place where an item stands.
"""
import re
from dataclasses import dataclass, field
from pathlib import Path

from definitions import TOP, scope_of

KINDS = ("fn", "struct", "enum", "trait", "type", "const", "mod", "use", "impl")
START = re.compile(r"(?:pub(?P<narrow>\([\w ]+\))? )?(?:unsafe )?(?P<kind>fn|struct|enum|trait|type|const|mod|use|impl)\b(?: (?P<name>\w+))?")
GHOST = re.compile(r"ghost (?!use )(?P<name>\w+)\s*[:=]")
CLAUSE = re.compile(r"(?P<word>requires|ensures\*?|ghost)(?!\w) ?(?P<name>\w+)?:? *(?=\{)")
FIELD = re.compile(r"(?:pub(?P<narrow>\([\w ]+\))? )?(?P<ghost>ghost )?(?P<name>\w+): (?P<type>.*?),?$")
USED = re.compile(r"use ([\w:]+?)(?:::\{(.*)\}|::(\w+)(?: as (\w+))?);", re.S)
FOR = re.compile(r"(?:(?P<trait>[\w:]+)(?:<.*>)? for )?(?:&(?:mut )?)?(?P<name>[\w\[(]+)")


@dataclass
class Clause:
    """A clause of a contract: `requires`, `ensures` or `ghost`, its name where it has one, and its text."""
    word: str
    name: str
    text: str


@dataclass
class Field:
    """A field of a struct, a variant of an enum, or a ghost member: with its docstring, and whether all may see it."""
    name: str
    text: str
    doc: list
    public: bool = False
    ghost: bool = False


@dataclass
class Item:
    """An item of a file. `home` is the type or trait that a function stands in; `scope` is what names of its clauses mean."""
    kind: str
    name: str
    crate: str
    path: Path
    line: int
    doc: list = field(default_factory=list)
    attributes: list = field(default_factory=list)
    signature: str = ""
    clauses: list = field(default_factory=list)
    fields: list = field(default_factory=list)
    members: list = field(default_factory=list)     # functions of a trait or an impl
    public: bool = False
    trait: str = ""                                 # of an impl
    home: str = ""
    scope: dict = field(default_factory=dict)
    uses: dict = field(default_factory=dict)        # Rust names -> their paths
    also: list = field(default_factory=list)        # further public paths
    module: str = ""                                # of the crate, with dots

    @property
    def where(self):
        return f"{self.path.relative_to(TOP)}:{self.line}"


def depth_of(text):
    """How many brackets stay open, strings and characters left aside."""
    text = re.sub(r'"(?:\\.|[^"\\])*"|\'(?:\\.|[^\'\\])\'|//.*', "", text)
    return sum(text.count(c) for c in "([{") - sum(text.count(c) for c in ")]}")


def closing(text, at):
    """Where the brace at `at` is closed."""
    depth = 0
    for i in range(at, len(text)):
        depth += {"{": 1, "}": -1}.get(text[i], 0)
        if depth == 0:
            return i
    raise ValueError(f"a brace isn't closed: {text[at:at + 60]!r}")


def behind_parameters(head):
    """What an `impl` says behind its own parameters."""
    rest = re.sub(r"^(unsafe )?impl", "", head)
    if rest.startswith("<"):
        depth = 0
        for i, c in enumerate(rest.replace("->", "  ")):
            depth += {"<": 1, ">": -1}.get(c, 0)
            if depth == 0:
                return rest[i + 1:].strip()
    return rest.strip()


def clauses_of(text):
    """(signature, clauses, what stands behind them) of a function or of a ghost member."""
    out, signature, at = [], None, 0
    for found in CLAUSE.finditer(text):
        if found.start() < at or text[:found.start()].rsplit("\n", 1)[-1].strip():
            continue
        signature = text[:found.start()] if signature is None else signature
        at = closing(text, found.end()) + 1
        out.append(Clause(found["word"], found["name"] or "", text[found.end() + 1:at - 1].strip()))
    return (text if signature is None else signature), out, text[at:] if out else ""


class Reader:
    """Reads the items of one file."""

    def __init__(self, crate, path):
        self.crate, self.path = crate, path
        self.lines = path.read_text(encoding="utf-8").split("\n")
        self.scope, self.uses, self.used = {}, {}, []
        below = path.relative_to(TOP / "crates" / crate / "src").with_suffix("")
        self.module = "" if below.name == "lib" else ".".join(below.parts)
        self.head = [line[3:].strip() if len(line) > 3 else "" for line in self.lines if line.startswith("//!")]
        self.scope = scope_of("\n".join(line for line in self.lines if not line.startswith(" ")))
        self.items = self.block(0, len(self.lines), 0, self.scope, "")
        for item in self.every():
            item.uses = self.uses

    def every(self):
        for item in self.items:
            yield item
            yield from item.members

    def end_of(self, i, indent):
        """The last line of what begins at line `i`."""
        edge = " " * indent
        depth, j = 0, i
        while j < len(self.lines):
            line = self.lines[j]
            depth += depth_of(line)
            if j > i and line == edge + "}" or depth == 0 and (line.rstrip().endswith((";", "}")) and not self.goes_on(j, indent)):
                return j
            j += 1
        return len(self.lines) - 1

    def goes_on(self, j, indent):
        """Whether a clause or a body follows behind line `j`, be it behind a comment."""
        if self.lines[j].rstrip().endswith(";"):
            return False
        rest = next((line for line in self.lines[j + 1:] if line.strip() and not line.lstrip().startswith("//")), "")
        edge = " " * indent
        return rest in (edge + "{", edge + "{}") or re.match(rf"{edge}    (?:requires|ensures\*?|ghost|where)\b", rest) is not None

    def block(self, begin, end, indent, scope, home):
        out, doc, attributes, said, i = [], [], [], [], begin
        while i < end:
            line = self.lines[i]
            text = line[indent:] if line.startswith(" " * indent) else ""
            if text.startswith("///"):
                doc.append(text[4:])
            elif text.startswith("#["):
                j = i
                while depth_of("\n".join(self.lines[i:j + 1])):
                    j += 1
                attributes.append("\n".join(part[indent:] for part in self.lines[i:j + 1]))
                i = j
            elif START.match(text) or GHOST.match(text):
                j = self.end_of(i, indent)
                # A law of a trait has a plain comment; of other items it is none of a reader's business.
                item = self.item(i, j, indent, doc or (said if GHOST.match(text) else []), attributes, scope, home)
                if item:
                    out.append(item)
                doc, attributes, said, i = [], [], [], j
            elif text.startswith("// "):
                said = said + [text[3:]]
            elif not text.startswith((" ", "ghost use")):
                doc, attributes, said = [], [], []
            i += 1
        return out

    def item(self, i, j, indent, doc, attributes, scope, home):
        text = "\n".join(line[indent:] for line in self.lines[i:j + 1])
        found = START.match(text)
        if found is None:
            name = GHOST.match(text)["name"]
            return Item("ghost", name, self.crate, self.path, i + 1, doc, attributes, text, public=True, home=home, scope=scope, module=self.module)
        kind, public = found["kind"], text.startswith("pub ")
        if kind == "use":
            self.use(text, public)
            return None
        if "#[cfg(test)]" in attributes or "#[test]" in attributes:
            return None
        item = Item(kind, found["name"] or "", self.crate, self.path, i + 1, doc, attributes, public=public, home=home, scope=scope, module=self.module)
        if kind == "fn":
            self.function(item, text)
        elif kind in ("trait", "impl"):
            head = text.split("{", 1)[0] if "{" in text else text
            item.signature = head.strip()
            if kind == "impl":
                of = FOR.match(behind_parameters(item.signature))
                item.name, item.trait = of["name"], of["trait"] or ""
            own = {**scope, **scope_of("\n".join(self.lines[i:j + 1]))}
            item.scope = own
            item.members = self.block(i + 1, j, indent + 4, own, item.name)
        elif kind in ("struct", "enum"):
            self.parts(item, text)
        else:
            item.signature = text
        return item

    def function(self, item, text):
        # The body begins on a line of its own behind clauses, and else at the end of the head's last line.
        head = re.split(r"\n\{", text, maxsplit=1)[0]
        item.signature, item.clauses, _ = clauses_of(head)
        if not item.clauses:
            item.signature = re.split(r" \{(?:\}|\n|$)", head, maxsplit=1)[0]
        item.signature = item.signature.rstrip().rstrip(";")

    def parts(self, item, text):
        head, _, body = text.partition("{\n")
        item.signature = head.strip().rstrip("{").strip() if body else text
        doc, lines = [], body.split("\n")
        k = 0
        while k < len(lines):
            line = lines[k].strip()
            if line.startswith("///"):
                doc.append(line[4:])
            elif line and line != "}" and not line.startswith(("//", "#[")):
                said = line
                while depth_of(said) > 0 and k + 1 < len(lines):
                    k += 1
                    said += "\n" + lines[k]
                if item.kind == "enum":
                    name = re.match(r"\w+", said)
                    if name:
                        item.fields.append(Field(name[0], said.rstrip().rstrip(","), doc, True))
                else:
                    found = FIELD.match(said.replace("\n", " "))
                    if found:
                        item.fields.append(Field(found["name"], found["type"], doc, said.startswith("pub ") and not found["narrow"], bool(found["ghost"])))
                doc = []
            k += 1

    def use(self, text, public):
        flat = " ".join(text.split())
        flat = re.sub(r"^pub(\([\w ]+\))? ", "", flat)
        found = USED.match(flat)
        if not found:
            return
        path, names, name, alias = found.groups()
        for one in (names.split(",") if names else [f"{name} as {alias}" if alias else name]):
            one = one.strip()
            if one and "{" not in one:
                first, _, other = one.partition(" as ")
                whole = path if first == "self" else f"{path}::{first}"
                called = other or whole.rsplit("::", 1)[-1]
                self.uses[called] = whole
                if public:
                    self.used.append((called, whole))


@dataclass
class Crate:
    """A crate: what its head says, its files by module, and its public items by their public path without the crate's name."""
    name: str
    head: list
    files: dict
    public: dict = field(default_factory=dict)
    handed_on: dict = field(default_factory=dict)   # name -> path in another crate
    modules: dict = field(default_factory=dict)     # public modules -> their heads


def module_files(name):
    src = TOP / "crates" / name / "src"
    out = {}
    for path in sorted(src.glob("**/*.rt")):
        if path.stem.startswith("tests") or "tests" in path.relative_to(src).parts:
            continue
        reader = Reader(name, path)
        out[reader.module] = reader
    return out


def read_crate(name):
    """A crate of the repository, with its public items; a program has only what `main.rt` says at its head."""
    files = module_files(name)
    root = files.get("") or files.get("main")
    crate = Crate(name, root.head if root else [], files)
    if "" in files:
        walk(crate, "", "")
    return crate


def walk(crate, module, path):
    """Finds what is public in a module, whose public path is `path`."""
    reader = crate.files.get(module)
    if reader is None:
        return
    own = {item.name: item for item in reader.items if item.kind in ("fn", "struct", "enum", "trait", "type", "const")}
    for item in own.values():
        if item.public:
            place(crate, item, path + item.name)
    for item in reader.items:
        if item.kind == "mod" and item.public:
            below = f"{module}.{item.name}".lstrip(".")
            crate.modules[path + item.name] = below
            walk(crate, below, f"{path}{item.name}::")
    for called, whole in reader.used:
        follow(crate, module, called, whole, path)


def follow(crate, module, called, whole, path):
    """An item that is handed on: to the place where it stands, in this crate or in another."""
    parts = whole.split("::")
    if parts[0] == "crate":
        at = parts[1:-1]
    elif parts[0] == "self":
        at = ([module] if module else []) + parts[1:-1]
    else:
        near = f"{module}.{parts[0]}".lstrip(".")
        at = ".".join(([module] if module else []) + parts[:-1]).split(".") if near in crate.files else None
    if at is None:
        crate.handed_on[path + called] = whole
        return
    reader = crate.files.get(".".join(at))
    if reader is None:
        return
    for item in reader.items:
        if item.name == parts[-1] and item.kind in ("fn", "struct", "enum", "trait", "type", "const"):
            place(crate, item, path + called)
            return
    for other, again in reader.used:
        if other == parts[-1]:
            follow(crate, ".".join(at), called, again, path)
            return


def place(crate, item, path):
    for known, other in list(crate.public.items()):
        if other is item:
            shorter, longer = sorted((known, path), key=lambda p: (p.count("::"), p))
            if longer != shorter:
                item.also.append(longer)
            del crate.public[known]
            crate.public[shorter] = item
            return
    crate.public[path] = item


def impls_of(crate):
    """By name of a type its `impl` blocks, wherever in the crate they stand."""
    out = {}
    for reader in crate.files.values():
        for item in reader.items:
            if item.kind == "impl":
                out.setdefault(item.name, []).append(item)
    return out
