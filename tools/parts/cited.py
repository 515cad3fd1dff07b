"""What the names in clauses and definitions mean: a definition of specs/, an item of the code, or a name of the kit."""
import re
from dataclasses import dataclass, field

import definitions
import items
from definitions import DECLARED, MODULE, TOP

TOKEN = re.compile(r'"(?:\\.|[^"\\])*"|--.*|(?:(?<=[\w\'\]>)⟧])\.|(?<!\w))(?:[^\W\d]|_)[\w\']*(?:-[a-z][\w\']*)*')
BINDER = re.compile(r"λ ((?:[^\W\d]|_)[\w' ]*)\.|λ? ?[({]((?:[^\W\d]|_)[\w' ]*) : ")
GIVEN = re.compile(r"(?:^|[;{(] ?)\s*(\w+) = ")
LET = re.compile(r"\blet (?:mut )?([\w']+) =")
TAKEN = re.compile(r"[(,<]\s*(?:mut )?&?'?(?:const )?(\w+)(?=[:,>])")
BUILT_IN = set("Type Unit record elim if then else let in case of row result self Self old new now entry exit sem true false _ where pub data abbrev unfoldable as Some None Ok Err tt λ 𝓛".split())


@dataclass
class Meaning:
    """`page`, `id` and `words` of what a name means; a name of the kit has no page."""
    page: str
    id: str
    words: str


def passed_on(crate, name):
    """The module of a crate below whose definitions a crate hands on under this name, if it does."""
    path = TOP / "crates" / crate / "specs" / "Lib.antt"
    for line in path.read_text().splitlines() if path.is_file() else ():
        below = line.removeprefix("pub use Rattle.")
        if below != line and below.endswith(f".specs.{name}"):
            return below
    return None


@dataclass
class Library:
    """All crates with their public items, and their definitions."""
    crates: dict = field(default_factory=dict)
    specs: dict = field(default_factory=dict)       # module -> File, or None
    items: dict = field(default_factory=dict)       # (crate, module, name) -> (page, id)
    dead: list = field(default_factory=list)        # what was asked for and isn't there

    @classmethod
    def of_all(cls):
        out = cls()
        for name in definitions.directly():
            out.crates[name] = items.read_crate(name)
            for path in sorted((TOP / "crates" / name / "specs").glob("*.antt")):
                if path.stem != "Lib":
                    out.spec(f"{name}.specs.{path.stem}")
        for crate in out.crates.values():
            for path, item in crate.public.items():
                out.items[crate.name, item.module, item.name] = (crate.name, path.replace("::", "."))
            for reader in crate.files.values():
                for item in reader.items:
                    if item.kind in ("struct", "enum", "trait"):
                        out.items.setdefault((crate.name, item.module, item.name), (crate.name, f"{item.module}.{item.name}".lstrip(".")))
        return out

    def spec(self, module):
        if module not in self.specs:
            crate, name = MODULE.match(module).groups()
            path = TOP / "crates" / crate / "specs" / f"{name}.antt"
            self.specs[module] = definitions.read(crate, path) if path.is_file() else None
        return self.specs[module]

    def crate_of_kit(self, module):
        return module.split(".")[0] not in self.crates

    def meaning(self, module, word, depth=0):
        """What a name is that is imported from a module; None where it isn't found there."""
        declared = DECLARED.match(module.removesuffix(".TheVariants"))
        if module.split(".")[0] not in self.crates or ".specs.contracts." in module:
            return Meaning("", "", f"of the kit: {module}")
        if declared:
            return self.item(declared[1], declared[2] or "", declared[3]) or self.public(declared[1], declared[3])
        own = MODULE.match(module)
        file = self.spec(module) if own else None
        if file is None:
            # (a constructor: its module is that of a data type in a file)
            above, _, data = module.rpartition(".")
            kept = MODULE.match(above)
            if kept and self.spec(above) and data in self.spec(above).blocks:
                return self.meaning(above, data, depth + 1)
        if own and file is None and depth <= 8:
            below = passed_on(*own.groups())
            return below and self.meaning(below, word, depth + 1)
        if file is None or depth > 8:
            return None
        if not word:
            return Meaning(f"definitions/{own[1]}.html", own[2], f"{own[1]}/specs/{own[2]}.antt")
        holder = word if word in file.blocks else holder_of(file, word)
        if holder is None:
            return self.meaning(*file.scope[word], depth + 1) if word in file.scope else None
        return Meaning(f"definitions/{own[1]}.html", f"{own[2]}.{holder}", f"{own[1]}/specs/{own[2]}.antt")

    def item(self, crate, module, name):
        """An item of the code, by the module where it stands."""
        found = self.items.get((crate, module, name)) or self.items.get((crate, "", name))
        return found and Meaning(f"{found[0]}.html", found[1], f"{found[0]}::{found[1].replace('.', '::')}")

    def rust(self, item, word):
        """What a name of the code is where an item stands: one of its file, or one that the file uses."""
        if (item.crate, item.module, word) in self.items:
            return self.item(item.crate, item.module, word)
        path = item.uses.get(word)
        if path is None:
            return None
        crate, *rest = path.split("::")
        if crate in self.crates:
            return self.public(crate, "::".join(rest))
        if crate in ("crate", "self", "super"):
            near = [key for key in self.items if key[0] == item.crate and key[2] == rest[-1]]
            return self.item(*near[0]) if near else Meaning("", "", path)
        return Meaning("", "", f"of the kit: {path}")

    def public(self, crate, path):
        """A public item by its path, followed where a crate hands it on."""
        item = self.crates[crate].public.get(path) if crate in self.crates else None
        if item:
            return self.item(crate, item.module, item.name)
        further = self.crates[crate].handed_on.get(path) if crate in self.crates else None
        return self.public(*further.split("::", 1)) if further else None


def holder_of(file, word):
    """The definition of a file in which a constructor or a field stands."""
    return next((name for name, lines in file.blocks.items()
                 if any(definitions.has_word(line, word) for line in lines if not line.startswith("--"))), None)


def bound(text):
    """The names that a text itself binds."""
    out = set()
    for lambda_, typed in BINDER.findall(text):
        out |= set((lambda_ or typed).split())
    return out | set(GIVEN.findall(text)) | set(LET.findall(text))


def parameters(signature):
    """The names that a signature gives: of parameters and of types."""
    flat = re.sub(r"\s+", " ", signature)
    return set(TAKEN.findall(flat))


def pieces(text, scope, library, own=(), near=None, member=None):
    """The text in pieces of (text, meaning or None, whether it is a name that isn't found).

    `scope` has the imports; `own` are names that need no meaning; `near` gives the meaning of a name that stands beside, and
    `member` that of a name behind another one and a point.
    """
    known, at, module, last = set(own) | bound(text), 0, "", ""
    for found in TOKEN.finditer(text):
        word = found[0]
        if word.startswith(('"', "--")):
            continue
        yield text[at:found.start()], None, False
        behind, module = (module if found.start() == at else ""), ""
        before, last = (last if found.start() == at else ""), word
        at = found.end()
        if word.startswith("."):
            meaning = library.meaning(behind, word[1:]) if behind else member(before, word[1:]) if member and before else None
            yield word, meaning, bool(behind) and meaning is None
        elif word in scope:
            if scope[word][1] == "":
                module = scope[word][0]
            meaning = library.meaning(*scope[word])
            yield word, meaning, meaning is None
        elif word in known or word in BUILT_IN:
            yield word, None, False
        else:
            meaning = near(word) if near else None
            yield word, meaning, meaning is None
    yield text[at:], None, False
