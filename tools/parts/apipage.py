"""Pages of the crates' public items: HTML that asks for nothing from the net."""
import json
import re
from dataclasses import dataclass, field
from html import escape
from pathlib import Path

import cited
import definitions
from definitions import TOP
from items import impls_of

HERE = Path(__file__).resolve().parent
KIND_WORDS = {"fn": "function", "struct": "struct", "enum": "enum", "trait": "trait", "type": "type", "const": "constant"}
BOUND = re.compile(r"\b([A-Z]\w*): ([A-Z]\w*(?: \+ [A-Z]\w*)*)")
GROUPS = (("trait", "Traits"), ("struct enum type", "Types"), ("fn", "Functions"), ("const", "Constants"))
TITLE = "The crates of squeues"
NOT_PROVED = "Made by tools/api from the sources. The checker has proved the clauses; that this page shows them rightly is only tested."
# What a reader begins with: a crate's page, or an item by its crate; where it has moved, in the crate that has it now.
BEGIN = (
    ("Parts of your own, served by key", (("squeue", ""), ("placed_parts", "Parts"), ("squeue_pool", "Pool"), ("squeue_pool", "serve_by_key"),
                                          ("squeue_pool", "Served"), ("squeue_calls", "serve_called"), ("key_counters", "count"))),
    ("A squeue by itself, for a resident of your own",
     (("placed_parts", "Places"), ("squeue_state", "Squeue.make"), ("squeue_enter", "enter"), ("squeue_drain", "worker"),
      ("synch_enter", "synch_enter"), ("synch_enter", "call"), ("squeue_serve", "run_each"), ("squeue_state", "Squeue.finish"))),
    ("TCP alone", (("segment_codec", "decode"), ("echo_services", "serve"), ("echo_services", "tick"), ("echo_services", "ask"), ("tcb_machine", "Tcb"), ("segment_codec", "encode"))),
    ("A server over the net", (("live_server", "Server"), ("live_run", "serve_frames_of"))),
    ("Captures", (("capture_reader", "read_capture"), ("pcapng_reader", "parse_pcapng"), ("conn_classifier", "Plan"))),
)


@dataclass
class Gaps:
    """What `--check` tells: each is a line that begins with where it stands."""
    names: list = field(default_factory=list)       # cited and not found
    silent: list = field(default_factory=list)      # public items without a docstring
    dead: list = field(default_factory=list)        # links of a docstring that lead nowhere


@dataclass
class Site:
    """What all pages know."""
    library: cited.Library
    chosen: list
    gaps: Gaps = field(default_factory=Gaps)
    index: list = field(default_factory=list)       # rows of the search: [name, kind, crate, link, words]
    pages: dict = field(default_factory=dict)       # name of a file -> its text


def code(text):
    return f"<code>{escape(text)}</code>"


def first_sentence(doc):
    words = " ".join(doc[:next((i for i, line in enumerate(doc) if not line.strip()), len(doc))])
    return re.split(r"(?<=\.) (?=[A-Z`])", words, maxsplit=1)[0]


def behind_first_sentence(doc):
    """The lines of a docstring without its first sentence."""
    end = next((i for i, line in enumerate(doc) if not line.strip()), len(doc))
    return [" ".join(doc[:end])[len(first_sentence(doc)):].strip(), *doc[end:]]


# Docstrings

def inline(text, link):
    """A line of a docstring: code, links to items, emphasis."""
    out = []
    for part in re.split(r"(\[`[^`]+`\](?:\([^)\s]+\))?|`[^`]+`|\[[^\]]+\]\([^)\s]+\))", text):
        named = re.fullmatch(r"\[`([^`]+)`\](?:\(([^)]+)\))?", part)
        plain = re.fullmatch(r"\[([^\]]+)\]\(([^)]+)\)", part)
        if named:
            out.append(link(named[2] or named[1], code(named[1])))
        elif plain:
            out.append(link(plain[2], escape(plain[1])))
        elif part.startswith("`") and len(part) > 2:
            out.append(code(part[1:-1]))
        else:
            out.append(re.sub(r"\*([^*\s][^*]*)\*", r"<em>\1</em>", escape(part, quote=False)))
    return "".join(out)


def table(rows, link):
    cells = [[cell.strip() for cell in row.strip().strip("|").split("|")] for row in rows]
    head, body = cells[0], cells[2:]
    line = lambda row, tag: "<tr>" + "".join(f"<{tag}>{inline(cell, link)}" for cell in row)
    return '<div class="rows"><table>' + line(head, "th") + "".join(line(row, "td") for row in body) + "</table></div>"


def prose(doc, link):
    """A docstring as HTML: paragraphs, heads, lists, tables and fenced blocks."""
    out, i = [], 0
    while i < len(doc):
        line = doc[i]
        j = i + 1
        if line.lstrip().startswith("```"):
            while j < len(doc) and not doc[j].lstrip().startswith("```"):
                j += 1
            out.append("<pre class=example tabindex=0>" + escape("\n".join(doc[i + 1:j])) + "</pre>")
            j += 1
        elif line.startswith("#"):
            out.append(f"<p class=label>{inline(line.lstrip('# '), link)}</p>")
        elif line.startswith("|"):
            while j < len(doc) and doc[j].startswith("|"):
                j += 1
            out.append(table(doc[i:j], link))
        elif re.match(r"[-*] ", line):
            while j < len(doc) and doc[j].strip() and not doc[j].startswith(("#", "|", "```")):
                j += 1
            parts = re.split(r"(?:^|\n)[-*] ", "\n".join(doc[i:j]))[1:]
            out.append("<ul>" + "".join(f"<li>{inline(part, link)}" for part in parts) + "</ul>")
        elif line.strip():
            while j < len(doc) and doc[j].strip() and not re.match(r"#|\||```|[-*] ", doc[j]):
                j += 1
            out.append(f"<p>{inline(' '.join(doc[i:j]), link)}</p>")
        i = j
    return "".join(out)


# Names

def linked(site, parts, up, where, ident=""):
    """The pieces of a text as HTML; a name that isn't found is told."""
    out = []
    for text, meaning, missing in parts:
        if missing:
            site.gaps.names.append(f"{where}: {text.lstrip('.')} isn't found")
            out.append(f'<span class=missing title="not found">{escape(text)}</span>')
        elif meaning and meaning.page and has_page(site, meaning.page) and not (ident and meaning.id == ident):
            target = ' target=beside' if meaning.page.startswith("definitions/") else ""
            dot = "." if text.startswith(".") else ""
            out.append(f'{dot}<a href="{address(meaning.page, up)}#{escape(meaning.id)}"{target} title="{escape(meaning.words)}">{escape(text.lstrip("."))}</a>')
        elif meaning and meaning.words:
            out.append(f'<span title="{escape(meaning.words)}">{escape(text)}</span>')
        else:
            out.append(escape(text))
    return "".join(out)


def has_page(site, page):
    return Path(page).stem in site.chosen


def address(page, up):
    """A page as seen from one that stands `up` folders below the top; those of definitions see each other as neighbours."""
    if up and page.startswith("definitions/"):
        return page.removeprefix("definitions/")
    return "../" * up + page


def link_of(site, item, crate, up=0):
    """How a docstring's links are followed: by the names that stand where the item does."""
    def link(target, shown):
        if target.startswith("http"):
            return f'<a href="{escape(target)}">{shown}</a>'
        beside = ((item.path if item else TOP / "crates" / crate / "src" / "lib.rt").parent / target).resolve()
        if "/" in target and beside.is_file() and TOP in beside.parents:
            other = beside.relative_to(TOP).parts[1]
            return f'<a href="{other}.html">{shown}</a>' if other in site.chosen else shown
        path = target.replace("::", ".").removesuffix("()").removeprefix("Self.").removeprefix("crate.")
        for name in (path, f"{item.name}.{path}" if item else "", f"{item.home}.{path}" if item else ""):
            if name in ids_of(site, crate):
                return f'<a href="#{name}">{shown}</a>'
        base, _, rest = path.partition(".")
        if base in site.library.crates and rest in ids_of(site, base):
            return f'<a href="{base}.html#{rest}">{shown}</a>'
        meaning = site.library.rust(item, base) if item else site.library.public(crate, base)
        if meaning and meaning.page:
            return f'<a href="{meaning.page}#{meaning.id}{"." + rest if rest else ""}">{shown}</a>'
        site.gaps.dead.append(f"{item.where if item else f'crates/{crate}/src/lib.rt'}: the link to {target} leads nowhere")
        return shown
    return link


def ids_of(site, crate):
    """The public items of a crate and their functions, as the page names them."""
    if crate not in IDS:
        known = site.library.crates[crate]
        blocks = impls_of(known)
        IDS[crate] = {path.replace("::", ".") for path in known.public} | {
            f"{path.replace('::', '.')}.{member.name}" for path, item in known.public.items()
            for block in [item, *blocks.get(item.name, ())] for member in block.members if member.kind == "fn" and (member.public or item.kind == "trait")}
    return IDS[crate]


IDS = {}


# Items

def clause_list(site, item, about, ident):
    """A contract as a list: each clause with its word, its name and its text."""
    rows, seen = [], set()
    for clause in item.clauses:
        anchor = f"{ident}.{clause.word.rstrip('*')}.{clause.name}" if clause.name else ""
        mark = f' id="{anchor}"' if anchor and anchor not in seen else ""
        seen.add(anchor)
        text = dedented(clause.text)
        shown = linked(site, cited.pieces(text, item.scope, site.library, about.own, about.near, about.member), 0,
                       f"{item.where}: {item.name}, {clause.word} {clause.name}".rstrip())
        name = f' <a class=own href="#{anchor}">{escape(clause.name)}</a>' if mark else f" {escape(clause.name)}" if clause.name else ""
        rows.append(f'<dt class="{clause.word.rstrip("*")}"{mark}><span>{clause.word.rstrip("*")}</span>{name}<dd><pre>{shown}</pre>')
    return f"<dl class=clauses>{''.join(rows)}</dl>" if rows else ""


@dataclass
class Context:
    """What the names of a contract mean that the item and what it stands in give: for cited.pieces."""
    own: set
    near: object
    member: object


def context(site, item, *around):
    own = own_names(item, *around)
    bounds = {name: trait_of(site, item, word) for one in (item, *around) for name, words in BOUND.findall(one.signature) for word in words.split(" + ")
              if trait_of(site, item, word)}
    trait = next((one for one in around if one.kind == "trait"), None)
    ghosts = {member.name for member in trait.members if member.kind == "ghost"} if trait else set()
    beside = names_beside(site, item)

    def near(word):
        if word in ghosts:
            return ghost_meaning(site, trait, word)
        return site.library.rust(item, word) or (cited.Meaning("", "", "") if word in beside else None)

    def member(base, word):
        return ghost_meaning(site, bounds[base], word) if base in bounds else None

    return Context(own - ghosts, near, member)


def trait_of(site, item, word):
    """A public trait of the repository, by its name where an item stands."""
    found = site.library.rust(item, word)
    crate = site.library.crates.get(found.page.removesuffix(".html")) if found and found.page else None
    trait = crate.public.get(found.id.replace(".", "::")) if crate else None
    return trait if trait and trait.kind == "trait" else None


def ghost_meaning(site, trait, word):
    if not any(member.kind == "ghost" and member.name == word for member in trait.members):
        return None
    found = site.library.item(trait.crate, trait.module, trait.name)
    return found and cited.Meaning(found.page, f"{found.id}.ghost.{word}", f"{found.words}, ghost {word}")


def names_beside(site, item):
    return {other.name for other in site.library.crates[item.crate].files[item.module].items}


def dedented(text):
    lines = text.split("\n")
    least = min((len(line) - len(line.lstrip()) for line in lines[1:] if line.strip()), default=0)
    return "\n".join([lines[0], *("    " + line[least:] for line in lines[1:])])


def rust_code(site, item, text, ident=""):
    """Code outside contracts, its types linked."""
    def near(word):
        return site.library.rust(item, word) or cited.Meaning("", "", "")
    return linked(site, cited.pieces(text, {}, site.library, (), near), 0, item.where, ident)


def silent(site, item, name):
    if not any(line.strip() for line in item.doc):
        site.gaps.silent.append(f"{item.where}: {name} has no docstring")


def own_names(item, *around):
    """The names that the signatures around a clause give."""
    out = {clause.name for clause in item.clauses if clause.word == "ghost"}
    for one in (item, *around):
        out |= cited.parameters(one.signature) | {member.name for member in one.members if member.kind in ("ghost", "type")} | {part.name for part in one.fields}
    return out


def function(site, item, ident, level, around, crate):
    words = first_sentence(item.doc)
    name = ident.replace(".", "::")
    silent(site, item, f"{crate}::{name}")
    site.index.append([name, "function", crate, f"{crate}.html#{ident}", words])
    about = context(site, item, *around)
    return (f'<section class=fn id="{ident}"><h{level}><a class=own href="#{ident}">{escape(item.name)}</a></h{level}>'
            f'<pre class=head>{rust_code(site, item, item.signature, ident)}</pre>{prose(item.doc, link_of(site, item, crate))}'
            f'{clause_list(site, item, about, ident)}<p class=source>{escape(item.where)}</p></section>')


def ghost_rows(site, block, around, ident=""):
    """Ghost members: of a trait what its users write, of an `impl` what was written."""
    rows = []
    for member in block.members:
        if member.kind != "ghost":
            continue
        said = re.match(r"ghost (\w+)(\s*[:=]\s*)\{(.*)\};?\s*$", member.signature, re.S)
        text = dedented(said[3].strip()) if said else member.signature
        about = context(site, member, block, *around)
        shown = linked(site, cited.pieces(text, member.scope, site.library, about.own, about.near, about.member), 0, f"{member.where}: {block.name}, ghost {member.name}")
        doc = prose(member.doc, link_of(site, member, member.crate))
        mark = f' id="{ident}.ghost.{member.name}"' if ident else ""
        rows.append(f"<dt class=ghost{mark}><span>ghost</span> {escape(member.name)}<dd>{doc}<pre>{shown}</pre>")
    return f"<dl class=clauses>{''.join(rows)}</dl>" if rows else ""


def field_rows(site, item):
    """What all may see of a struct or an enum, and its ghost fields."""
    rows = []
    for part in item.fields:
        if not (part.public or part.ghost):
            continue
        shown = part.text
        if part.ghost:
            # What holds of it, without how that is shown (`by { .. }`).
            text = re.sub(r"\}\s*by\s*\{.*\}$", "}", shown.strip(), flags=re.S).removeprefix("{").removesuffix("}").strip()
            about = context(site, item)
            body = linked(site, cited.pieces(text, item.scope, site.library, about.own, about.near, about.member), 0, f"{item.where}: {item.name}, ghost {part.name}")
        else:
            body = rust_code(site, item, shown)
        label = "<span>ghost</span> " if part.ghost else ""
        name = "" if item.kind == "enum" else escape(part.name)
        rows.append(f"<dt{' class=ghost' if part.ghost else ''}>{label}{name}<dd><pre>{body}</pre>{prose(part.doc, link_of(site, item, item.crate))}")
    hidden = any(not part.public and not part.ghost for part in item.fields)
    more = "<p class=quiet>It has private fields too.</p>" if hidden and rows else ""
    word = "variants" if item.kind == "enum" else "fields"
    return f'<dl class="clauses {word}">{"".join(rows)}</dl>{more}' if rows else ""


def derived(item):
    return ", ".join(code(name.strip()) for attribute in item.attributes for found in re.findall(r"derive\((.*?)\)", attribute, re.S) for name in found.split(",") if name.strip())


def entry(site, item, path, blocks, crate):
    """A public item, with its fields, its functions and what it implements."""
    ident = path.replace("::", ".")
    if item.kind == "fn":
        return function(site, item, ident, 3, (), crate)
    silent(site, item, f"{crate}::{path}")
    site.index.append([path, KIND_WORDS[item.kind], crate, f"{crate}.html#{ident}", first_sentence(item.doc)])
    parts = [f'<section class=item id="{ident}"><h3><span class=kind>{KIND_WORDS[item.kind]}</span> <a class=own href="#{ident}">{escape(path)}</a></h3>',
             f"<pre class=head>{rust_code(site, item, item.signature, ident)}</pre>", prose(item.doc, link_of(site, item, crate)), field_rows(site, item)]
    if item.kind == "trait":
        assigned = [member.signature.rstrip(";") for member in item.members if member.kind == "type"]
        if assigned:
            docs = [(member, first_sentence(member.doc)) for member in item.members if member.kind == "type"]
            parts.append("<p class=label>Types that you choose</p><dl class=clauses>"
                         + "".join(f"<dt>{escape(member.name)}<dd><pre>{escape(member.signature.rstrip(';'))}</pre><p>{escape(words)}</p>" for member, words in docs) + "</dl>")
        ghosts = ghost_rows(site, item, (), ident)
        parts.append(f"<p class=label>Ghost members that you write, for contracts alone</p>{ghosts}" if ghosts else "")
        parts += [function(site, member, f"{ident}.{member.name}", 4, (item,), crate) for member in item.members if member.kind == "fn"]
    seen = [derived(item)] if derived(item) else []
    functions, listed = [], []
    for block in sorted(blocks, key=lambda block: block.path != item.path):
        if block.trait == "Model":
            parts.append(f"<p class=label>What contracts see</p>{ghost_rows(site, block, ())}")
        elif block.trait:
            of = site.library.rust(block, block.trait.split("::")[0])
            name = f'<a href="{of.page}#{of.id}">{code(block.trait)}</a>' if of and of.page and has_page(site, of.page) else code(block.trait)
            seen.append(name)
            ghosts = ghost_rows(site, block, ())
            parts.append(f"<details><summary>As {escape(block.trait)}</summary><pre class=head>{escape(block.signature)}</pre>{ghosts}</details>" if ghosts else "")
        else:
            listed += [member for member in block.members if member.kind == "fn" and member.public]
            functions += [function(site, member, f"{ident}.{member.name}", 4, (block,), crate) for member in block.members if member.kind == "fn" and member.public]
    listed += [member for member in item.members if member.kind == "fn"]
    if len(listed) > 2:
        parts.insert(3, "<p class=contents>Calls: " + ", ".join(f'<a href="#{ident}.{member.name}">{escape(member.name)}</a>' for member in listed) + "</p>")
    if seen:
        parts.append(f"<p class=quiet>Implements {', '.join(seen)}</p>")
    if item.also:
        parts.append(f"<p class=quiet>Also as {', '.join(code(other) for other in item.also)}</p>")
    parts.append(f"<p class=source>{escape(item.where)}</p>")
    return "".join(parts + functions) + "</section>"


# Pages

def page(title, body, up=0, script=True, name="page"):
    """A whole page. Scripts and styles stand beside it."""
    top = "../" * up
    search = ('<form class=search role=search><label for=find>Search</label><input id=find type=search autocomplete=off spellcheck=false '
              'placeholder="a type, a call, a clause\'s definition" aria-controls=hits aria-keyshortcuts=/><ol id=hits hidden></ol></form>') if script else ""
    scripts = f'<script src="{top}names.js" defer></script><script src="{top}api.js" defer></script>' if script else f'<script src="{top}definitions.js" defer></script>'
    beside = ('<aside id=beside hidden aria-label="Definition"><p><button type=button id=beside.close>Close</button> <a id=beside.whole href="#">Open as a page</a></p>'
              '<iframe name=beside title="Definition"></iframe></aside>') if script else ""
    header = f'<header><a href="{top}index.html">{TITLE}</a>{search}</header>' if script else ""
    return (f'<!doctype html><html lang=en><meta charset=utf-8><meta name=viewport content="width=device-width,initial-scale=1"><title>{escape(title)}</title>'
            f'<link rel=stylesheet href="{top}api.css"><body class={name}>{header}<main>{body}</main>{beside}{scripts}</html>\n')


def names_of_crates(site, names):
    return ", ".join(f'<a href="{name}.html">{name}</a>' if name in site.chosen else name for name in names) or "nothing here"


def crate_page(site, name):
    """A crate: its head, what it stands on, and its public items by kind, laws last."""
    crate = site.library.crates[name]
    below, blocks = definitions.directly(), impls_of(crate)
    root = next((item for item in crate.files.get("", crate.files.get("main")).items), None) if crate.files else None
    site.index.append([name, "crate", name, f"{name}.html", first_sentence(crate.head)])
    if not crate.head:
        site.gaps.silent.append(f"crates/{name}: its root doesn't say what it is for")
    parts = [f"<h1><span class=kind>crate</span> {name}</h1>", prose(crate.head, link_of(site, root, name)),
             f"<p>Stands on: {names_of_crates(site, below[name])}.<br>Under: {names_of_crates(site, [other for other in below if name in below[other]])}.</p>"]
    own = [module for module in site.library.specs if module.startswith(f"{name}.specs.") and site.library.specs[module]]
    if own:
        links = ", ".join(f'<a target=beside href="definitions/{name}.html#{module.split(".")[-1]}">{module.split(".")[-1]}</a>' for module in own)
        parts.append(f"<p>Its definitions: {links}.</p>")
    if crate.handed_on:
        handed = []
        for called, whole in sorted(crate.handed_on.items()):
            to = site.library.public(*whole.split("::", 1)) if "::" in whole else None
            handed.append(f'<a href="{to.page}#{to.id}">{code(whole)}</a>' if to and has_page(site, to.page) else code(whole))
        parts.append(f"<p>Hands on: {', '.join(handed)}.</p>")
    body = []
    groups = [(title, [(path, item) for path, item in sorted(crate.public.items()) if item.kind in kinds.split() and not path.startswith(("laws::", "worked::"))])
              for kinds, title in GROUPS]
    groups.append(("Laws and worked examples", [(path, item) for path, item in sorted(crate.public.items()) if path.startswith(("laws::", "worked::"))]))
    contents = []
    for title, listed in groups:
        if not listed:
            continue
        anchor = title.split()[0].lower()
        contents.append(f'<li><a href="#-{anchor}">{title}</a>: ' + ", ".join(f'<a href="#{path.replace("::", ".")}">{escape(path)}</a>' for path, _ in listed))
        body.append(f'<h2 id="-{anchor}">{title}</h2>' + "".join(entry(site, item, path, blocks.get(item.name, ()), name) for path, item in listed))
    hidden = hidden_types(site, crate)
    if hidden:
        body.append('<h2 id="-named">Named by contracts alone</h2><p class=quiet>These are private; clauses and definitions speak of them.</p>'
                    + "".join(private_entry(site, item, blocks.get(item.name, ())) for item in hidden))
    nav = f"<nav><ul class=contents>{''.join(contents)}</ul></nav>" if contents else "<p class=quiet>It has no public item: it is a program, or an example.</p>"
    site.pages[f"{name}.html"] = page(name, "".join(parts) + nav + "".join(body))


def hidden_types(site, crate):
    """The private types of a crate for which a clause or a definition may have a link."""
    known = set(map(id, crate.public.values()))
    return [item for reader in crate.files.values() for item in reader.items if item.kind in ("struct", "enum", "trait") and id(item) not in known]


def private_entry(site, item, blocks):
    ident = f"{item.module}.{item.name}".lstrip(".")
    see = "".join(f"<p class=label>What contracts see</p>{ghost_rows(site, block, ())}" for block in blocks if block.trait == "Model")
    shown = "".join(f"<dt>{'' if item.kind == 'enum' else escape(part.name)}<dd><pre>{escape(part.text)}</pre>" for part in item.fields)
    return (f'<section class=item id="{ident}"><h3><span class=kind>{KIND_WORDS[item.kind]}</span> {escape(item.name)}</h3><pre class=head>{escape(item.signature)}</pre>'
            f'{prose(item.doc, link_of(site, item, item.crate))}<dl class="clauses">{shown}</dl>{see}<p class=source>{escape(item.where)}</p></section>')


def definition_page(site, name):
    """All definitions of a crate, file by file, each a place of its own."""
    parts = []
    for module, file in list(site.library.specs.items()):
        if not file or file.crate != name:
            continue
        short = module.split(".")[-1]
        opening = opening_of(file.path)
        parts.append(f'<section id="{short}"><h2>{short}</h2><p>{escape(" ".join(line.lstrip("- ") for line in opening))}</p>')
        site.index.append([short, "definitions", name, f"definitions/{name}.html#{short}", file.about.split(". ")[0]])
        for word, lines in file.blocks.items():
            said = [line.lstrip("- ") for line in lines if line.startswith("--") and line not in opening]
            text = "\n".join(line for line in lines if not line.startswith("--"))
            words = f"<p>{escape(' '.join(said))}</p>" if said else ""
            shown = linked_definition(site, text, file, f"definitions/{name}.html", f"{short}.{word}")
            parts.append(f'<div class=definition id="{short}.{escape(word)}" tabindex=-1>{words}<pre>{shown}</pre></div>')
            site.index.append([word, "definition", name, f"definitions/{name}.html#{short}.{word}", " ".join(said)[:160]])
        parts.append(f"<p class=source>{file.path.relative_to(TOP)}</p></section>")
    if parts:
        site.pages[f"definitions/{name}.html"] = page(f"Definitions of {name}", f'<h1>Definitions of <a target=_top href="../{name}.html">{name}</a></h1>' + "".join(parts), 1, False, "specs")


def opening_of(path):
    """The comment that a file of definitions opens with."""
    lines = path.read_text(encoding="utf-8").split("\n")
    return lines[:next((i for i, line in enumerate(lines) if not line.startswith("--")), len(lines))]


def linked_definition(site, text, file, page_name, ident):
    """A definition's text, with links to others. The name of a field is none where the field is declared."""
    own, out = cited.bound(text) | {ident.split(".", 1)[1]}, []

    def near(word):
        return cited.Meaning(page_name, f"{file.path.stem}.{word}", "") if word in file.blocks else None

    for line in text.split("\n"):
        declared = re.match(r"\s+(?:pub )?[\w'-]+(?= :)", line)
        at = declared.end() if declared else 0
        shown = [escape(line[:at])]
        for piece, meaning, _ in cited.pieces(line[at:], file.scope, site.library, own, near):
            if meaning and meaning.page and has_page(site, meaning.page) and meaning.id != ident:
                target = "" if meaning.page.startswith("definitions/") else " target=_top"
                shown.append(f'<a href="{address(meaning.page, 1)}#{escape(meaning.id)}"{target}>{escape(piece)}</a>')
            else:
                shown.append(escape(piece))
        out.append("".join(shown))
    return "\n".join(out)


def begin_list(site):
    """Where a reader with a purpose begins, in the order of use."""
    said = {(crate, link.rpartition("#")[2]): words for _, _, crate, link, words in site.index}
    out = []
    for title, ways in BEGIN:
        rows = []
        for crate, ident in ways:
            if ident:
                crate = crate if (crate, ident) in said else next((other for other, name in said if name == ident), crate)
            if crate in site.chosen:
                link, words = (f"{crate}.html#{ident}", said.get((crate, ident), "")) if ident else (f"{crate}.html", first_sentence(site.library.crates[crate].head))
                rows.append(f'<li><a href="{link}">{code("::".join([crate, *filter(None, ident.split("."))]))}</a> {inline(words, link_plain)}')
        if rows:
            out.append(f"<h3>{title}</h3><ol class=begin>{''.join(rows)}</ol>")
    return "".join(out)


def index_page(site):
    below = definitions.directly()
    rows = {True: [], False: []}
    for name in site.chosen:
        crate = site.library.crates[name]
        words = inline(first_sentence(crate.head), link_plain)
        more = prose(behind_first_sentence(crate.head), link_plain)
        words += f"<details><summary>More</summary>{more}</details>" if more else ""
        rows[bool(crate.public)].append(f'<tr><td><a href="{name}.html">{name}</a><td>{words}<td class=on>{names_of_crates(site, below[name])}')
    head = "<tr><th>Crate<th>What it is for<th>Stands on"
    body = (f"<h1>{TITLE}</h1><p>The public items of each crate: what they are for, what they promise, and the definitions that say it. Press <kbd>/</kbd> to search.</p>"
            f"<h2>Where to begin</h2>{begin_list(site)}<h2>Libraries, lowest first</h2><div class=rows><table>{head}{''.join(rows[True])}</table></div>")
    if rows[False]:
        body += f"<h2>Programs, examples and what has no public item</h2><div class=rows><table>{head}{''.join(rows[False])}</table></div>"
    site.pages["index.html"] = page(TITLE, body + f"<p class=quiet>{NOT_PROVED}</p>")


def link_plain(_, shown):
    return shown


def site_of(chosen, library):
    """All pages of the chosen crates, and what is missing in them."""
    site = Site(library, chosen)
    for name in chosen:
        crate_page(site, name)
        definition_page(site, name)
    index_page(site)
    site.pages["names.js"] = "const NAMES=" + json.dumps(site.index, separators=(",", ":"), ensure_ascii=False) + ";\n"
    for name in ("api.css", "api.js", "definitions.js"):
        site.pages[name] = (HERE / name).read_text(encoding="utf-8")
    return site
