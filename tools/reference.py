#!/usr/bin/env python3
"""Writes the reference of all crates as plain HTML: public calls with their clauses, types, and definitions, each name linked.

    python3 tools/reference.py [OUT]

OUT is out/reference at the top if it isn't given. A page for each crate has its public calls, types and traits by files of src/, with doc
comments and clauses, and its definitions by files of specs/. A name in a clause, a type or a definition leads to its definition. Below a
definition is what uses it: clauses of public calls, and other definitions. index.html lists the crates, and names.html all names. The pages need
no server and no script.
"""
import re
import sys
from html import escape
from pathlib import Path

sys.dont_write_bytecode = True
from sources import Item, Leaf, Sources
from statement import parameters, references, references_in, shown, signature

TOP = Path(__file__).resolve().parent.parent
STYLE = """body{font:16px/1.45 sans-serif;max-width:60em;margin:2em auto;padding:0 1em;color:#222}pre{font:14px/1.4 monospace;background:#f5f5f2;
padding:.6em .8em;overflow-x:auto;margin:.4em 0}pre+pre{margin-top:-.6em;padding-top:0}code{font:14px monospace;background:#f5f5f2}a{color:#14508c;text-decoration:none}a:hover{text-decoration:
underline}section{margin:1.4em 0;border-top:1px solid #ddd}section:target{background:#fff8dc}h3{margin:.6em 0 .2em}.s{font-size:14px;color:#555}
h2{margin-top:2em;border-bottom:2px solid #888}table{border-collapse:collapse}td,th{padding:.15em 1em .15em 0;vertical-align:top;text-align:left}td:nth-child(n+3){text-align:right}.k{color:#777}"""


def page_of(title, parts, up=True):
    head = f'<html lang="en"><head><meta charset="utf-8"/><title>{escape(title)}</title><style>{STYLE}</style></head>'
    way = '<p class="s"><a href="index.html">All crates</a> · <a href="names.html">All names</a></p>' if up else ""
    return f"<!DOCTYPE html>\n{head}<body>{way}<h1>{escape(title)}</h1>\n" + "\n".join(parts) + "\n</body></html>\n"


def comment_html(lines):
    """Returns a comment as paragraphs and lists."""
    text = "\n".join(re.sub(r"^\s*(?:///|//!|--|//) ?", "", it) for it in lines)
    parts = []
    for block in re.split(r"\n\s*\n", text):
        words = re.sub(r"`([^`]*)`", r"<code>\1</code>", escape(block))
        lead, *points = re.split(r"(?m)^- ", words)
        parts += [f"<p>{lead.strip()}</p>"] * bool(lead.strip())
        parts += ["<ul>" + "".join(f"<li>{it.strip()}</li>" for it in points) + "</ul>"] * bool(points)
    return "\n".join(parts)


# ---- what is public


def exported(sources, crate):
    """Returns the modules that a crate's root makes public, and the names that it hands on."""
    root = sources.units.get((crate, ("src", "lib"))) or sources.units.get((crate, ("src", "main")))
    modules = {*re.findall(r"(?m)^pub mod (\w+)", root.text)} if root else set()
    uses = re.findall(r"(?ms)^pub use ([^;]*);", root.text) if root else []
    return modules, {name for use in uses for name in re.findall(r"\w+(?=\s*[,}]|\s*\Z)", use)}


def public_items(sources, crate):
    """Returns the public items of a crate's sources, by their files: what its root hands on, and what it exports to C. Of a program, all that
    is public in a file, since nothing is handed on."""
    modules, names = exported(sources, crate)
    is_program, found = (crate, ("src", "main")) in sources.units, {}
    for unit in sources.of_crate(crate):
        is_open = is_program or unit.module[1:2] == ("lib",) or unit.module[1] in modules
        items = [it for it in unit.items if it.kind != "impl" and it.is_public]
        items = [it for it in items if is_open or (it.owner or it.name) in names or it.lines[0].startswith('pub extern "C"')]
        if unit.module[0] == "src" and items:
            found[unit] = items
    return found


# ---- the pages


class Reference:
    """All crates, with what uses each definition."""

    def __init__(self, sources):
        self.sources = sources
        self.public = {crate: public_items(sources, crate) for crate in sources.crates}
        self.known = {it for units in self.public.values() for items in units.values() for it in items}
        self.known |= {it for unit in sources.units.values() if unit.module[0] == "specs" for it in unit.items}
        self.by_clauses, self.by_definitions = {}, {}
        for item in self.known:
            if item.kind == "definition":
                for _, _, of in references(sources, item):
                    if isinstance(of, Item) and of is not item:
                        self.by_definitions.setdefault(of, set()).add(item)
            for clause in item.clauses:
                for _, _, of in self.in_clause(item, clause):
                    if isinstance(of, Item):
                        self.by_clauses.setdefault(of, []).append((item, clause))

    def in_clause(self, item, clause):
        """Returns what the words of a clause stand for."""
        text = "\n".join(clause.lines)
        begin = text.index("{") + 1
        return references_in(self.sources, item, text[begin:], {"self", "result", *parameters(item)}, begin)

    def address(self, item, clause=None):
        # (a premise may have the name of what holds after the call)
        of_clause = clause and [clause.name, clause.kind if clause.kind == "requires" else ""] or []
        place = ".".join(it for it in [*item.unit.module, item.owner, item.name, *of_clause] if it)
        return f"{item.unit.crate}.html#{place}"

    def link(self, item, text, clause=None):
        return f'<a href="{escape(self.address(item, clause))}">{escape(text)}</a>' if item in self.known else escape(text)

    def linked(self, text, found):
        """Returns a text with its words linked. What isn't public in src/ isn't linked; a name of the kit has its home as a title."""
        parts, last = [], 0
        for begin, end, of in sorted(found, key=lambda it: it[:2]):
            parts.append(escape(text[last:begin]))
            if isinstance(of, Leaf):
                parts.append(f'<span title="{escape(str(of))}">{escape(text[begin:end])}</span>')
            else:
                parts.append(self.link(of, text[begin:end]) if of else escape(text[begin:end]))
            last = end
        return "".join(parts) + escape(text[last:])

    def section(self, item, title, body):
        """Returns a section with the item's address, its comment, and the place of its source."""
        file = f"crates/{item.unit.crate}/{item.unit.path}"
        place = f'<p class="s k">{item.kind}, <code>{file}</code>, line {item.at}</p>'
        at = escape(self.address(item).partition("#")[2])
        return f'<section id="{at}"><h3>{escape(title)}</h3>{place}\n{comment_html(item.comment)}\n{body}</section>'

    def call(self, item):
        """Returns a public function: its signature and clauses."""
        text = "\n".join(signature(item))
        parts = [f"<pre>{self.linked(text, references_in(self.sources, item, text, {item.name, *parameters(item)}))}</pre>"]
        for clause in item.clauses:
            said = "\n".join(clause.lines)
            at = escape(self.address(item, clause).partition("#")[2])
            name = f' id="{at}"' if clause.name else ""
            comment = comment_html(clause.comment) if clause.comment else ""
            parts.append(f"{comment}<pre{name}>{self.linked(said, self.in_clause(item, clause))}</pre>")
        return self.section(item, own_name(item), "\n".join(parts))

    def users(self, item):
        """Returns which clauses and definitions use an item."""
        clauses = sorted({(str(of), clause.name): (of, clause) for of, clause in self.by_clauses.get(item, [])}.items())
        own = lambda of: "::".join(it for it in (of.unit.crate, of.owner, of.name) if it)
        said = [f"{self.link(of, own(of))} {self.link(of, clause.name, clause)}" for _, (of, clause) in clauses]
        others = [self.link(of, of.name) for of in sorted(self.by_definitions.get(item, []), key=str)]
        parts = [f'<p class="s">In clauses: {", ".join(said)}</p>'] * bool(said)
        return "\n".join(parts + [f'<p class="s">In definitions: {", ".join(others)}</p>'] * bool(others))

    def definition(self, item):
        """Returns a definition, or a type, trait or constant of src/, with what uses it."""
        text = "\n".join(shown(item))
        return self.section(item, item.name, f"<pre>{self.linked(text, references(self.sources, item))}</pre>\n{self.users(item)}")

    def crate(self, crate):
        """Returns the page of a crate."""
        parts = [comment_html(self.summary(crate)), self.stands_on(crate), self.contents(crate)]
        for unit, items in self.public[crate].items():
            parts.append(title_of(unit))
            parts.append(comment_html([it for it in unit.lines if it.startswith("//!")]))
            parts += [self.call(it) if it.kind == "fn" else self.definition(it) for it in items]
        for unit in self.sources.of_crate(crate):
            if unit.module[0] == "specs" and unit.items:
                parts.append(title_of(unit))
                parts.append(comment_html(head_of(unit)))
                parts += [self.definition(it) for it in unit.items]
        return page_of(crate, parts)

    def contents(self, crate):
        """Returns links to what the page has: each public item, and each file of definitions."""
        public = [self.link(it, own_name(it)) for items in self.public[crate].values() for it in items]
        files = [it for it in self.sources.of_crate(crate) if it.module[0] == "specs" and it.items]
        links = [f'<a href="{crate}.html#{place_of(it)}">{escape("/".join(it.module[1:]))}</a>' for it in files]
        said = [f"Public: {', '.join(public)}."] * bool(public) + [f"Definitions: {', '.join(links)}."] * bool(links)
        return "\n".join(f'<p class="s">{it}</p>' for it in said)

    def summary(self, crate):
        root = self.sources.units.get((crate, ("src", "lib"))) or self.sources.units.get((crate, ("src", "main")))
        return [it for it in root.lines if it.startswith("//!")] if root else []

    def stands_on(self, crate):
        links = lambda names: ", ".join(f'<a href="{it}.html">{it}</a>' if it in self.sources.crates else it for it in names)
        above = [it for it in self.sources.crates if crate in self.sources.uses[it]]
        return f'<p class="s">Uses: {links(self.sources.uses[crate]) or "no crate"}. Used by: {links(above) or "no crate"}.</p>'

    def index(self):
        """Returns the page with all crates, lowest first."""
        rows = []
        for crate in self.sources.crates:
            first = re.split(r"(?<=\.)\s", " ".join(re.sub("^//! ?", "", it) for it in self.summary(crate)))[0]
            calls = sum(it.kind == "fn" for items in self.public[crate].values() for it in items)
            own = sum(len(it.items) for it in self.sources.of_crate(crate) if it.module[0] == "specs")
            said = re.sub(r"`([^`]*)`", r"<code>\1</code>", escape(first))
            rows.append(f'<tr><td><a href="{crate}.html">{crate}</a></td><td>{said}</td><td>{calls}</td><td>{own}</td></tr>')
        head = "<tr><th>crate</th><th></th><th>public calls</th><th>definitions</th></tr>"
        return page_of("Reference", ["<p>The crates, lowest first.</p>", f"<table>{head}{''.join(rows)}</table>"])

    def names(self):
        """Returns the page with all names."""
        rows = [
            f'<tr><td>{self.link(it, it.name)}</td><td>{it.kind}</td><td>{escape(str(it).rpartition(".")[0])}</td></tr>'
            for it in sorted(self.known, key=lambda it: (it.name.lower(), str(it)))
        ]
        return page_of("All names", [f"<table>{''.join(rows)}</table>"])


def own_name(item):
    return f"{item.owner}::{item.name}" if item.owner else item.name


def place_of(unit):
    return "/".join(unit.module)


def title_of(unit):
    return f'<h2 id="{place_of(unit)}">{unit.module[0]}: {escape("/".join(unit.module[1:]))}</h2>'


def head_of(unit):
    """Returns the lines that say at a file's beginning what it is for."""
    found = []
    for line in unit.lines:
        if not line.startswith("--"):
            return found
        found.append(line)
    return found


def main(words):
    out = Path(words[0]) if words else TOP / "out" / "reference"
    reference = Reference(Sources(TOP))
    out.mkdir(parents=True, exist_ok=True)
    pages = {crate: reference.crate(crate) for crate in reference.sources.crates}
    for name, text in {**pages, "index": reference.index(), "names": reference.names()}.items():
        (out / f"{name}.html").write_text(text)
    for path in out.glob("*.html"):
        if path.stem not in {*pages, "index", "names"}:
            path.unlink()
    print(f"{out}/index.html: {len(pages)} crates, {len(reference.known)} names")
    return 0


if __name__ == "__main__":
    sys.exit(main(sys.argv[1:]))
