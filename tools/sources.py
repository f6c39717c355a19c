"""Reads the sources of the repository: the definitions of specs/, the items of src/, and what each name in them stands for.

A name is followed by the imports of its file (`use`, `ghost use`), and in a file of src/ also by Rust's paths and by the traits of
type parameters. A name of the kit is a `Leaf`. The layout is the one that `rt fmt` gives.
"""
import re
from dataclasses import dataclass, field
from pathlib import Path

WORD = re.compile(r"[A-Za-z_][\w']*(?:-\w+)*(?:\.[A-Za-z_][\w']*(?:-\w+)*)*")
HEAD = re.compile(r"( *)(?:(?:abbrev|unfoldable) pub|pub (?:record|data)|pub(?! (?:mod|use|record|data))) (?!use )([A-Za-z_][\w-]*)")
USE = re.compile(r"( *)(?:ghost )?use (Rattle\.[\w.]+|(?:mathlib|lib|Prim)[\w.]*)(?: as (\w+)|\.\{([^}]*)\});?", re.S)
RUST_USE = re.compile(r"(?m)^(?:pub )?use ([^;{]*)(?:\{([^;]*)\})?;")
ITEM = re.compile(
    r"( *)(?:(pub)(?:\((?:crate|super)\))? )?(?:unsafe )?(?:extern \"C\" )?(?:const )?"
    r"(fn|struct|enum|trait|type|const|static|impl)\b(?:<[^>]*>)? ?(\w*)"
)
CLAUSE = re.compile(r"( *)(requires|ensures)(?: (\w+))? \{")
BINDERS = (
    re.compile(r"λ ([^.]*)\."),
    re.compile(r"\blet ([a-z_]\w*)"),
    re.compile(r"[({]\s*([a-z_A-Z][\w' ]*?)\s*:\s"),
)


@dataclass(frozen=True)
class Leaf:
    """A name of the kit."""

    module: str
    name: str

    def __str__(self):
        return f"{self.module.removeprefix('Rattle.')}.{self.name}"


@dataclass(eq=False)
class Item:
    """A definition of specs/, or an item of src/."""

    unit: "Unit"
    name: str
    kind: str
    at: int
    comment: list
    lines: list
    is_public: bool = True
    # of a method, the type or trait that it belongs to; the texts of the blocks around it
    owner: str = ""
    around: list = field(default_factory=list)
    clauses: list = field(default_factory=list)
    constructors: list = field(default_factory=list)

    def __str__(self):
        own = f"{self.owner}." if self.owner else ""
        return f"{self.unit.crate}.{'.'.join(self.unit.module)}.{own}{self.name}".replace("..", ".")

    def path(self):
        return f"{self.unit.crate}/{self.unit.path}"


@dataclass
class Clause:
    """A clause of a contract: what is before it as a comment, and its lines."""

    kind: str
    name: str
    comment: list
    lines: list


class Unit:
    """A file of specs/ or src/: what it imports, and its items in order."""

    def __init__(self, crate, path, module, text):
        self.crate, self.path, self.module, self.text = crate, path, module, text
        self.lines = text.split("\n")
        self.items = definitions(self) if path.endswith(".antt") else rust_items(self)
        self.names = {name: it for it in self.items for name in it.constructors}
        self.names.update({it.name: it for it in self.items if not it.owner})
        self.imports = imports_of("\n".join(it for it in self.text.split("\n") if not it.startswith(" " * 4 + "ghost use")))


def imports_of(text):
    """Returns what each name stands for by the imports: its module, and its name there, or None where it is the module's name."""
    found = {}
    for use in USE.finditer(text):
        if use[3]:
            found[use[3]] = (use[2], None)
        for it in (use[4] or "").split(","):
            name, _, own = it.strip().partition(" as ")
            if name:
                found[own or name] = (use[2], name)
    return found


# ---- definitions of specs/


def comment_above(lines, at, mark):
    """Returns the lines of comment right above a line, without the title of a part of the file."""
    found = []
    while at > 0 and lines[at - 1].lstrip().startswith(mark) and not lines[at - 1].lstrip().startswith("-- ----"):
        at -= 1
        found.insert(0, lines[at].strip())
    return found


def goes_on(line, indent):
    """Whether a definition with this indent goes on in a line."""
    is_deeper = len(line) - len(line.lstrip()) > indent
    return bool(line.strip()) and (is_deeper or not (line.startswith("--", indent) or HEAD.match(line)))


def definitions(unit):
    """Returns the definitions of a file of specs/. A definition ends at an empty line, or at a comment or a head no deeper than its own."""
    found, lines = [], unit.lines
    for at, line in enumerate(lines):
        head = HEAD.match(line)
        if not head or (found and at < found[-1].at - 1 + len(found[-1].lines)):
            continue
        indent, end = len(head[1]), at + 1
        while end < len(lines) and goes_on(lines[end], indent):
            end += 1
        own = [it[indent:] for it in lines[at:end]]
        item = Item(unit, head[2], "definition", at + 1, comment_above(lines, at, "--"), own)
        if own[0].startswith("pub data"):
            item.constructors = [it[1] for it in (re.match(r"  ([A-Za-z_][\w-]*) :", line) for line in own) if it]
        item.around = blocks_around(lines, at, indent)
        found.append(item)
    return found


def blocks_around(lines, at, indent):
    """Returns the heads of the blocks that a line is in, such as `module _ (n : ℕ) where`."""
    found = []
    for line in reversed(lines[:at]):
        own = len(line) - len(line.lstrip())
        if line.strip() and own < indent and not line.lstrip().startswith("--"):
            found, indent = [line, *found], own
    return found


# ---- items of src/


def end_of(lines, at, indent):
    """Returns the line after an item that begins here, if `rt fmt` laid it out."""
    for end in range(at, len(lines)):
        line = lines[end]
        is_whole = line.endswith(";") and is_closed(lines[at : end + 1])
        if line.startswith((indent + "}", indent + "{}")) or is_whole or (end == at and line.endswith("}")):
            return end + 1
    return len(lines)


def is_closed(lines):
    text = "\n".join(lines)
    return all(text.count(left) == text.count(right) for left, right in ("{}", "()"))


def rust_items(unit, first=0, last=None, indent="", owner="", around=(), within=""):
    """Returns the items of a file of src/, and after an `impl` or `trait` those in it. What a trait has is as public as the trait; what an
    `impl` of a trait has is public if it has clauses of its own."""
    found, lines, at = [], unit.lines, first
    last = len(lines) if last is None else last
    while at < last:
        head = ITEM.match(lines[at])
        if not head or head[1] != indent:
            at += 1
            continue
        end = end_of(lines, at, indent)
        kind, name = head[3], head[4]
        above = at
        while above and re.match(r" *#\[", lines[above - 1]):
            above -= 1
        item = Item(unit, name, kind, at + 1, comment_above(lines, above, "///"), [it[len(indent) :] for it in lines[at:end]])
        item.is_public = head[2] == "pub" and "pub(" not in lines[at] or within == "pub trait"
        item.owner, item.around = owner, [*around]
        is_test = any("test" in it for it in lines[above:at])
        if kind in ("impl", "trait"):
            head_text = " ".join(it.strip() for it in item.lines[: 1 + next(i for i, it in enumerate(item.lines) if "{" in it)])
            of = name if kind == "trait" else implemented(head_text)
            item.name = of if kind == "trait" else f"impl {of}"
            inner = "pub trait" if kind == "trait" and item.is_public else "impl of a trait" if " for " in head_text else ""
            found.append(item)
            found += rust_items(unit, at + 1, end - 1, indent + "    ", of, [*around, "\n".join(item.lines)], inner)
        elif not is_test:
            if kind == "fn":
                item.clauses = clauses(item.lines)
                item.is_public |= within == "impl of a trait" and bool(item.clauses)
            if kind == "enum":
                item.constructors = re.findall(r"(?m)^    ([A-Z]\w*)", "\n".join(item.lines))
            found.append(item)
        at = end
    return found


def implemented(head):
    """Returns the type of an `impl`."""
    head = re.sub(r"\bimpl(<.*?>)? ", "", head.replace("> >", ">>"), count=1)
    return re.search(r"(?:\bfor )?&?(\w+)(?=[^\w]*(?:<[^{]*)?\{)", head.partition(" for ")[2] or head)[1]


def clauses(lines):
    """Returns the clauses of a function's contract."""
    found, comment, at = [], [], 0
    while at < len(lines) and lines[at] not in ("{", "{}"):
        head = CLAUSE.match(lines[at])
        if head:
            end = at + 1
            while not is_closed(lines[at:end]) and end < len(lines):
                end += 1
            found.append(Clause(head[2], head[3] or "", comment, lines[at:end]))
            comment, at = [], end
            continue
        if lines[at].endswith(" {"):
            break
        comment = [*comment, lines[at].strip()] if lines[at].strip().startswith("//") else []
        at += 1
    return found


# ---- what names stand for


class Sources:
    """All crates of a repository."""

    def __init__(self, top):
        self.top, self.units, self.scopes = top, {}, {}
        listed = (it.partition("#")[0].strip() for it in (top / "crates.txt").read_text().split("\n"))
        self.uses = {re.match(r"\w+", it)[0]: it.partition(":")[2].split() for it in listed if it}
        self.crates = [*self.uses]
        for crate in self.crates:
            for part, kind in (("specs", "antt"), ("src", "rt")):
                folder = top / "crates" / crate / part
                for file in sorted(folder.rglob(f"*.{kind}")):
                    module = (part, *file.relative_to(folder).with_suffix("").parts)
                    self.units[crate, module] = Unit(crate, str(file.relative_to(folder.parent)), module, file.read_text())

    def of_crate(self, crate):
        return [it for (name, _), it in self.units.items() if name == crate]

    def named(self, module, name):
        """Returns what a module of antt has under a name; a module's own name stands for its one declared type."""
        parts = module.split(".")
        if parts[0] != "Rattle" or parts[1] not in self.crates:
            return Leaf(module, name)
        crate, path = parts[1], tuple(parts[2:])
        if path[:2] != ("specs", "declared"):
            unit = self.units.get((crate, path))
            return unit and unit.names.get(name)
        path = path[2:]
        if path[-1] == "TheConstants":
            return self.in_file(crate, path[:-1], name)
        path = path[:-1] if path[-1] == "TheVariants" else path
        return self.in_file(crate, path[:-1], path[-1])

    def in_file(self, crate, path, name):
        for module in [("src", *path)] if path else [("src", "lib"), ("src", "main")]:
            unit = self.units.get((crate, module))
            if unit and name in unit.names:
                return unit.names[name]
        return None

    def by_rust(self, unit, name, seen=()):
        """Returns the item that a file of src/ knows by this name."""
        if name in unit.names or (unit, name) in seen:
            return unit.names.get(name)
        for use in RUST_USE.finditer(unit.text):
            for it in (use[2] or "").split(",") if use[2] is not None else [""]:
                path, _, own = (use[1] + it).strip().partition(" as ")
                parts = [part.strip() for part in path.split("::")]
                if (own or parts[-1]) == name:
                    return self.at_path(unit, parts, [*seen, (unit, name)])
        return None

    def at_path(self, unit, parts, seen):
        """Returns the item at a path of Rust, through what a crate's root hands on."""
        crate, where = unit.crate, unit.module[1:]
        if parts[0] == "super":
            base = where
            while parts[0] == "super":
                parts, base = parts[1:], base[:-1]
        elif parts[0] == "crate":
            parts, base = parts[1:], ()
        elif parts[0] in self.crates:
            crate, parts, base = parts[0], parts[1:], ()
        else:
            base = () if where in (("lib",), ("main",)) else where
        found = self.in_file(crate, (*base, *parts[:-1]), parts[-1])
        if found:
            return found
        homes = [("src", *base, *parts[:-1])] if base or parts[:-1] else [("src", "lib"), ("src", "main")]
        for module in homes:
            home = self.units.get((crate, module))
            if home and (home, parts[-1]) not in seen:
                return self.by_rust(home, parts[-1], seen)
        return None

    def scope(self, item):
        """Returns what each name stands for by the imports that an item sees."""
        if item not in self.scopes:
            self.scopes[item] = {**item.unit.imports, **imports_of("\n".join(item.around)), **imports_of("\n".join(item.lines))}
        return self.scopes[item]

    def meaning(self, item, word):
        """Returns what a word in an item stands for: an item, a leaf, or None."""
        head, _, rest = word.partition(".")
        module, name = self.scope(item).get(head, (None, None))
        if module:
            return self.named(module, name or rest.partition(".")[0]) if name or rest else None
        if item.unit.path.endswith(".antt"):
            return item.unit.names.get(head)
        return self.of_trait(item, head, rest) or self.by_rust(item.unit, head)

    def of_trait(self, item, head, rest):
        """Returns the trait whose ghost member `S.member` is, where S is a type parameter, or whose member the word is in the trait."""
        text = "\n".join([*item.around, *item.lines])
        bound = re.search(rf"[<,]\s*{re.escape(head)}: ([^,>]*(?:<[^>]*>)?)", text) if rest else None
        for name in re.findall(r"[A-Z]\w*", bound[1]) if bound else []:
            found = self.by_rust(item.unit, name)
            if has_member(found, rest.partition(".")[0]):
                return found
        own = item.unit.names.get(item.owner)
        return own if has_member(own, head) else None


def has_member(item, name):
    """Whether an item is a trait with a ghost member of this name."""
    return item is not None and item.kind == "trait" and re.search(rf"(?m)^    ghost {re.escape(name)}:", "\n".join(item.lines)) is not None
