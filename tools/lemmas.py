#!/usr/bin/env python3
"""Finds lemmas that say what another one says, and lemmas that no proof of a function needs.

    python3 tools/lemmas.py [TOP]

The lemmas are those of the files crates/*/proofs/*Lemmas.antt.

- Two lemmas say the same if their statements, with the modules that they are in, differ only in the names of variables and in whether these
  are in braces. A name that the file itself defines is compared with its definition. What gives data, such as a number or a row, says nothing.
  So too a lemma in a `where`, if it names no variable of the lemma that it serves.
- A lemma is needed if the proof of a function names it (any other file of proofs/, `using` in src/), or a lemma that is needed.

Each fault is a line. The last line is 'N passed, M failed', where each lemma is a case, and the status is 0 if none failed.
"""
import re
import sys
from dataclasses import dataclass
from pathlib import Path

sys.dont_write_bytecode = True
from sources import BINDERS, USE, imports_of

TOKEN = re.compile(r"[^\s(){},;\[\].]+(?:\.[^\s(){},;\[\].]+)*")
HEAD = re.compile(r"( *)((?:abbrev |unfoldable |pub )*)(?:(record|data|ruleset) )?(?!where\b)([^\s:(){},\[\]]+)(?= [(:={]| where|$)")
BLOCK = re.compile(r" *(?:module _|mutual)\b")
LOCAL = re.compile(r"( +)([^\s:(){},\[\]=|]+) : ")
HANDED_ON = re.compile(r"(?m)^ *pub use (Rattle\.[\w.]+)\.\{([^}]*)\}")
BY_RUST = re.compile(r"\b(\w+)::proofs::([\w:]+)::([^\s:,)]+)")
DATA = re.compile(r"(?:(?:List|Option) )?[\w.]+|\((?:List|Option) [\w.]+\)|(?:List|Option) \([^()]*\)|Type 0|[ℕℤ]")


@dataclass(eq=False)
class Lemma:
    """A lemma, or another item of a file of lemmas."""

    file: "File"
    name: str
    kind: str
    at: int
    around: str
    lines: list
    first: str

    def __str__(self):
        return f"{self.file.path}:{self.at}: {self.name}"

    def text(self):
        return "\n".join(self.lines)

    def statement(self):
        """Returns what it says, in one line, or nothing if it gives data."""
        end = next((i for i, it in enumerate(self.lines[1:], 1) if not it.startswith("    ")), len(self.lines))
        said = " ".join(" ".join(self.lines[:end]).partition(":")[2].split())
        last = re.split(r" → (?![^(]*\))", said)[-1]
        return "" if self.kind or not said or (DATA.fullmatch(last) and last != "⊥") else said


class File:
    """A file of lemmas, or another one whose names lead to lemmas: its imports, and its items in order."""

    def __init__(self, path, text):
        self.path, self.lines = path, text.split("\n")
        self.imports = imports_of(text)
        self.handed_on = {k: v for own in HANDED_ON.finditer(text) for k, v in imports_of(own[0].replace("pub ", "")).items()}
        self.items = list(items_of(self))
        self.own = {it.name: it for it in self.items}


def depth(line):
    return len(line) - len(line.lstrip())


def left(line):
    """Returns what stands before the `=` of a lemma's equation."""
    level = 0
    for at, it in enumerate(line):
        level += (it in "({") - (it in ")}")
        if level == 0 and line[at : at + 2].strip() == "=" and line[at - 1 : at] == " ":
            return "" if "let" in line[:at].split() else line[:at]
    return ""


def locals_of(item):
    """Finds the lemmas in an item's `where` that name no variable of what is around them."""
    outer = variables_of(f"{item.around} {item.text()}") | {*TOKEN.findall(" ".join(left(it) for it in item.lines))}
    for at, line in enumerate(item.lines):
        head = LOCAL.match(line)
        if not head or not any(it.strip() == "where" for it in item.lines[:at]):
            continue
        end = next((i for i, it in enumerate(item.lines[at + 1 :], at + 1) if depth(it) <= len(head[1])), len(item.lines))
        lines = [it.removeprefix(head[1]) for it in item.lines[at:end]]
        found = Lemma(item.file, head[2], "", item.at + at, "", lines, line)
        free = {it.partition(".")[0] for it in TOKEN.findall(found.statement())} - variables_of(found.statement())
        if not (free & outer) - {*item.file.own} - {*item.file.imports}:
            yield found


def items_of(file):
    """Finds the items of a file. One ends at a comment, a block or a head no deeper than its own, or at a line less deep."""
    blocks, item, begin = [], None, 0
    for at, line in enumerate(file.lines):
        if at < begin or not line.strip() or USE.match(line):
            continue
        while blocks and depth(line) <= blocks[-1].depth:
            blocks.pop()
        level = blocks[-1].inside if blocks else 0
        is_level = depth(line) == level
        head = is_level and not line.lstrip().startswith("--") and HEAD.match(line)
        is_new = head and (head[3] or line[head.end() :].startswith(" :") or head.end() == len(line))
        is_block = is_level and BLOCK.match(line)
        if item and (is_new or is_block or is_level and line.lstrip().startswith("--") or depth(line) < depth(item.first)):
            yield item
            item = None
        if is_block:
            blocks.append(Block(file.lines, at))
            begin = blocks[-1].begin
        elif is_new:
            kind = head[3] or ("abbrev" if head[2].strip() not in ("", "pub") else "")
            item = Lemma(file, head[4], kind, at + 1, " ".join(it.head for it in blocks), [], line)
        if item:
            item.lines.append(line[level:])
    if item:
        yield item


class Block:
    """A module without a name, or lemmas that use one another: its head, where it begins, and how deep it and what is in it are."""

    def __init__(self, lines, at):
        end = at
        while lines[at].lstrip().startswith("module") and not lines[end].endswith("where"):
            end += 1
        self.head = " ".join(" ".join(lines[at : end + 1]).split()).removesuffix("where").removeprefix("mutual").strip()
        self.begin, self.depth = end + 1, depth(lines[at])
        self.inside = next((depth(it) for it in lines[end + 1 :] if it.strip()), 0)


def variables_of(text):
    return {it for found in BINDERS for own in found.findall(text) for it in own.split()}


def plain(file, text):
    """Returns a text with numbers for its variables, parentheses for braces, and other files' names as they are there."""
    bound = variables_of(text)
    numbers = {}

    def told(token):
        head, dot, rest = token[0].partition(".")
        if head in bound:
            return numbers.setdefault(head, f"#{len(numbers)}") + dot + rest
        return ((file.imports.get(head) or (None, None))[1] or head) + dot + rest

    return TOKEN.sub(told, text).replace("{", "(").replace("}", ")")


def key(lemma):
    """Returns what two lemmas with the same statement have in common."""
    said = f"{lemma.around} {lemma.statement()}"
    own = sorted(({it.partition(".")[0] for it in TOKEN.findall(said)} & {*lemma.file.own}) - variables_of(said))
    return (plain(lemma.file, said), *(plain(lemma.file, lemma.file.own[it].text()) for it in own))


class Lemmas:
    """All files of a repository that have lemmas or name them."""

    def __init__(self, top):
        self.files, self.needed = {}, set()
        for path in sorted(it for part in ("specs", "proofs") for it in top.glob(f"crates/*/{part}/**/*.antt")):
            self.files[module_of(path.relative_to(top))] = File(path.relative_to(top), path.read_text())
        self.sources = sorted(top.glob("crates/*/src/**/*.rt"))
        self.all = [it for file in self.files.values() if is_of_lemmas(file) for it in file.items]
        self.locals = [it for item in self.all for it in locals_of(item)]

    def named(self, module, name):
        """Returns the item that a module has under a name, also one that it hands on."""
        file = self.files.get(module)
        if file and name in file.own:
            return file.own[name]
        further = file.handed_on.get(name) if file else None
        return self.named(further[0], further[1] or "") if further else None

    def meant(self, file, text):
        """Returns the items that the words of a text stand for."""
        for token in {*TOKEN.findall(text)}:
            head, _, rest = token.partition(".")
            module, name = file.imports.get(head, (None, None))
            found = self.named(module, name or rest) if module else file.own.get(head)
            if found:
                yield found

    def need(self, items):
        waiting = [*items]
        while waiting:
            it = waiting.pop()
            if it not in self.needed:
                self.needed.add(it)
                waiting += self.meant(it.file, f"{it.around} {it.text()}")

    def need_all(self):
        """Follows all names from the proofs of functions."""
        for file in self.files.values():
            if not is_of_lemmas(file):
                self.need(self.meant(file, USE.sub("", "\n".join(file.lines))))
        for path in self.sources:
            text = path.read_text()
            for crate, module, name in BY_RUST.findall(text):
                crate = path.parts[path.parts.index("src") - 1] if crate == "crate" else crate
                self.need(it for it in [self.named(f"Rattle.{crate}.proofs.{module.replace('::', '.')}", name)] if it)
            self.need(it for module, name in imports_of(text).values() for it in [self.named(module, name or "")] if it)

    def same(self):
        """Returns the lemmas whose statement another one has before them, each with the other."""
        first, found = {}, {}
        for it in [*self.all, *self.locals]:
            if it.statement():
                other = first.setdefault(key(it), it)
                if other is not it:
                    found[it] = other
        return found


def is_of_lemmas(file):
    return file.path.parts[2] == "proofs" and file.path.stem.endswith("Lemmas")


def module_of(path):
    return ".".join(["Rattle", *path.with_suffix("").parts[1:]])


def main():
    found = Lemmas(Path(sys.argv[1] if len(sys.argv) > 1 else Path(__file__).resolve().parent.parent))
    found.need_all()
    same = found.same()
    unneeded = {it for it in found.all if it not in found.needed}
    for it, other in same.items():
        print(f"{it} says what {other.file.path}:{other.at} {other.name} says")
    for it in found.all:
        if it in unneeded:
            print(f"{it} isn't needed")
    failed = len(unneeded | {*same})
    print(f"{len(found.all) + len(found.locals) - failed} passed, {failed} failed")
    return 1 if failed else 0


if __name__ == "__main__":
    sys.exit(main())
