#!/usr/bin/env python3
"""Checks what the documents cite: clauses, lemmas, definitions, files, and the map of crates; and the names of definitions.

    python3 tools/citations.py [TOP]

- A column that is headed `clause`, `law`, `decision`, `stays enabled`, `comes` or `made by` has
  citations alone, as `crate::function`, `clause`, `clause`; `other_function`, `clause`
  or `crate`, `laws.function`, `clause`. What follows a function is a clause of it, or a further function of the crate. In the README of a
  crate, a citation that names no crate is of that one.
- In prose `crate::item` is an item of the crate, and so is each word that follows it.
- `crate`, edit `name` is in the crate's must-fail folder, and so is each further name.
- `SomethingLemmas` is a file, `lemma` in `SomethingLemmas` a lemma of it, and `Definition` in `Something.antt` a definition of that one.
- A path that begins with crates/, docs/, bench/, tools/ or tests/ is there, and a function that precedes one in a way
  through the code is in that file, and does more than one call with its own parameters.
- The index of docs/DECISIONS.md has its titles.
- docs/ARCHITECTURE.md has one row for each crate, in the order of crates.txt, and draws what a put line passes above what it uses.
- A definition of specs/ has a name that no other file of specs/ and no record of a file of lemmas has.

Each fault is a line. The last line is 'N citations, M faults', and the status is 0 where there is none.
"""
import re
import sys
from pathlib import Path

SPAN = re.compile(r"`([^`]+)`")
WORD = re.compile(r"[a-z_]\w*\Z")
ITEM = re.compile(r"^\s*(?:pub(?:\([^)]*\))? )?(?:ghost )?(?:const )?(?:unsafe )?(?:extern .C. )?(fn|struct|enum|trait|type|const|static|mod) (\w+)")
CITING = ("clause", "law", "decision", "stays enabled", "comes", "made by")
# some names in a file, which may be named without its folders and its ending
LEMMA = re.compile(r"((?:`[^`\s]+`(?:, | and )?)+) in `(?:[^`]*/)?(\w+)(?:\.(antt|rt))?`")
# what a file of definitions defines, and what a file of lemmas defines with a capital
DEFINED = re.compile(r"(?m)^(?:abbrev pub|unfoldable pub|pub record|pub data|pub(?! (?:mod|use|record|data))) (?!use )([A-Za-z_][\w-]*)")
RECORD = re.compile(r"(?m)^ *(?:abbrev pub|abbrev|pub record|record|pub data|data) ([A-Z][\w-]*)")
EDITS = re.compile(r"`(\w+)`, edits? ((?:`\w+`(?:, | and )?)+)")
CLAUSE = re.compile(r"^\s*(?:ensures|requires) (\w+) \{")


def forwards(text, name):
    """Whether the body of a function is one call with its own parameters, or hands on what one returns case by case."""
    text = re.sub(r"//.*", "", text)
    head = re.search(rf"(?m)^( *)(?:pub(?:\([^)]*\))? )?fn {name}\b[^(]*\(([^)]*)\)", text)
    body = head and re.compile(rf"(?m)(?:^{head[1]}|[^\n]){{\n((?:(?!{head[1]}}}$).*\n)*?){head[1]}}}$").search(text, head.end())
    if not body:
        return False
    own = {*re.findall(r"(\w+)\s*:", head[2])} | ({"self"} & {*re.findall(r"\w+", head[2])})
    said = " ".join(body[1].split())
    cases = re.fullmatch(r"match (.*) \{ Ok\((\w+)\) => Ok\(\2\), Err\((\w+)\) => Err\(\3\),? \}", said)
    call = re.fullmatch(r"(?:Ok\()?(?:(\w+)\.)?[\w:]+(?:::<[^()]*>)?\(([^();{}]*)\)\??\)?", cases[1] if cases else said)
    given = [it.strip().removeprefix("&").removeprefix("mut ") for it in call[2].split(",") if it.strip()] if call else []
    return bool(call) and {*given} | ({call[1]} - {None}) <= own


class Crate:
    """What a crate's sources have: items, functions with their clauses, and definitions."""

    def __init__(self, folder):
        self.items, self.clauses, self.files = set(), {}, {}
        for path in sorted((folder / "src").rglob("*.rt")):
            self.read(path.read_text())
        for part in ("specs", "proofs"):
            for path in sorted((folder / part).rglob("*.antt")):
                self.files.setdefault(path.stem, "")
                self.files[path.stem] += path.read_text() + "\n"

    def read(self, text):
        function = None
        for line in text.split("\n"):
            item, clause = ITEM.match(line), CLAUSE.match(line)
            if item:
                self.items.add(item[2])
                if item[1] == "fn":
                    function = self.clauses.setdefault(item[2], set())
            elif clause and function is not None:
                function.add(clause[1])

    def defines(self, name, stem=None):
        texts = [self.files.get(stem, "")] if stem else self.files.values()
        head = re.compile(rf"(?m)^\s*(?:pub |abbrev |unfoldable |record |data |syntax |module |ruleset )*{re.escape(name)}(?=[\s:(]|$)")
        return any(head.search(it) for it in texts) or any(f"  {name} :" in it for it in texts)


class Citations:
    def __init__(self, top):
        self.top, self.faults, self.number = top, [], 0
        lines = (it.partition("#")[0].strip() for it in (top / "crates.txt").read_text().split("\n"))
        self.listed = {re.match(r"\w+", it)[0]: it.partition(":")[2].split() for it in lines if it}
        self.kit = {it for names in self.listed.values() for it in names} - {*self.listed}
        self.crates = {it: Crate(top / "crates" / it) for it in self.listed}

    def fault(self, where, what):
        self.faults.append(f"{where}: {what}")

    def is_good(self, where, found, what):
        self.number += 1
        if not found:
            self.fault(where, what)

    def cited(self, where, text, is_strict, home=None):
        """Follows the citations of a cell or a line of prose: a crate, its functions, and their clauses."""
        crate, function = home, None
        text, end = LEMMA.sub("", text), 0
        for span in SPAN.finditer(text):
            between, end = text[end : span.start()], span.end()
            word = span[1]
            if "." in between or (not is_strict and not re.fullmatch(r"[,;]? ?(and )?", between)):
                crate, function = (crate, function) if is_strict else (None, None)
            path = word.split("::")
            if path[0] in self.crates:
                crate, function = path[0], None
                for it in path[1:]:
                    self.is_good(where, it in self.crates[crate].items, f"{crate} has no item {it}")
                function = path[-1] if path[-1] in self.crates[crate].clauses else None
            elif word in self.kit:
                crate = function = None
            elif crate:
                function = self.further(where, crate, function, word)
            elif is_strict:
                self.fault(where, f"`{word}` is cited without its crate")

    def further(self, where, crate, function, word):
        """Checks a word that follows a crate or a function, and returns the function that the next clauses belong to."""
        has = self.crates[crate]
        word = re.sub(r"\A(?:laws|examples)\.", "", word)
        if word.endswith("…"):
            self.is_good(where, any(it.startswith(word[:-1]) for it in has.clauses), f"{crate} has no function {word}")
        elif re.fullmatch(r"\w+::\w+", word):
            function = word.split("::")[1]
            self.is_good(where, function in has.clauses, f"{crate} has no function {word}")
        elif WORD.match(word):
            if function and word in has.clauses[function]:
                self.number += 1
            elif word in has.clauses:
                function = word
                self.number += 1
            elif word in has.items:
                self.number += 1
            else:
                self.fault(where, f"{crate}{'::' + function if function else ''} has no clause or function {word}")
        return function

    def lemmas(self, where, text):
        for names, of, kind in LEMMA.findall(text):
            known = any(of in it.files for it in self.crates.values())
            for name in SPAN.findall(names):
                if kind == "rt":
                    texts = [it.read_text() for it in self.top.glob(f"crates/*/src/**/{of}.rt")]
                    self.is_good(where, any(re.search(rf"\b{re.escape(name)}\b", it) for it in texts), f"{of}.rt has no {name}")
                elif known:
                    self.is_good(where, any(it.defines(name, of) for it in self.crates.values()), f"{of} has no {name}")
                elif kind:
                    self.is_good(where, False, f"there is no file {of}")

    def edits(self, where, text):
        for crate, names in EDITS.findall(text):
            for name in SPAN.findall(names):
                self.is_good(where, (self.top / "crates" / crate / "must-fail" / f"{name}.edit").exists(), f"{crate} has no edit {name}")

    def paths(self, where, text):
        for word in SPAN.findall(text):
            if re.match(r"(crates|docs|bench|tools|tests)/[\w./-]+\Z", word):
                self.is_good(where, (self.top / word).exists(), f"there is no {word}")
            elif re.fullmatch(r"\w+Lemmas", word):
                self.is_good(where, any(word in it.files for it in self.crates.values()), f"there is no file {word}")

    def way(self, where, line, home):
        """Checks a line of a way through the code: a function, and the file that has it. Of a crate's README it may be a file of src/."""
        step = re.match(r"\s+([\w:]+)\s+((?:crates|src)/[\w/]+\.rt)\b", line)
        if step and (home or step[2].startswith("crates")):
            path, name = self.top / ("" if step[2].startswith("crates") else f"crates/{home}") / step[2], step[1].split("::")[-1]
            text = path.read_text() if path.is_file() else ""
            self.is_good(where, re.search(rf"\bfn {name}\b", text), f"{step[2]} has no function {name}")
            self.is_good(where, not forwards(text, name), f"{name} of {step[2]} only forwards to another function")

    def document(self, name, home=None):
        columns, is_code = [], False
        for number, line in enumerate((self.top / name).read_text().split("\n"), 1):
            where = f"{name}:{number}"
            if line.startswith("```"):
                is_code = not is_code
            if is_code or line.startswith("    "):
                self.way(where, line, home)
                continue
            self.lemmas(where, line)
            self.paths(where, line)
            self.edits(where, line)
            cells = [it.strip() for it in line.strip("|").split("|")] if line.startswith("|") else []
            if not cells:
                columns = []
                self.cited(where, line, False)
            elif not columns:
                columns = cells
            for head, cell in zip(columns, cells):
                if head in CITING and cell not in CITING:
                    self.cited(where, cell, True, home)

    def drawing(self):
        """What a put line passes is drawn so that each crate is above those that it uses."""
        name, place = "docs/ARCHITECTURE.md", {}
        layers = (self.top / name).read_text().partition("## What a put line passes\n")[2].partition("\n## ")[0]
        for number, line in enumerate(layers.split("\n")):
            for it in re.findall(r"(?<![(\w])[a-z]\w+", line.partition("  " * 14)[0]) if line.startswith("    ") else []:
                if it in self.crates and it in place:
                    self.fault(name, f"{it} is drawn twice")
                if it in self.crates:
                    place[it] = number
        for it in place:
            for of in self.listed[it]:
                if of in place:
                    self.is_good(name, place[it] < place[of], f"{it} is drawn no higher than {of}")

    def index(self):
        """Each decision is in the index of its page, and each line of the index leads to one."""
        name = "docs/DECISIONS.md"
        if (self.top / name).is_file():
            text = (self.top / name).read_text()
            there = [re.sub(r"[^a-z0-9 _-]", "", it.lower()).replace(" ", "-") for it in re.findall(r"(?m)^###? (.*)$", text)]
            named = re.findall(r"\]\(#([\w-]+)\)", text)
            for it in {*there} ^ {*named} | {it for it in there if there.count(it) > 1}:
                self.fault(name, f"the index and the titles differ at {it}")
            self.number += len(named)

    def map_of_crates(self):
        """The map has one row for each crate, in the order of crates.txt."""
        name, rows = "docs/ARCHITECTURE.md", []
        text = (self.top / name).read_text().partition("## The rooms\n")[2].partition("\n## ")[0]
        for line in text.split("\n"):
            cell = line.strip("|").split("|")[0].strip().strip("`") if line.startswith("| `") else ""
            if cell in self.crates:
                rows.append(cell)
        for it in self.listed:
            self.is_good(name, rows.count(it) == 1, f"the crate {it} has {rows.count(it)} rows in the map")
        if sorted(rows) == sorted(self.listed):
            self.is_good(name, rows == [*self.listed], "the map has another order than crates.txt")

    def names(self):
        """A definition has a name of its own, which no record of a file of lemmas takes."""
        homes, taken = {}, {}
        for path in sorted(self.top.glob("crates/*/specs/**/*.antt")):
            for it in {*DEFINED.findall(path.read_text())}:
                homes.setdefault(it, []).append(path.relative_to(self.top))
        for path in sorted(self.top.glob("crates/*/proofs/*Lemmas.antt")):
            for it in {*RECORD.findall(path.read_text())} & {*homes}:
                taken.setdefault(it, []).append(path.relative_to(self.top))
        for it, paths in homes.items():
            for other in [*paths[1:], *taken.get(it, [])]:
                self.fault(other, f"{it} is defined in {paths[0]} too")


def main():
    top = Path(sys.argv[1] if len(sys.argv) > 1 else Path(__file__).resolve().parent.parent)
    found = Citations(top)
    for name in ["README.md", "CONTRIBUTING.md", *sorted(str(it.relative_to(top)) for it in (top / "docs").glob("*.md"))]:
        found.document(name)
    for crate in found.crates:
        if (top / "crates" / crate / "README.md").is_file():
            found.document(f"crates/{crate}/README.md", crate)
    found.map_of_crates()
    found.drawing()
    found.index()
    found.names()
    print(*found.faults, sep="\n", end="\n" if found.faults else "")
    print(f"{found.number} citations, {len(found.faults)} faults")
    return 1 if found.faults else 0


if __name__ == "__main__":
    sys.exit(main())
