#!/usr/bin/env python3
"""tools/reference.py over the sources: each link leads somewhere, each public clause and each definition is there once.

    python3 tests/reference.py

The last line is 'N passed, M failed'.
"""
import re
import subprocess
import sys
import tempfile
import xml.etree.ElementTree as xml
from collections import Counter
from pathlib import Path

from cases import TOP, check, end, holds

DEFINED = re.compile(r"(?m)^(?: *(?:abbrev pub|unfoldable pub|pub record|pub data)|pub(?! (?:mod|use|record|data))) (?!use )([A-Za-z_][\w-]*)")


def texts_of(section):
    return ["".join(it.itertext()) for it in section.iter("pre")]


def links_of(section):
    return {it.get("href"): "".join(it.itertext()) for it in section.iter("a")}


def pages_in(folder):
    """The pages by their names, as trees."""
    return {path.name: xml.fromstring(path.read_text().partition("\n")[2]) for path in sorted(Path(folder).glob("*.html"))}


def all_links(pages):
    places = {name: Counter(it.get("id") for it in page.iter() if it.get("id")) for name, page in pages.items()}
    for name, page in pages.items():
        check(f"{name}: addresses that are there twice", [it for it, number in places[name].items() if number > 1], [])
        dead = []
        for link in page.iter("a"):
            to, _, place = link.get("href").partition("#")
            if to not in pages or place and place not in places[to]:
                dead.append(link.get("href"))
        check(f"{name}: links that lead nowhere", dead, [])


def definitions(pages):
    """Each definition of specs/ is on its crate's page once, with its own lines."""
    for crate in sorted({path.parts[-3] for path in TOP.glob("crates/*/specs/*.antt")}):
        files = sorted((TOP / "crates" / crate / "specs").rglob("*.antt"))
        wanted = Counter(name for path in files for name in DEFINED.findall(path.read_text()))
        found = Counter(it.get("id").rpartition(".")[2] for it in pages[f"{crate}.html"].iter("section") if it.get("id").startswith("specs."))
        check(f"{crate}: definitions", found, wanted)


def one_call(pages):
    """A call whose clauses are known: what its page says, and where it leads."""
    page = pages["ist_tree.html"]
    of = {it.get("id"): it for it in page.iter("section")}
    close = of["src.trees.Tree.close"]
    written = (TOP / "crates/ist_tree/src/trees.rt").read_text()
    own = written[written.index("    pub fn close(") :].partition("\n    {\n")[0]
    for it in re.findall(r"(?:requires|ensures) \w+ \{.*\}", own):
        holds(any(it in text for text in texts_of(close)), f"Tree::close: {it}")
    check("a name in its clause", links_of(close).get("ist_tree.html#specs.Closing.ClosesWith"), "ClosesWith")
    closes = of["specs.Closing.ClosesWith"]
    check("the definition leads to what it uses", links_of(closes).get("ist_core.html#specs.Resting.StandsFor"), "StandsFor")
    check("and to the clause that uses it", links_of(closes).get("ist_tree.html#src.trees.Tree.close.stands"), "stands")
    stands = {it.get("id"): it for it in pages["ist_core.html"].iter("section")}["specs.Resting.StandsFor"]
    check("and back", links_of(stands).get("ist_tree.html#specs.Closing.ClosesWith"), "ClosesWith")
    check("a type as contracts see it", texts_of(of["src.trees.Tree"]), ["pub struct Tree, as contracts see it\n    ghost Value = { TreeFace };"])
    holds("src.updating.update" not in of, "a function that isn't public is shown")
    read = {it.get("id"): it for it in pages["tele_io.html"].iter("section")}["src.sources.Source.read"]
    check("a method of a trait", links_of(read).get("tele_io.html#specs.Bytes.GivesBytes"), "GivesBytes")
    keep = {it.get("id"): it for it in pages["tele_generations.html"].iter("section")}["src.shelves.Kept.keep"]
    check("a method that has its clauses for a type", links_of(keep).get("tele_generations.html#specs.Shelves.IsShelved"), "IsShelved")


def every_call(pages):
    """Each public method of a type that a crate hands on is there, and each call that is there has as many clauses as in its source."""
    text = (TOP / "crates/ist_tree/src/trees.rt").read_text()
    of = {it.get("id"): it for it in pages["ist_tree.html"].iter("section")}
    for name in re.findall(r"(?m)^    pub fn (\w+)", text):
        holds(f"src.trees.Tree.{name}" in of, f"Tree::{name} is there")
    for name, page in pages.items():
        wrong = []
        for section in page.iter("section"):
            said = "".join("".join(it.itertext()) for it in section.iter("p") if it.get("class") == "s k")
            place = re.fullmatch(r"fn, (\S+), line (\d+)", said)
            if place:
                found = [it for it in texts_of(section) if re.match(r"\s*(?:requires|ensures) ", it)]
                wrong += [said] * (len(found) != clauses_at(place[1], int(place[2])))
        check(f"{name}: calls with fewer clauses, or more", wrong, [])


def clauses_at(file, line):
    """Returns how many clauses the function has that begins at a line of a file."""
    lines = (TOP / file).read_text().split("\n")[line - 1 :]
    indent = len(lines[0]) - len(lines[0].lstrip())
    ends = (" " * indent + "{", " " * indent + "{}")
    number = 0
    for at, it in enumerate(lines):
        number += bool(re.match(r"\s*(?:requires|ensures) ", it))
        if it in ends or (number == 0 and it.endswith((" {", ";"))) or (at and it.startswith(" " * indent + "}")) or it.endswith(";"):
            return number
    return number


def exports_and_programs(pages):
    """What a crate exports to C is there with its clauses, and so is what is public in a program."""
    text = "\n".join(it.read_text() for it in (TOP / "crates/ist_c/src").glob("*.rt"))
    places = {it.get("id") for it in pages["ist_c.html"].iter() if it.get("id")}
    for part in re.split(r'(?m)^pub extern "C" fn ', text)[1:]:
        name, head = re.match(r"\w+", part)[0], part.partition("\n{\n")[0]
        clauses = re.findall(r"(?m)^    ensures (\w+) ", head)
        check(f"{name}: clauses", [it for it in clauses if not any(place.endswith(f".{name}.{it}") for place in places)], [])
    holds("src.exchange.exchange" in {it.get("id") for it in pages["try_example.html"].iter("section")}, "exchange of try_example is there")
    check("ist_find leads to its contents", links_of(pages["ist_find.html"]).get("ist_find.html#specs/Sweeps"), "Sweeps")


def cited(pages):
    """Each clause that a document cites right after its function is on the page of the crate."""
    places = {name: {it.get("id") for it in page.iter("pre") if it.get("id")} for name, page in pages.items()}
    items = {name: {it.get("id") for it in page.iter("section")} for name, page in pages.items()}
    for document in ["README.md", "CHANGELOG.md", *(f"docs/{it}.md" for it in ("HEADLINE", "LIBRARY", "PROOFS"))]:
        for crate, path, clause in re.findall(r"`(\w+)::([\w:]+)`, `(\w+)`", (TOP / document).read_text()):
            name, page = path.split("::")[-1], f"{crate}.html"
            if page in pages:
                found = any(re.search(rf"\.{name}\.{clause}(\.requires)?$", it) for it in places[page])
                # (a word after a function may be a further function)
                found = found or any(it.endswith(f".{clause}") for it in items[page])
                holds(found, f"{document}: {crate}::{path}, {clause} is in the reference")


with tempfile.TemporaryDirectory() as folder:
    ran = subprocess.run([sys.executable, TOP / "tools/reference.py", folder], capture_output=True, text=True)
    check("the status", (ran.returncode, ran.stderr), (0, ""))
    made = pages_in(folder)
    crates = [re.match(r"\w+", it)[0] for it in (TOP / "crates.txt").read_text().split("\n") if re.match(r"\w", it)]
    check("the pages", sorted(made), sorted([f"{it}.html" for it in crates] + ["index.html", "names.html"]))
    all_links(made)
    definitions(made)
    one_call(made)
    every_call(made)
    exports_and_programs(made)
    cited(made)
end()
