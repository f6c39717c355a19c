#!/usr/bin/env python3
"""Writes into docs/HEADLINE.md what its clauses unfold to, by tools/statement.py.

    python3 tools/headline.py [--check] [TOP]

The page has the place of each statement as two lines, and all that is between them is made here:

    <!-- statement: CRATE::CALL CLAUSE -->
    <!-- end of statement -->

What was shown under one statement isn't shown again under a further one. With `--check` nothing is written: each statement that isn't
what the sources say now is a line, and each name of README's "What is proved" that the page doesn't have. The last line is 'N statements, M faults', and the status is 0 where there is none.
"""
import re
import sys
from pathlib import Path

sys.dont_write_bytecode = True
from sources import Sources
from statement import Unfolding, Unknown, of_clause, printed

PLACE = re.compile(r"(?ms)^<!-- statement: (\S+) (\w+) -->\n(.*?)^<!-- end of statement -->$")
TOP = Path(__file__).resolve().parent.parent
PROVED = re.compile(r"(?ms)^## What is proved$(.*?)^## ")
NAME = re.compile(r"`([^`\n]+)`|^    (.*)$", re.M)


def missing(readme, page):
    """Returns the names in a section of README, in backquotes or in clauses, that the page doesn't have. A path of a file isn't a name."""
    section = PROVED.search(readme)
    spans = [it[0] or it[1] for it in NAME.findall(section[1] if section else "")]
    names = [name for it in spans if "/" not in it and " tools" not in it for name in re.findall(r"[A-Za-z_]\w{2,}", it)]
    return [it for it in dict.fromkeys(names) if not re.search(rf"\b{it}\b", page)]


def main(words):
    is_check, words = "--check" in words, [it for it in words if it != "--check"]
    top = Path(words[0]) if words else TOP
    page, sources, seen, faults = top / "docs" / "HEADLINE.md", Sources(top), set(), []

    def made(found):
        try:
            text = printed(Unfolding(sources, of_clause(sources, found[1], found[2]), seen), True)
        except Unknown as why:
            faults.append(str(why))
            return found[0]
        if is_check and found[3] != f"{text}\n":
            faults.append(f"{found[1]}, {found[2]} isn't what the sources say: python3 tools/headline.py")
        return f"<!-- statement: {found[1]} {found[2]} -->\n{text}\n<!-- end of statement -->"

    text = page.read_text()
    number, new = len(PLACE.findall(text)), PLACE.sub(made, text)
    if text.count("<!-- statement") != number or not number:
        faults.append("a statement has no place between its two lines")
    if is_check and (top / "README.md").is_file():
        faults += [f"README's {it} isn't explained" for it in missing((top / "README.md").read_text(), text)]
    if not is_check and not faults:
        page.write_text(new)
    print(*[f"docs/HEADLINE.md: {it}" for it in faults], sep="\n", end="\n" if faults else "")
    print(f"{number} statements, {len(faults)} faults")
    return 1 if faults else 0


if __name__ == "__main__":
    sys.exit(main(sys.argv[1:]))
