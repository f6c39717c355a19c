#!/usr/bin/env python3
"""Copies a crate, and those below it, into another repository, where they are proved and used as its own.

    python3 tools/vendor.py CRATE DEST

DEST is the top of the other repository. Each crate comes to DEST/crates/NAME: its README.md and the files in src/, specs/ and proofs/,
but not its must-fail edits. Its line is added to DEST/crates.txt, and both license texts to DEST/licenses/luskadorv/. What stands there
already and is the same stays as it is. If a crate or a line there is another one, nothing is copied.

Each crate is named with what was done, and then how many were copied and how many were there. The status is 0 if all of them are there
now, 1 if something stands in the way, and 2 if the arguments are wrong.
"""
import re
import shutil
import sys
from pathlib import Path

sys.dont_write_bytecode = True
import build

TOP = Path(__file__).resolve().parent.parent
LICENSES = ("LICENSE-APACHE", "LICENSE-MIT")


class Refused(Exception):
    """What stands in the way, in lines."""


def files_of(folder):
    """Returns what is copied of a crate, by paths in its folder."""
    readme = folder / "README.md"
    files = {"README.md": readme.read_bytes()} if readme.is_file() else {}
    return {**files, **build.files_of(folder)}


def in_the_way(names, lines, dest, there):
    """Returns a line for each crate that is another one there, and for each line of crates.txt that is."""
    found = []
    for name in names:
        folder = dest / "crates" / name
        if folder.exists() and files_of(folder) != files_of(TOP / "crates" / name):
            found.append(f"{folder} is another crate")
        if there.get(name, lines[name]) != lines[name]:
            found.append(f"{dest}/crates.txt has another line for {name}: {there[name]}")
    return found


def lay(name, dest):
    """Copies the crate, unless it is there. Returns whether it was copied."""
    folder = dest / "crates" / name
    if folder.exists():
        return False
    for path, text in files_of(TOP / "crates" / name).items():
        file = folder / path
        file.parent.mkdir(parents=True, exist_ok=True)
        file.write_bytes(text)
    return True


def add_lines(new, dest):
    """Adds these lines to crates.txt."""
    list_ = dest / "crates.txt"
    before = list_.read_text() if list_.is_file() else ""
    if new:
        gap = "\n" if before and not before.endswith("\n") else ""
        list_.write_text(before + gap + "".join(f"{it}\n" for it in new))


def missing_handles(names, lines, dest):
    """Returns the words that the crates' lines need and HANDLES there doesn't have."""
    needs = {"Wait"} if any("may_wait" in lines[it] for it in names) else set()
    handles = dest / "HANDLES"
    return sorted(it for it in needs if not handles.is_file() or not re.search(rf"\b{it}\b", handles.read_text()))


def vendor(crate, dest):
    lines = build.lines_of(TOP)
    if crate not in lines:
        raise Refused(f"crates.txt has no crate {crate}")
    if not dest.is_dir() or dest.resolve() == TOP:
        raise Refused(f"{dest} is no folder of another repository")
    names = [*build.below(crate, lines), crate]
    there = build.lines_of(dest) if (dest / "crates.txt").is_file() else {}
    if found := in_the_way(names, lines, dest, there):
        raise Refused("\n".join(found))
    copied = [it for it in names if lay(it, dest)]
    add_lines([lines[it] for it in names if it not in there], dest)
    licenses = dest / "licenses" / "luskadorv"
    licenses.mkdir(parents=True, exist_ok=True)
    for it in LICENSES:
        shutil.copyfile(TOP / it, licenses / it)
    for it in names:
        print(f"{it}: {'copied' if it in copied else 'was there'}")
    for it in missing_handles(names, lines, dest):
        print(f"{dest}/HANDLES must allow {it}")
    print(f"{len(copied)} crates copied, {len(names) - len(copied)} were there")


def main(words):
    if len(words) != 2:
        print(__doc__, file=sys.stderr)
        return 2
    try:
        vendor(words[0], Path(words[1]))
    except Refused as why:
        for line in str(why).split("\n"):
            print(f"vendor: {line}", file=sys.stderr)
        return 1
    return 0


if __name__ == "__main__":
    sys.exit(main(sys.argv[1:]))
