"""What the tests of programs share: where a program is, the counts of what passed and failed, and the library that refuses calls."""
import subprocess
import sys
from pathlib import Path

TOP = Path(__file__).resolve().parent.parent
counts = {True: 0, False: 0}


def holds(well, what):
    """Counts what holds, and says what doesn't."""
    counts[bool(well)] += 1
    if not well:
        print(what)


def check(what, told, wanted):
    """Counts whether what was told is what is wanted."""
    holds(told == wanted, f"{what}: wanted {str(wanted)[:300]}, and got {str(told)[:300]}")


def program(name):
    """The program of a crate, as `rt ci` leaves it; elsewhere it is built where a source is newer."""
    path = TOP / "crates" / name / "out" / name
    newest = max(file.stat().st_mtime for file in TOP.glob("crates/*/src/*.rt"))
    if not path.is_file() or path.stat().st_mtime < newest:
        subprocess.run(["rt", "run"], cwd=TOP / "crates" / name, stdin=subprocess.DEVNULL, stdout=subprocess.DEVNULL)
    return path


def refusals(room):
    """The library of refuse.c, which stands before the C library, built in a folder."""
    library = Path(room) / "refuse.so"
    subprocess.run(["cc", "-O1", "-shared", "-fPIC", "-o", library, TOP / "tests/refuse.c", "-ldl"], check=True)
    return str(library)


def end():
    """Says the counts, and ends with status 1 where something failed."""
    print(f"{counts[True]} passed, {counts[False]} failed")
    sys.exit(1 if counts[False] else 0)
