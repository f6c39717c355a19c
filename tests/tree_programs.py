#!/usr/bin/env python3
"""Small runs of the programs over the tree, try_stress and try_bench, and words that they must refuse.

    python3 tests/tree_programs.py

Run after `rt ci`, which leaves the programs; otherwise they are built first. The last line is 'N passed, M failed'.
"""
import re
import shutil
import subprocess
import tempfile
from pathlib import Path

from cases import end, holds, program


def run(path, **options):
    words = [word for name, value in options.items() for word in (f"--{name}", str(value))]
    ran = subprocess.run([path, *words], capture_output=True, text=True, timeout=120)
    return words, ran.returncode, ran.stdout


ANSWERED = re.compile(r"answered: (\d+) puts, (\d+) removes, (\d+) finds, (\d+) freezes")
REFUSED = re.compile(r"refused: (\d+) puts and removes, (\d+) freezes; passes that met a refused rebuild: (\d+)")
CLOSED = re.compile(r"closed: (\d+) keys, (\d+) words used, (settled|not settled), audited")

# Passes, rounds, calls of each in a round, keys, words, whether the tree runs full.
RUNS = [
    (1, 2, 1_000, 100, 400_000, False),
    (2, 3, 1_000, 8, 400_000, False),
    (4, 3, 500, 100, 400_000, False),
    (8, 2, 500, 2, 400_000, False),
    (4, 2, 500, 2_000, 400_000, False),
    (64, 2, 50, 100, 400_000, False),
    (4, 3, 500, 100, 20_000, True),
    (8, 2, 500, 2, 5_000, True),
]

# Arguments that name no plan, or a table that is too small.
UNFIT = [
    {"passes": 0},
    {"passes": 65},
    {"span": 0},
    {"span": 1_000_001},
    {"words": 268_435_457},
    {"words": 3},
    {"puts": 0, "removes": 0, "finds": 0, "freezes": 0},
    {"words": 4},
]


def stress(path):
    for passes, rounds, calls, span, words, full in RUNS:
        told = run(path, passes=passes, rounds=rounds, calls=calls, span=span, words=words)
        answered, refused, closed = (it.search(told[2]) for it in (ANSWERED, REFUSED, CLOSED))
        if told[1] != 0 or not (answered and refused and closed):
            holds(False, f"try_stress: {told}")
            continue
        puts, removes, finds, freezes = map(int, answered.groups())
        updates, unfrozen, rebuilds = map(int, refused.groups())
        holds(puts + removes + finds + freezes + updates + unfrozen == passes * rounds * calls, f"not all calls are told: {told}")
        holds((updates > 0) == full, f"calls are refused in ample trees, or none in a full one: {told}")
        holds(closed[3] == "settled" or rebuilds > 0, f"no rebuild was refused, and it isn't settled: {told}")
        holds(freezes > 0 or full, f"no shot was taken: {told}")
        holds(int(closed[1]) <= span and int(closed[2]) <= words, f"more keys or words than there are: {told}")
    first = run(path, passes=1, rounds=3, calls=1_000, span=100, words=400_000)
    holds(run(path, passes=1, rounds=3, calls=1_000, span=100, words=400_000) == first, "one thread does not the same again")
    holds(run(path, passes=1, rounds=3, calls=1_000, span=100, words=400_000, seed=2)[2] != first[2], "seeds make no difference")
    for options in UNFIT:
        told = run(path, **options)
        holds(told[1] == 2 and "answered" not in told[2], f"try_stress: not refused: {told}")


FIGURES = re.compile(r"(\d+) processor ns a call, \d+ calls a second, (\d+) words a key: (\d+) calls, (\d+) found, (\d+) refused, (\d+) keys\n")


def bench(path):
    for spread in ("uniform", "rising", "clustered"):
        told = run(path, threads=2, calls=1_000, puts=1, removes=1, finds=2, spread=spread, keys=100, span=200, words=1_000_000)
        figures = FIGURES.fullmatch(told[2])
        holds(told[1] == 0 and figures and figures[3] == "2000" and figures[5] == "0", f"try_bench: {told}")
        holds(figures and int(figures[4]) > 500 and int(figures[6]) > 50, f"too few keys, or too few were found: {told}")
    # a tree that grew by puts has the keys that it would have been opened with
    for grown in (0, 1):
        told = run(path, calls=1_000, finds=1, keys=100, grown=grown, words=1_000_000)
        figures = FIGURES.fullmatch(told[2])
        holds(told[1] == 0 and figures and figures.groups()[2:] == ("1000", "1000", "0", "100"), f"try_bench: {told}")
    for options in ({"threads": 0}, {"threads": 65}, {"spread": "none"}, {"calls": 0}, {"words": 4}):
        told = run(path, **options)
        holds(told[1] == 2 and not told[2], f"try_bench: not refused: {told}")
    # the system's account of processor time names the program, whatever its name has
    with tempfile.TemporaryDirectory() as room:
        for name in ("plain", "a b", "a) 9 9"):
            named = shutil.copy(path, Path(room) / name)
            told = run(named, calls=3_000_000, keys=1_000, words=1_000_000)
            figures = FIGURES.fullmatch(told[2])
            holds(told[1] == 0 and figures and int(figures[1]) > 0, f"{name}: no time is told: {told}")


GREW = re.compile(r"answered: (\d+) calls; at the end (\d+) keys and (\d+) words\n")

# Rounds, passes, calls of each in a round, keys, words of the first tree, whether it grows.
GROWTHS = [
    (3, 1, 500, 100, 64, True),
    (2, 4, 500, 100, 64, True),
    (2, 8, 200, 8, 1_000, True),
    (2, 64, 20, 50, 64, True),
    (2, 2, 10, 20, 1_000_000, False),
]


def growth(path):
    for rounds, passes, calls, span, words, grows in GROWTHS:
        told = run(path, map=1, rounds=rounds, passes=passes, calls=calls, span=span, words=words)
        grew = GREW.search(told[2])
        holds(told[1] == 0 and grew and int(grew[1]) == rounds * passes * calls, f"a map: {told}")
        holds(grew and int(grew[2]) <= span and (int(grew[3]) > words) == grows, f"other keys or words: {told}")
    for options in ({"map": 2}, *({"map": 1, **unfit} for unfit in UNFIT[:-1])):
        told = run(path, **options)
        holds(told[1] == 2 and "answered" not in told[2], f"a map: not refused: {told}")


stress(program("try_stress"))
growth(program("try_stress"))
bench(program("try_bench"))
end()
