#!/usr/bin/env python3
"""Seconds that `tele` takes over lanes of unequal length, with and without stealing.

    python3 bench/lanes.py [--program PATH] [--options "WORD WORD.."] [LINES]

LINES lines (1,000,000), puts and gets alternating. Of 64 lanes, by the timestamp modulo 64: `equal`
has as many lines for each, `one long` a hundred times as many for lane 0 as for each other; `minutes` has timestamps that are multiples
of 60. Each is run by 2 and by 4 workers, three times from a file into a file; the seconds are those on the clock. The program is
`./tele` where no path is given. All runs over one input have to write the same.
"""
import argparse
import hashlib
import random
import subprocess
import tempfile
import time
from pathlib import Path

TOP = Path(__file__).resolve().parent.parent
# How many timestamps a lane has.
KEYS = 160


def timestamp(draw, kind):
    if kind == "minutes":
        return 60 * draw.randrange(64 * KEYS)
    lane = draw.randrange(163) if kind == "one long" else draw.randrange(64)
    return 64 * draw.randrange(KEYS) + (lane if lane < 64 else 0)


def write_input(file, kind, lines):
    draw = random.Random(1)
    for number in range(lines // 2):
        file.write(b"P %d %d\nG %d\n" % (timestamp(draw, kind), number, timestamp(draw, kind)))
    file.flush()


def run(words, path):
    """Returns how many seconds the program took, and a sum of what it wrote."""
    with open(path, "rb") as lines, tempfile.TemporaryFile() as replies:
        start = time.monotonic()
        subprocess.run(words, stdin=lines, stdout=replies, check=True)
        took = time.monotonic() - start
        replies.seek(0)
        return took, hashlib.file_digest(replies, "sha256").digest()


def main():
    parser = argparse.ArgumentParser(description="Seconds of tele over lanes of unequal length.")
    parser.add_argument("--program", default=TOP / "tele", help="the program, ./tele where it isn't said")
    parser.add_argument("--options", default="", help="further options of it, in one word")
    parser.add_argument("lines", nargs="?", type=int, default=1_000_000, help="how many lines")
    asked = parser.parse_args()
    for kind in "equal", "one long", "minutes":
        with tempfile.NamedTemporaryFile() as file:
            write_input(file, kind, asked.lines)
            written = set()
            for workers in "2", "4":
                for steal in "0", "1":
                    words = [asked.program, "--workers", workers, "--steal", steal, *asked.options.split()]
                    runs = [run(words, file.name) for _ in range(3)]
                    written |= {what for _, what in runs}
                    told = ", ".join(f"{took:.2f}" for took, _ in runs)
                    print(f"{kind}, {workers} workers, --steal {steal}: {told} s", flush=True)
            if len(written) > 1:
                print(f"{kind}: THEY DIFFER", flush=True)


main()
