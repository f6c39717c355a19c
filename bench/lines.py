#!/usr/bin/env python3
"""Measures `./tele` over five inputs, beside a plain program over a BTreeMap, and prints two tables in Markdown.

    python3 bench/lines.py [--turns N] [--options "WORD WORD.."]..

The first table is README's, in lines a second: one million puts and gets alternating, of timestamps that a fixed seed draws. The second
also has a day of readings (a put a second, followed by one interval line for all) and 1,048,576 made lines, and says of each how many
seconds it takes on the clock, the processor seconds, own and system, and the most memory in MiB.

A column is `./tele` with the options of one --options, and without --options `./tele` and `./tele --workers 1`. The programs take turns
on each input, from a file into a file, and a cell is the turn of median time on the clock, of N (3). With the right to do so, a turn has
real-time priority. The plain program is bench/plain.rs, if there is a rustc. All programs have to write the same.
"""
import argparse
import hashlib
import os
import random
import shutil
import subprocess
import sys
import tempfile
import time
from pathlib import Path
from typing import NamedTuple

LINES = 1_000_000
DAY, START = 86_400, 1_700_000_000
MADE = 1_048_576
TOP = Path(__file__).resolve().parent.parent
PLAIN = "`BTreeMap`"


class Input(NamedTuple):
    name: str
    lines: int
    parts: object = ()
    options: tuple = ()
    is_in_readme: bool = False


class Turn(NamedTuple):
    clock: float
    own: float
    system: float
    memory: int
    replies: str


def alternating(keys):
    draw = random.Random(1)
    for number in range(LINES // 2):
        yield b"P %d %d\nG %d\n" % (draw.randrange(keys), number, draw.randrange(keys))


def readings():
    for second in range(START, START + DAY):
        yield b"P %d 20\n" % second
    yield b"I %d %d\n" % (START, START + DAY - 1)


INPUTS = [
    *(Input(f"{keys:,}", LINES, alternating(keys), is_in_readme=True) for keys in (10_000, 200_000, 1_000_000)),
    Input("a day of readings", DAY + 1, readings()),
    Input("made lines", MADE, options=("--generate", str(MADE))),
]


def turn(words, path, replies):
    with open(path, "rb") as lines, open(replies, "wb") as to:
        start = time.monotonic()
        process = subprocess.Popen(words, stdin=lines, stdout=to)
        _, status, used = os.wait4(process.pid, 0)
        clock = time.monotonic() - start
    if status:
        sys.exit(f"{' '.join(map(str, words))}: status {os.waitstatus_to_exitcode(status)}")
    with open(replies, "rb") as file:
        return Turn(clock, used.ru_utime, used.ru_stime, used.ru_maxrss >> 10, hashlib.file_digest(file, "sha256").hexdigest())


def measured(given, programs, turns, folder):
    """Returns the median turn of each program over one input, by the name of its column."""
    path = folder / "lines"
    with open(path, "wb") as file:
        file.writelines(given.parts)
    found = {}
    for _ in range(turns):
        for name, words in programs.items():
            if name != PLAIN or not given.options:
                found.setdefault(name, []).append(turn([*words, *given.options], path, folder / "replies"))
    if len({it.replies for them in found.values() for it in them}) > 1:
        sys.exit(f"{given.name}: the programs wrote different replies")
    return {name: sorted(them)[turns // 2] for name, them in found.items()}


def programs_in(folder, options):
    priority = ["chrt", "-f", "50"]
    if not shutil.which("chrt") or subprocess.run([*priority, "true"], stderr=subprocess.DEVNULL).returncode:
        priority = []
    columns = {f"`{' '.join(['./tele', *it.split()])}`": [*priority, TOP / "tele", *it.split()] for it in options}
    if shutil.which("rustc"):
        subprocess.run(["rustc", "-O", "-o", folder / "plain", TOP / "bench" / "plain.rs"], check=True)
        columns[PLAIN] = [*priority, folder / "plain"]
    return columns


def rate(given, it):
    return f"{float(f'{given.lines / it.clock:.2g}'):,.0f}" if it else ""


def seconds(_, it):
    return f"{it.clock:.2f}; {it.own:.2f}, {it.system:.2f}; {it.memory}" if it else ""


def show(head, names, rows, cell):
    print(f"\n| {head} | {' | '.join(names)} |\n|{'---|' * (len(names) + 1)}")
    for given, found in rows:
        print(f"| {given.name} | {' | '.join(cell(given, found.get(it)) for it in names)} |", flush=True)


def main():
    parser = argparse.ArgumentParser(description="Measures tele beside a plain program over a BTreeMap.")
    parser.add_argument("--turns", type=int, default=3, help="turns of each program over each input (3)")
    parser.add_argument("--options", action="append", help="the options of one column, in one word")
    asked = parser.parse_args()
    subprocess.run([TOP / "tele"], stdin=subprocess.DEVNULL, check=True)
    print(f"{len(os.sched_getaffinity(0))} processors, load {' '.join(f'{it:.1f}' for it in os.getloadavg())}")
    with tempfile.TemporaryDirectory() as folder:
        programs = programs_in(Path(folder), asked.options or ["", "--workers 1"])
        rows = [(it, measured(it, programs, asked.turns, Path(folder))) for it in INPUTS]
    show("timestamps", programs, [it for it in rows if it[0].is_in_readme], rate)
    show("input", programs, rows, seconds)


main()
