#!/usr/bin/env python3
"""Runs try_stress on maps again and again for this many minutes, with first trees of 64 to 10,000 words.

    python3 bench/growth.py PROGRAM MINUTES [SEED]

PROGRAM is the built program: `python3 tools/build.py try_stress` makes out/try_stress. Each run has a seed of its own, from SEED (1)
on. One whose status isn't 0 is named with its words and what it wrote. Then comes a table, one row a plan: how often it ran, the
calls that were answered, and the words of the largest last tree. The status is 0 where each run's was.
"""
import re
import sys
import time

from stress import run

# rounds, passes, calls of each in a round, keys, words of the first tree
PLANS = [
    (4, 4, 1_000, 100, 64),
    (4, 4, 1_000, 2, 64),
    (2, 8, 2_000, 8, 256),
    (8, 2, 500, 1_000, 1_000),
    (2, 16, 500, 100, 10_000),
    (2, 4, 5_000, 5_000, 10_000),
    (20, 3, 100, 20, 64),
]
OPTIONS = ("--rounds", "--passes", "--calls", "--span", "--words", "--map")
SAID = re.compile(r"answered: (\d+) calls; at the end (\d+) keys and (\d+) words")


def main(program, minutes, seed=1):
    end = time.monotonic() + float(minutes) * 60
    sums = {plan: [0, 0, 0] for plan in PLANS}
    number, failed = int(seed), 0
    while time.monotonic() < end:
        plan = PLANS[number % len(PLANS)]
        said = run(program, (*plan, 1), number, OPTIONS, SAID)
        number += 1
        if said is None:
            failed += 1
            continue
        row = sums[plan]
        sums[plan] = [row[0] + 1, row[1] + said[0], max(row[2], said[2])]
    print("| rounds | passes | calls | keys | words | times | answered | last words |\n" + "|---" * 8 + "|")
    for plan in PLANS:
        print("| " + " | ".join(f"{it:,}" for it in (*plan, *sums[plan])) + " |")
    times, answered = (sum(row[k] for row in sums.values()) for k in (0, 1))
    print(f"seeds {seed} to {number - 1}: {times:,} times, {answered:,} calls answered, {failed} failed")
    return 1 if failed else 0


if __name__ == "__main__":
    sys.exit(main(*sys.argv[1:]))
