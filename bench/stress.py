#!/usr/bin/env python3
"""Runs try_stress again and again for this many minutes, alternately in trees that are ample and in trees that run full.

    python3 bench/stress.py PROGRAM MINUTES [SEED]

PROGRAM is the built program: `python3 tools/build.py try_stress` makes out/try_stress. Each run has a seed of its own, from
SEED (1) on. A run whose status isn't 0 is named with its words and what it wrote. Then comes a table, one row a plan: runs, calls
that were answered, calls that were refused, runs in which one was, passes that met a refused rebuild, words used, seconds, and
processor seconds. The status is 0 where each run's was.
"""
import re
import resource
import subprocess
import sys
import time

# passes, rounds, calls of each in a round, keys, words; the shares are those of the program
AMPLE = [
    (4, 4, 10_000, 1_000, 16_777_216),
    (4, 4, 10_000, 8, 16_777_216),
    (2, 4, 20_000, 100, 16_777_216),
    (8, 4, 5_000, 2, 16_777_216),
    (8, 4, 5_000, 20_000, 33_554_432),
    (4, 40, 1_000, 100, 16_777_216),
]
FULL = [
    (4, 4, 10_000, 1_000, 500_000),
    (4, 4, 10_000, 8, 100_000),
    (2, 4, 20_000, 100, 200_000),
    (8, 4, 5_000, 2, 100_000),
    (8, 4, 5_000, 20_000, 400_000),
    (4, 40, 1_000, 100, 60_000),
]
OPTIONS = ("--passes", "--rounds", "--calls", "--span", "--words")
SAID = re.compile(
    r"answered: (\d+) puts, (\d+) removes, (\d+) finds, (\d+) freezes\n"
    r"refused: (\d+) puts and removes, (\d+) freezes; passes that met a refused rebuild: (\d+)\n"
    r"closed: (\d+) keys, (\d+) words used, "
)
HEAD = ("passes", "rounds", "calls", "keys", "words", "runs", "answered", "refused", "full", "rebuilds", "used", "seconds", "processor")


def run(program, plan, seed, options=OPTIONS, says=SAID):
    """Runs the plan, and returns what it said as numbers, or None if it failed."""
    words = [program, "--seed", str(seed)]
    for option, number in zip(options, plan):
        words += [option, str(number)]
    done = subprocess.run(words, capture_output=True, text=True)
    said = says.search(done.stdout)
    if done.returncode or not said:
        print(f"status {done.returncode}: {' '.join(words)}\n{done.stdout}{done.stderr}", flush=True)
        return None
    return [int(number) for number in said.groups()]


def main(program, minutes, seed=1):
    end = time.monotonic() + float(minutes) * 60
    plans = [plan for pair in zip(AMPLE, FULL) for plan in pair]
    sums = {plan: [0] * 8 for plan in plans}
    number, failed = int(seed), 0
    while time.monotonic() < end:
        plan = plans[number % len(plans)]
        began = time.monotonic()
        before = resource.getrusage(resource.RUSAGE_CHILDREN)
        said = run(program, plan, number)
        after = resource.getrusage(resource.RUSAGE_CHILDREN)
        number += 1
        if said is None:
            failed += 1
            continue
        spent = after.ru_utime + after.ru_stime - before.ru_utime - before.ru_stime
        refused = said[4] + said[5]
        added = (1, sum(said[:4]), refused, int(refused > 0), said[6], said[8], time.monotonic() - began, spent)
        sums[plan] = [one + other for one, other in zip(sums[plan], added)]
    print("| " + " | ".join(HEAD) + " |\n" + "|---" * len(HEAD) + "|")
    for plan in AMPLE + FULL:
        row = list(plan) + sums[plan][:6] + [round(it) for it in sums[plan][6:]]
        print("| " + " | ".join(f"{it:,}" for it in row) + " |")
    total = [sum(it) for it in zip(*sums.values())]
    print(f"seeds {seed} to {number - 1}: {total[0]:,} runs, {total[1]:,} calls answered, {total[2]:,} refused, {failed} failed")
    return 1 if failed else 0


if __name__ == "__main__":
    sys.exit(main(*sys.argv[1:]))
