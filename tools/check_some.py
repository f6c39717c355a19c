#!/usr/bin/env python3
"""Proves crates and what stands on them, with their tests and must-fail edits: a short check of work in hand. `./check` alone checks all.

    python3 tools/check_some.py [--plan] CRATE..      or ./check CRATE..

Each crate is proved (`rt check`, over what earlier checks kept), the lowest first. Then those with tests are tested (`rt test`), and then
edits are tried (`rt must-fail`). What stands on a crate that isn't proved is passed over. Programs aren't run.

It says beforehand what it will take, by the figures of the last run of each step, which are kept in out/check_some.json. What `rt` said is in
out/check_some/. The last line is 'N passed, M failed'. The status is 0 if none failed, 1 if one did, and 2 if the arguments are wrong.

    --plan    only says what it would do, and what that takes
"""
import json
import os
import re
import resource
import shutil
import signal
import subprocess
import sys
import time
from pathlib import Path

sys.dont_write_bytecode = True
import build

TOP = Path(__file__).resolve().parent.parent
REFUSED = re.compile(r"refused, as it must be")


class Step:
    """One command of `rt` about one crate: its words, where it runs, and how many cases it has."""

    def __init__(self, top, kind, crate, number=1):
        self.kind, self.crate, self.number = kind, crate, number
        self.words = ["must-fail", crate] if kind == "must-fail" else [kind, "--jobs", "1"]
        self.folder = top if kind == "must-fail" else top / "crates" / crate

    def name(self):
        return f"{self.kind} {self.crate}"

    def failures(self, status, said):
        """Returns how many of its cases failed."""
        return max(1, self.number - len(REFUSED.findall(said))) if status else 0


class Figures:
    """What each step took when it last ended well: seconds on the clock, and of processors."""

    def __init__(self, path):
        self.path = path
        try:
            self.known = json.loads(path.read_text())
        except (OSError, ValueError):
            self.known = {}

    def of(self, step):
        return self.known.get(step.name())

    def keep(self, step, seconds, processor):
        self.known[step.name()] = [round(seconds, 1), round(processor, 1)]
        part = self.path.with_suffix(f".{os.getpid()}")
        part.write_text(json.dumps(self.known, indent=0, sort_keys=True) + "\n")
        os.replace(part, self.path)


def say(text):
    print(f"check: {text}", file=sys.stderr, flush=True)


def in_words(seconds):
    return f"{seconds:.0f} s" if seconds < 100 else f"{seconds / 60:.0f} min"


def chosen(top, crates):
    """Returns the crates, and those that stand on one of them, lowest first."""
    lines = build.lines_of(top)
    for it in crates:
        if it not in lines:
            raise ValueError(f"crates.txt has no crate {it}")
    own = [it for it in lines if it in crates or {*crates} & {*build.below(it, lines)}]
    return sorted(own, key=lambda it: len(build.below(it, lines))), lines


def steps_of(top, names):
    """Returns what is to be done: all proofs, then the tests, then the edits."""
    has_tests = lambda it: any("#[test]" in path.read_text() for path in (top / "crates" / it / "src").rglob("*.rt"))
    edits = {it: len([*(top / "crates" / it / "must-fail").glob("*.edit")]) for it in names}
    steps = [Step(top, "check", it) for it in names]
    steps += [Step(top, "test", it) for it in names if has_tests(it)]
    return steps + [Step(top, "must-fail", it, edits[it]) for it in names if edits[it]]


def tell(crates, steps, figures):
    """Says what will be done, and what it took the last time."""
    of = lambda kind: [it for it in steps if it.kind == kind]
    edits = of("must-fail")
    above = len(of("check")) - len({*crates})
    say(f"{', '.join(crates)}, and {above} that stand on it; {len(of('test'))} have tests, and {len(edits)} have {sum(it.number for it in edits)} edits")
    known = [found for found in map(figures.of, steps) if found]
    lacking = len(steps) - len(known)
    if known:
        clock, processor = (in_words(sum(it[at] for it in known)) for at in (0, 1))
        say(f"{len(known)} of the {len(steps)} steps took {clock} when they last ran, and {processor} of a processor")
    if lacking:
        say(f"{lacking} of the {len(steps)} steps never ran here to their end: how long they take isn't known")


class Run:
    """The steps, one after another."""

    def __init__(self, top, lines, figures):
        self.top, self.lines, self.figures = top, lines, figures
        self.logs = top / "out" / "check_some"
        self.logs.mkdir(parents=True, exist_ok=True)
        self.passed, self.failed, self.unproved, self.process = 0, 0, set(), None

    def command(self):
        rt = shutil.which(os.environ.get("TELE_RT", "rt"))
        if rt is None:
            raise ValueError("there is no command rt on the path")
        return [rt]

    def run(self, step):
        """Runs a step, and returns its status and what it said."""
        log = self.logs / f"{step.kind}.{step.crate}.log"
        begun, used = time.monotonic(), processor_seconds()
        with open(log, "w") as file:
            self.process = subprocess.Popen(
                [*self.command(), *step.words], cwd=step.folder, stdin=subprocess.DEVNULL, stdout=file, stderr=subprocess.STDOUT
            )
            status = self.process.wait()
        if not status:
            self.figures.keep(step, time.monotonic() - begun, processor_seconds() - used)
        return status, log

    def all(self, steps):
        for number, step in enumerate(steps, 1):
            if self.unproved & {step.crate, *build.below(step.crate, self.lines)}:
                continue
            figure = self.figures.of(step)
            say(f"{number} of {len(steps)}, rt {step.kind} of {step.crate}" + (f", about {in_words(figure[0])}" if figure else ""))
            status, log = self.run(step)
            said = log.read_text(errors="replace")
            failures = step.failures(status, said)
            self.passed, self.failed = self.passed + step.number - failures, self.failed + failures
            if failures:
                self.report(step, said, log)

    def report(self, step, said, log):
        """Says what failed, and what is passed over."""
        lines = [it for it in said.split("\n") if it.strip()]
        told = [it for it in lines if build.CAUSE.search(it) or re.search("NOT REFUSED|BAD EDIT|FAILED", it)] or lines[-5:]
        print(f"FAILED: rt {step.kind} of {step.crate}", *[f"  {it[:200]}" for it in told[:6]], f"  all that was said: {log}", sep="\n", flush=True)
        if step.kind == "check":
            self.unproved.add(step.crate)
            above = [it for it in self.lines if step.crate in build.below(it, self.lines)]
            say(f"{step.crate} isn't proved: the {len(above)} crates that stand on it are passed over" if above else f"{step.crate} isn't proved")

    def stop(self, number, frame):
        if self.process and self.process.poll() is None:
            self.process.terminate()
        raise SystemExit(128 + number)


def processor_seconds():
    used = resource.getrusage(resource.RUSAGE_CHILDREN)
    return used.ru_utime + used.ru_stime


def main(words):
    crates = [it for it in words if not it.startswith("--")]
    try:
        if not crates or {*words} - {*crates} - {"--plan"}:
            raise ValueError("the arguments are --plan and names of crates")
        names, lines = chosen(TOP, crates)
        steps, figures = steps_of(TOP, names), Figures(TOP / "out" / "check_some.json")
        tell(crates, steps, figures)
        if "--plan" in words:
            return 0
        run = Run(TOP, lines, figures)
        for it in (signal.SIGINT, signal.SIGTERM, signal.SIGHUP):
            signal.signal(it, run.stop)
        run.all(steps)
    except ValueError as why:
        say(f"{why}")
        return 2
    print(f"{run.passed} passed, {run.failed} failed")
    return 1 if run.failed else 0


if __name__ == "__main__":
    sys.exit(main(sys.argv[1:]))
