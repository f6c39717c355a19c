#!/usr/bin/env python3
"""Runs the kit's command `rt` over folders in which nothing is edited meanwhile, and in which each library is built once, below what stands
on it. So it spares what `rt` does for the work of an editor:

- the files of a crate are summed up once, and not some three times for each crate below;
- a library holds what it states, as those that `rt ci` makes, and not its proofs, which those above it would read;
- no work of a check is kept to go on from, nor taken from where another check kept it, which `rattle` refuses beside that;
- `rt try` doesn't look at names that a proof would refuse, since the proof is begun beside it.

    python3 tools/once.py RT WORDS..

`docs/PERFORMANCE.md` says what that spares. What `rt` does and says is otherwise the same. If RT isn't a program of the form that is
known here, it runs as it is.
"""
import importlib.machinery
import importlib.util
import os
import shutil
import sys


def module_of(path):
    """Returns the program as a module that can be changed here, if it has this form."""
    with open(path, "rb") as file:
        if b"python" not in file.readline():
            return None
    sys.path.insert(0, os.path.dirname(path))
    loader = importlib.machinery.SourceFileLoader("kit_rt", path)
    found = importlib.util.module_from_spec(importlib.util.spec_from_loader("kit_rt", loader))
    loader.exec_module(found)
    crate = getattr(getattr(found, "rtlib", None), "Crate", None)
    known = all(callable(getattr(crate, it, None)) for it in ("stamp", "call", "makes_rlib"))
    return found if known and isinstance(getattr(found.rtlib, "RATTLE", None), str) and callable(getattr(found, "main", None)) else None


def keep_sums(crate):
    """Has each sum computed once."""
    plain, known = crate.stamp, {}

    def stamp(self):
        if self.folder not in known:
            known[self.folder] = plain(self)
        return known[self.folder]

    crate.stamp = stamp


def build_statements(crate, rattle):
    """Has a library built with its statements alone, and nothing with work that is kept."""
    plain = crate.call

    def call(self, *words):
        if words[:2] == (rattle, "build"):
            at = words.index("--incremental") if "--incremental" in words else len(words)
            words = (*words[:at], *words[at + 2 :], *["--statements"] * self.makes_rlib())
        return plain(self, *words)

    crate.call = call


def take_no_work(found):
    """Has no crate given what a check in another checkout on this machine kept."""
    found.adopt = lambda *_, **__: None


def main(rt, *words):
    sys.dont_write_bytecode = True
    path = os.path.realpath(rt)
    try:
        found = module_of(path)
    except Exception:
        found = None
    if found is None:
        os.execv(rt, [rt, *words])
    keep_sums(found.rtlib.Crate)
    build_statements(found.rtlib.Crate, found.rtlib.RATTLE)
    take_no_work(found)
    if words[:1] == ("try",):
        found.rtlib.RATTLE = shutil.which("true") or found.rtlib.RATTLE
    sys.argv = [path, *words]
    sys.exit(found.main([*words]))


main(*sys.argv[1:])
