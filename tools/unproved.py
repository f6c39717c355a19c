#!/usr/bin/env python3
"""Compiles the exports of crates/ist_c to one object file, without a proof.

`rt try` runs programs without a proof, and this crate is a library. So a copy of it gets a `main` that calls each export once on
empty handles, and `rt try` runs that by a kit whose clang keeps the LLVM module that it is given. In the module the exports get their
C names, the checks of `rt try` are taken out, and the kit's clang compiles it with the options that a proved library gets. A place
that a proof would show to be unreachable still stops the program.

tools/library.py uses this. Whatever isn't as expected raises `NotBuilt`, which says so: the library then waits for its proof.
"""
import os
import re
import shlex
import shutil
import subprocess
import sys
from pathlib import Path

sys.dont_write_bytecode = True
import build

CRATE = "ist_c"
# The scripts of a kit are smaller, in bytes, and its programs larger.
MOST_OF_A_SCRIPT = 1 << 18
# What `main` passes for a parameter, by its type. Handles alternate between two, which are empty.
ARGUMENTS = {
    "Global": "alloc", "u32": "0", "u64": "0", "&mut u64": "&mut number", "&mut Shortage": "&mut short", "&mut Piece": "&mut piece",
    "&mut Stats": "&mut stats", "&mut Pair": "&mut pair", "&[Pair]": "&room", "&mut [Pair]": "&mut room",
}
MAIN = """
use ist_core::Pair;
use ist_handles::{{Handle, Piece, Shortage, Stats}};

fn main(rt: HostRuntime) {{
    let alloc = rt.alloc();
    let mut one = Handle::empty(alloc);
    let mut two = Handle::empty(alloc);
    let mut number = 0u64;
    let mut short = Shortage {{ next: 0, asked: 0, words: 0 }};
    let mut piece = Piece {{ count: 0, more: false, next: 0 }};
    let mut stats = Stats {{ keys: 0, words: 0, used: 0 }};
    let mut pair = Pair {{ key: 0, value: 0 }};
    let mut room = [Pair {{ key: 0, value: 0 }}];
{calls}
}}
"""
EXPORT = re.compile(r'pub extern "C" fn (\w+)\(([^)]*)\)(?: -> (\w+))?')
# The kit's clang, as `rt try` calls it: a module that has the checks is kept with the options, and the call ends.
CLANG = """#!/bin/sh
case " $* " in
*" -fsanitize=address "*)
    for it; do case $it in *.bc) cp "$it" {kept}/module.bc ;; esac; done
    for it; do printf '%s\\n' "$it"; done >{kept}/options
    exit 1 ;;
esac
exec {clang} "$@"
"""


class Export:
    """An exported function: its module, its name, the types of its parameters, and that of its result."""

    def __init__(self, module, name, parameters, result):
        self.module, self.name, self.result = module, name, result
        self.types = [it.partition(":")[2].strip() for it in parameters.split(",") if it.strip()]

    def call(self):
        """Returns the line of `main` that calls it."""
        handles = iter(("&mut one", "&mut two"))
        try:
            words = [next(handles) if it == "&mut Handle" else ARGUMENTS[it] for it in self.types]
        except (KeyError, StopIteration) as why:
            raise build.NotBuilt(f"{self.name} has a parameter that no unproved build knows: {why}")
        called = f"{self.module}::{self.name}({', '.join(words)});"
        return f"    let _ = {called}" if self.result else f"    {called}"

    def entry(self, text):
        """Returns the function of the LLVM module by which C calls it: a result of 16 bytes goes into two registers."""
        inner = f'@"{CRATE}::{self.module}::{self.name}"'
        found = re.search(rf"^define internal (?:noundef )?(\w+) {re.escape(inner)}\(([^)]*)\)", text, re.M)
        if not found:
            raise build.NotBuilt(f"the unproved build has no function {self.name}")
        result, given = found[1], [it.strip() for it in found[2].split(",")]
        passed = [it.replace("noundef ", "") for it in given]
        lines = []
        for at in self.slices():
            # As in a proved library, an empty list may begin at a null pointer.
            lines += [f"%n{at} = icmp eq ptr %a{at}, null", f"%p{at} = select i1 %n{at}, ptr inttoptr (i64 4096 to ptr), ptr %a{at}"]
            passed[at] = f"ptr %p{at}"
        call = f"call {result} {inner}({', '.join(passed)})"
        if self.result == "CallResult":
            result, given = "{ i64, i64 }", given[1:]
            lines += ["%a0 = alloca [16 x i8], align 8", call, f"%r = load {result}, ptr %a0, align 8", f"ret {result} %r"]
        else:
            lines += [call, "ret void"] if result == "void" else [f"%r = {call}", f"ret {result} %r"]
        return "\n  ".join([f"define {result} @{self.name}({', '.join(given)}) #0 {{", *lines]) + "\n}\n"

    def slices(self):
        """Returns the numbers of the arguments that are pointers of slices. A slice is two arguments, and an allocator none."""
        at, found = 0, []
        for it in self.types:
            found += [at] * ("[" in it)
            at += 0 if it == "Global" else 1 + ("[" in it)
        return found


def exports_of(source):
    """Returns the exports of the crate, in the order of its files."""
    texts = [(Path(path).stem, it.decode()) for path, it in source.files[CRATE].items() if path.endswith(".rt")]
    return [Export(module, *it.groups()) for module, text in texts for it in EXPORT.finditer(text)]


def lay_program(folder, source, exports):
    """Writes the crate and those below it as a repository in which the crate is a program that calls the exports."""
    build.lay_repository(folder, source, CRATE)
    lines = folder / "crates.txt"
    lines.write_text(lines.read_text().replace(f"{CRATE} staticlib:", f"{CRATE}:"))
    library = folder / "crates" / CRATE / "src" / "lib.rt"
    text = library.read_text() + MAIN.format(calls="\n".join(it.call() for it in exports))
    library.with_name("main.rt").write_text(text)
    library.unlink()


def lay_kit(folder, kit):
    """Makes a kit of links to this one's files, whose clang keeps what it is given. Returns its `rt`."""
    real = Path(kit.real).parent.parent
    for it in ("bin", "toolchain/bin"):
        (folder / it).mkdir(parents=True)
    for part in (".", "bin", "toolchain", "toolchain/bin"):
        for it in (real / part).iterdir():
            to = folder / part / it.name
            if to.exists():
                continue
            # `rt` looks for its kit from where it is itself.
            if part == "bin" and it.stat().st_size < MOST_OF_A_SCRIPT:
                shutil.copy(it, to)
            elif it.name != "clang":
                to.symlink_to(it)
    clang = folder / "toolchain/bin/clang"
    clang.write_text(CLANG.format(kept=shlex.quote(str(folder)), clang=shlex.quote(str(real / "toolchain/bin/clang"))))
    clang.chmod(0o755)
    return folder / "bin" / "rt"


def without_checks(text):
    """Returns the module without the checks and marks of `rt try`, and with the processor that `rt lib` compiles for."""
    text = re.sub(r'^  call void @"rattle-llvm-checks::\w+"\(i8 [^)]*\)\n', "", text, flags=re.M)
    # `rt try` fills each local with a pattern. A proved library has zeros in its aggregates.
    text = re.sub(r"(call void @llvm\.memset\.p0\.i64\(ptr %\w+, i8) -86,", r"\1 0,", text)
    text = text.replace(' "frame-pointer"="all"', "").replace(" sanitize_address", " nounwind")
    return text.replace('"target-cpu"="x86-64"', '"target-cpu"="x86-64-v2"').replace("define i32 @main()", "define internal i32 @main()")


def run(words, log, what, **how):
    """Runs a command, whose output goes into the log."""
    log.write(f"$ {shlex.join(map(str, words))}\n".encode())
    log.flush()
    status = subprocess.run(words, stdin=subprocess.DEVNULL, stdout=log, stderr=log, **how).returncode
    if status and what:
        raise build.NotBuilt(f"the unproved build: {what} failed; all that was said: {log.name}")


def compile_to(made, folder, source, kit, log):
    """Writes the object file `made`, by way of a folder of its own."""
    exports = exports_of(source)
    lay_program(folder / "repository", source, exports)
    (folder / "kit").mkdir()
    rt = lay_kit(folder / "kit", kit)
    run([*kit.command()[:-1], rt, "try"], log, None, cwd=folder / "repository" / "crates" / CRATE)
    module, text = folder / "kit" / "module.bc", folder / "kit" / "module.ll"
    if not module.exists():
        raise build.NotBuilt(f"the unproved build: `rt try` made no module; all that was said: {log.name}")
    clang = Path(kit.real).parent.parent / "toolchain/bin/clang"
    run([clang, "-S", "-emit-llvm", "-Xclang", "-disable-llvm-passes", "-x", "ir", module, "-o", text], log, "reading the module")
    plain = without_checks(text.read_text())
    text.write_text(plain + "\n" + "\n".join(it.entry(plain) for it in exports))
    options = (folder / "kit" / "options").read_text().split("\n")[:-1]
    options = [it for it in options[: options.index("-c")] if it != "-fsanitize=address"]
    run([clang, *options, "-c", "-x", "ir", text, "-o", folder / "object.o", "-fPIC", "-O3"], log, "compiling the module")
    made.parent.mkdir(parents=True, exist_ok=True)
    os.replace(folder / "object.o", made)
