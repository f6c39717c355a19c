#!/usr/bin/env python3
"""Makes libluskadorv.a, for programs in C, C++ and Rust: the library of crates/ist_c, the heap's three functions over malloc, realloc
and free that the kit brings, and bindings/c/library.c, which has memory for tables between these and malloc. All names in it are local
except `ist_*`.

    python3 tools/library.py [--wait | --no-proof] [FOLDER]

FOLDER is out/ at the top if none is named. Standard output gets the path of the archive.

A proved library is taken if there is one of these very sources: the one that `rt lib` left, or one that was proved here.
If there is none, an unproved build is made in a minute. Then libluskadorv.a is a link to libluskadorv-unproved.a, which has the
symbol `ist_unproved`, and each program with it says so on standard error. The proof goes on in the background; at its end the
proved archive replaces the link in one step.

    --wait        waits for the proof, and makes no unproved build; LUSKADORV_WAIT=1 does the same
    --no-proof    starts no proof

Proofs are kept in the folder that tools/build.py describes, and the next call goes on from there. The status is 0 if the archive was
made, 125 if it wasn't, and that of the signal if one came. The archive that was there before is replaced only by a whole one.
"""
import fcntl
import hashlib
import os
import shutil
import subprocess
import sys
import tempfile
from pathlib import Path

sys.dont_write_bytecode = True
sys.path.insert(0, os.path.dirname(os.path.abspath(__file__)))
import build
import unproved

TOP = Path(__file__).resolve().parent.parent
ARCHIVE, UNPROVED = "libluskadorv.a", "libluskadorv-unproved.a"


class Kept:
    """A file in the folder to build in, with a sum of what it was made from."""

    def __init__(self, at, name, source, kit):
        self.path, self.note = at / "library" / name, at / "library" / f"{name}.sum"
        self.sum = build.sum_of(source.sum, kit.sum)

    def fits(self):
        return self.path.is_file() and self.note.is_file() and self.note.read_text() == self.sum

    def take(self, made):
        self.path.parent.mkdir(exist_ok=True)
        self.note.unlink(missing_ok=True)
        part = self.path.with_suffix(f".{os.getpid()}")
        shutil.copyfile(made, part)
        os.replace(part, self.path)
        self.note.write_text(self.sum)


class Library:
    """The library of these sources, by this kit."""

    def __init__(self, top):
        self.top, self.source, self.kit = top, build.Source(top, unproved.CRATE), build.Kit()
        if not self.kit.rt:
            raise build.NotBuilt("the Rattle kit is missing: there is no command `rt` on the path\nREADME.md says what is needed")
        self.at = build.room_for(top)
        self.proved_here = Kept(self.at, "libist_c.a", self.source, self.kit)
        self.object = Kept(self.at, "unproved.o", self.source, self.kit)

    def proved(self):
        """Returns the proved library, if there is one."""
        left = self.top / "crates" / unproved.CRATE / "out" / "libist_c.a"
        if left.is_file() and left.stat().st_mtime >= self.newest():
            return left
        return self.proved_here.path if self.proved_here.fits() else None

    def newest(self):
        paths = [self.top / it for it in self.source.paths()]
        files = [it for path in paths for it in ([path] if path.is_file() else path.rglob("*"))]
        return max(it.stat().st_mtime for it in files)

    def prove(self):
        """Proves it, in turn with other calls, and returns it."""
        with build.in_turn(self.at):
            if not self.proved():
                room = build.Room(self.at, self.source, self.kit)
                build.Build(room).all()
                self.proved_here.take(room.crate(unproved.CRATE) / "out" / "libist_c.a")
                room.tidy()
        return self.proved()

    def compiled(self):
        """Returns the unproved object file."""
        if not self.object.fits():
            logs = self.at / "logs"
            logs.mkdir(exist_ok=True)
            with tempfile.TemporaryDirectory(prefix="library-", dir=self.at) as folder, open(logs / "unproved-library.log", "wb") as log:
                made = Path(folder) / "made.o"
                unproved.compile_to(made, Path(folder), self.source, self.kit, log)
                self.object.take(made)
        return self.object.path

    def put(self, made, folder, is_unproved):
        """Makes the archive in the folder out of the proved library or the unproved object file."""
        folder.mkdir(parents=True, exist_ok=True)
        with tempfile.TemporaryDirectory(prefix=".library-", dir=folder) as part:
            part = Path(part)
            self.pack(made, part, is_unproved)
            if is_unproved:
                os.replace(part / ARCHIVE, folder / UNPROVED)
                (part / "link").symlink_to(UNPROVED)
                os.replace(part / "link", folder / ARCHIVE)
            else:
                os.replace(part / ARCHIVE, folder / ARCHIVE)
                (folder / UNPROVED).unlink(missing_ok=True)

    def pack(self, made, part, is_unproved):
        heap = Path(self.kit.real).parent.parent / "c" / "liblibc_c.a"
        more = ["-DLUSKADORV_UNPROVED"] if is_unproved else []
        include = self.top / "crates" / unproved.CRATE / "include"
        run(os.environ.get("CC", "cc"), "-O2", "-fPIC", *more, f"-I{include}", "-c", self.top / "bindings/c/library.c", "-o", part / "library.o")
        wrapped = [f"--wrap={it}" for it in ("malloc", "realloc", "free")]
        run("ld", "-r", *wrapped, "-o", part / "luskadorv.o", "--whole-archive", made, heap, part / "library.o")
        run("objcopy", "--wildcard", "--keep-global-symbol=ist_*", part / "luskadorv.o")
        run("ar", "rcsD", part / ARCHIVE, part / "luskadorv.o")


def run(*words):
    try:
        ran = subprocess.run(words, stdin=subprocess.DEVNULL, stdout=subprocess.PIPE, stderr=subprocess.STDOUT, text=True, errors="replace")
    except FileNotFoundError:
        raise build.NotBuilt(f"there is no command {words[0]} on the path")
    if ran.returncode:
        raise build.NotBuilt(f"{words[0]} failed: {ran.stdout.strip()}")


def prove_in_background(folder, at):
    """Has the proof go on in a process of its own, which outlives this one."""
    log = at / "logs" / "library.log"
    with open(log, "ab") as said:
        how = {"stdin": subprocess.DEVNULL, "stdout": subprocess.DEVNULL, "stderr": said, "start_new_session": True}
        proof = subprocess.Popen([sys.executable, __file__, "--prove", str(folder)], **how)
    build.say(f"the proof goes on in the background and takes up to half an hour: its log is {log}, and `kill {proof.pid}` stops it")


def prove_for(folder):
    """Proves the library, and puts it into the folder, unless another process does or the files changed meanwhile."""
    library = Library(TOP)
    number = hashlib.sha256(os.fsencode(folder)).hexdigest()[:12]
    with open(library.at / f"library-{number}.lock", "w") as lock:
        try:
            fcntl.flock(lock, fcntl.LOCK_EX | fcntl.LOCK_NB)
        except BlockingIOError:
            build.say("another process proves the library for this folder")
            return 0
        library.kit.gives_way = build.GIVES_WAY
        made = library.prove()
        if build.Source(TOP, unproved.CRATE).sum != library.source.sum:
            raise build.NotBuilt("a file changed meanwhile: the next call builds again")
        if folder.is_dir():
            library.put(made, folder, is_unproved=False)
            build.say(f"{folder / ARCHIVE} is proved")
    return 0


def make(folder, waits, proves):
    library = Library(TOP)
    made = library.proved()
    if not made and not waits:
        try:
            build.say("an unproved build comes first, in about a minute")
            library.put(library.compiled(), folder, is_unproved=True)
            build.say(f"{folder / ARCHIVE} is an unproved build, and each program with it says so")
            if proves:
                prove_in_background(folder, library.at)
            return 0
        except build.NotBuilt as why:
            if not proves:
                raise
            build.say(f"{why}: the library waits for its proof")
    library.put(made or library.prove(), folder, is_unproved=False)
    return 0


def main():
    build.SPEAKER = "library"
    options = [it for it in sys.argv[1:] if it.startswith("--")]
    folders = [it for it in sys.argv[1:] if not it.startswith("--")]
    if len(folders) > 1 or len(options) > 1 or not {*options} <= {"--wait", "--no-proof", "--prove"}:
        print(__doc__.strip(), file=sys.stderr)
        return 2
    folder = Path(os.path.abspath(folders[0])) if folders else TOP / "out"
    if "--prove" in options:
        return build.ended(lambda: prove_for(folder))
    waits = "--wait" in options or os.environ.get("LUSKADORV_WAIT", "0") not in ("", "0")
    status = build.ended(lambda: make(folder, waits, "--no-proof" not in options))
    if status == 0:
        print(folder / ARCHIVE)
    return status


if __name__ == "__main__":
    sys.exit(main())
