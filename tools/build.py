#!/usr/bin/env python3
"""Proves and builds a program of this repository, and says on standard error how far it is.

    python3 tools/build.py NAME

makes out/NAME at the top of the repository, and out/NAME.from beside it, which says what it was made from. Nothing is done
where out/NAME was made from these very files and this kit. The status is 0 where out/NAME stands, 125 where it couldn't be
made, and that of the signal where one came.

A program is made from its line of crates.txt and those of the crates below it, the files in their src/, specs/ and proofs/,
and HANDLES. They are copied first, and the copy is built, so that an edit meanwhile is seen by the next call. Each crate has
a folder of its own to be proved in, with what it stands on beside it: `rt` lets one command work in a folder at a time, and
so crates that don't stand on one another are proved side by side. What was proved is kept there, so that a call that was
interrupted or failed is gone on with.

    TELE_BUILD   the folder to build in; else one in ~/.cache/luskadorv, by the path of the repository. Other users can't read what
                 is written there, and a folder into which they can write is refused
    TELE_JOBS    how many checks run side by side at most; else as many as there are processors, and memory for
    TELE_RT      the command `rt`
"""
import contextlib
import fcntl
import hashlib
import os
import queue
import re
import shutil
import signal
import stat
import subprocess
import sys
import tempfile
import threading
import time
from pathlib import Path

PARTS = ("src", "specs", "proofs")
NOT_BUILT = 125
# How much memory a check may take, in bytes.
MEMORY_OF_A_JOB = 2_000_000_000
# How many jobs a check gets that no other can run beside.
JOBS_ALONE = 4
# How far a crate gives way to the one that most waits for.
GIVES_WAY = 10
# Lines of a log that tell why a crate isn't proved.
CAUSE = re.compile(r"error(\[[\w-]+])?:|no proof|not proved|killed|No space|^rt: (?!note|chose|rt (check|lemma)|running|.*begins with)", re.I)


class NotBuilt(Exception):
    """Why the program couldn't be made, in lines."""


# Held while a line is written, so that no other comes into it.
SPEAKING = threading.RLock()
# What each line begins with.
SPEAKER = "tele"


def say(text):
    with SPEAKING:
        clear_line()
        print(f"{SPEAKER}: {text}", file=sys.stderr, flush=True)


def clear_line():
    """Removes the line that says how far the proof is, if there is one."""
    if sys.stderr.isatty():
        with SPEAKING:
            print("\r\033[K", end="", file=sys.stderr, flush=True)


# What a program is made from


def lines_of(top):
    """Returns the lines of crates.txt by crate, without comments."""
    lines = {}
    for line in (top / "crates.txt").read_text().split("\n"):
        line = line.partition("#")[0].strip()
        if line:
            lines[re.match(r"\w+", line)[0]] = line
    return lines


def below(name, lines):
    """Returns the crates of the repository that the crate stands on, each after those that it stands on itself."""
    found = []
    for dep in lines[name].partition(":")[2].split():
        if dep in lines:
            found += [it for it in [*below(dep, lines), dep] if it not in found]
    return found


def files_of(folder):
    """Returns the files of a crate, by their paths in its folder."""
    paths = (it for part in PARTS for it in sorted((folder / part).rglob("*")) if it.is_file())
    return {str(it.relative_to(folder)): it.read_bytes() for it in paths}


def sum_of(*parts):
    return hashlib.sha256(repr(parts).encode()).hexdigest()


class Source:
    """The files of a program and of the crates below it, as they stood at one moment."""

    def __init__(self, top, program):
        self.top, self.program, self.since = top, program, time.time()
        lines = lines_of(top)
        if program not in lines:
            raise NotBuilt(f"crates.txt has no crate {program}")
        self.names = [*below(program, lines), program]
        self.lines = {it: lines[it] for it in self.names}
        self.below = {it: below(it, lines) for it in self.names}
        self.kind = "program" if (top / "crates" / program / "src" / "main.rt").is_file() else "library"
        handles = top / "HANDLES"
        self.handles = handles.read_bytes() if handles.is_file() else b""
        self.files = {it: files_of(top / "crates" / it) for it in self.names}
        self.own = {it: sum_of(self.lines[it], self.handles, self.files[it]) for it in self.names}
        self.sum = sum_of([(it, self.own[it]) for it in sorted(self.names)])

    def sum_up_to(self, name, kit):
        """Returns a sum of all that this crate is proved from."""
        return sum_of(kit, [(it, self.own[it]) for it in sorted([*self.below[name], name])])

    def paths(self):
        parts = [f"crates/{it}/{part}" for it in self.names for part in PARTS]
        return [it for it in ["crates.txt", "HANDLES", *parts] if (self.top / it).exists()]

    def weight(self, name):
        """Returns about how long the crate takes to prove. A line of code weighs more than one of a proof or a definition."""
        return 1 + sum(it.count(b"\n") * (10 if path.endswith(".rt") else 1) for path, it in self.files[name].items())


class Kit:
    """The command `rt`, and what tells its kit from another."""

    def __init__(self):
        self.rt = shutil.which(os.environ.get("TELE_RT", "rt"))
        self.real = os.path.realpath(self.rt) if self.rt else ""
        folder = Path(self.real).parent.parent
        self.paths = [str(it) for it in (folder / "KIT-ID", folder / "WHAT", folder / "bin") if self.rt and it.exists()]
        texts = [Path(it).read_bytes() for it in self.paths if os.path.isfile(it)]
        tools = [(it.name, it.stat().st_size) for it in sorted((folder / "bin").glob("*"))] if self.rt else []
        self.sum = sum_of(texts, tools) if self.rt else ""
        # How far the proofs give way to what else the machine does, as for the command `nice`.
        self.gives_way = 0

    def command(self):
        """Returns `rt`, as a command for folders in which nothing is edited. No setting of the caller's changes what Python does."""
        return [sys.executable, "-I", str(Path(__file__).resolve().parent / "once.py"), self.rt]


class Made:
    """out/NAME, and out/NAME.from, whose time is the moment at which its files were read."""

    def __init__(self, top, program):
        self.program, self.note = top / "out" / program, top / "out" / f"{program}.from"

    def fits(self, source, kit):
        """Returns whether the program was made from these files, by this kit, where there is one."""
        if not os.access(self.program, os.X_OK) or not self.note.is_file():
            return False
        made_from, by = (self.note.read_text().split("\n") + [""])[:2]
        return made_from == source.sum and kit.sum in ("", by)

    def can_be_put(self):
        """Raises an error if the program couldn't be put in its place, which shows before anything is proved."""
        folder = self.program.parent
        try:
            folder.mkdir(exist_ok=True)
            tempfile.TemporaryFile(dir=folder).close()
        except OSError as error:
            raise NotBuilt(f"nothing can be written into {folder}: {error.strerror}")
        for it in (self.program, self.note):
            if it.is_dir():
                raise NotBuilt(f"{it} is a folder")

    def put(self, path, write, mode, since=None):
        """Replaces a file in one step by what `write` writes into another."""
        number, part = tempfile.mkstemp(prefix=f"{path.name}.", dir=path.parent)
        try:
            with open(number, "wb") as file:
                write(file)
            os.chmod(part, mode)
            if since is not None:
                os.utime(part, times=(since, since))
            os.replace(part, path)
        finally:
            Path(part).unlink(missing_ok=True)

    def write_note(self, source, kit, by):
        text = "\n".join([source.sum, by, kit.real, *source.paths(), *kit.paths]) + "\n"
        # A file that changed in the same tick of the clock counts as changed.
        self.put(self.note, lambda file: file.write(os.fsencode(text)), 0o644, source.since - 0.1)

    def refresh(self, source, kit):
        """Says that the files were looked at, and are the same. Where that can't be written, the next call looks again."""
        with contextlib.suppress(OSError):
            self.write_note(source, kit, self.note.read_text().split("\n")[1])

    def take(self, built, source, kit):
        self.note.unlink(missing_ok=True)
        with open(built, "rb") as program:
            self.put(self.program, lambda file: shutil.copyfileobj(program, file), 0o755)
        self.write_note(source, kit, kit.sum)


# The folders in which crates are proved


def room_for(top):
    """Returns the folder to build in."""
    name = f"luskadorv/{hashlib.sha256(str(top).encode()).hexdigest()[:12]}"
    home = os.environ.get("XDG_CACHE_HOME") or (os.environ.get("HOME") and f"{os.environ['HOME']}/.cache")
    places = [f"{home}/{name}"] if home else []
    places.append(f"{tempfile.gettempdir()}/{name.replace('/', f'-{os.getuid()}-')}")
    if os.environ.get("TELE_BUILD"):
        places = [os.path.abspath(os.environ["TELE_BUILD"])]
    faults = []
    for it in map(Path, places):
        faults.append(fault_of(it))
        if not faults[-1]:
            return it
    raise NotBuilt(f"there is no folder to build in: {'; '.join(faults)}")


def fault_of(folder):
    """Makes the folder if it's missing. Returns why it can't be built in, if it can't. Programs of it are run, so it is the caller's own."""
    try:
        folder.mkdir(mode=0o700, parents=True, exist_ok=True)
        found = folder.lstat()
    except OSError as error:
        return str(error)
    if not stat.S_ISDIR(found.st_mode):
        return f"{folder} is a link"
    if found.st_uid != os.geteuid():
        return f"{folder} belongs to another user"
    if found.st_mode & (stat.S_IWGRP | stat.S_IWOTH):
        return f"other users can write into {folder}"
    return None if os.access(folder, os.W_OK | os.X_OK) else f"nothing can be written into {folder}"


@contextlib.contextmanager
def private():
    """Has only the caller read and write what is made."""
    before = os.umask(0o077)
    try:
        yield
    finally:
        os.umask(before)


class Room:
    """A folder for each crate, with what it stands on, and what was proved there."""

    def __init__(self, at, source, kit):
        self.at, self.source, self.kit = at, source, kit
        self.logs = at / "logs"
        self.logs.mkdir(exist_ok=True)
        self.logs.chmod(0o700)

    def crate(self, name, of=None):
        return self.at / "proved" / (of or name) / "crates" / name

    def note(self, name):
        return self.at / "proved" / f"{name}.sum"

    def is_proved(self, name):
        note = self.note(name)
        return name != self.source.program and note.is_file() and note.read_text() == self.source.sum_up_to(name, self.kit.sum)

    def has_proved(self, name):
        self.note(name).write_text(self.source.sum_up_to(name, self.kit.sum))

    def lay_out(self, name):
        """Writes the crate's folder: its files and those below it, and the libraries below it as they were built."""
        self.note(name).unlink(missing_ok=True)
        lay_repository(self.crate(name).parent.parent, self.source, name)
        for it in self.source.below[name]:
            lay_library(self.crate(it), self.crate(it, of=name))

    def tidy(self):
        """Removes what checks keep to go on from, which is the most of it; libraries stay."""
        for it in self.source.names:
            shutil.rmtree(self.crate(it) / "out" / "incremental", ignore_errors=True)


def lay_repository(root, source, name):
    """Writes the files of a crate and of those below it, as a repository of their own."""
    names = [*source.below[name], name]
    root.mkdir(parents=True, exist_ok=True)
    (root / "crates.txt").write_text("".join(f"{source.lines[it]}\n" for it in names))
    if source.handles:
        (root / "HANDLES").write_bytes(source.handles)
    (root / "crates").mkdir(exist_ok=True)
    for it in (root / "crates").iterdir():
        if it.name not in names:
            shutil.rmtree(it)
    for it in names:
        lay_files(root / "crates" / it, source.files[it])


def lay_files(folder, files):
    """Makes the folder's files these, and writes none that is so already."""
    for path, text in files.items():
        to = folder / path
        if not to.is_file() or to.read_bytes() != text:
            to.parent.mkdir(parents=True, exist_ok=True)
            to.write_bytes(text)
    for part in PARTS:
        for it in sorted((folder / part).rglob("*"), reverse=True):
            if it.is_dir() and not any(it.iterdir()):
                it.rmdir()
            elif it.is_file() and str(it.relative_to(folder)) not in files:
                it.unlink()


def lay_library(built, folder):
    """Puts a library in place by further names of its files, which `rt` never writes into."""
    stamp, to = built / "out" / "rlib" / "stamp", folder / "out" / "rlib"
    if not stamp.is_file():
        return
    if (to / "stamp").is_file() and os.path.samefile(stamp, to / "stamp"):
        return
    shutil.rmtree(to, ignore_errors=True)
    try:
        shutil.copytree(built / "out" / "rlib", to, copy_function=os.link)
    except OSError:
        shutil.rmtree(to, ignore_errors=True)
        shutil.copytree(built / "out" / "rlib", to)


# Proving side by side


def number_in(path, pattern):
    try:
        found = re.search(pattern, Path(path).read_text())
    except OSError:
        return None
    return found and int(found[1])


def processors():
    if os.environ.get("TELE_JOBS", "").isdigit():
        return max(1, int(os.environ["TELE_JOBS"]))
    found = len(os.sched_getaffinity(0))
    quota = number_in("/sys/fs/cgroup/cpu.max", r"^(\d+)")
    period = number_in("/sys/fs/cgroup/cpu.max", r"^\d+ (\d+)")
    return max(1, min(found, quota // period)) if quota and period else found


def memory():
    """Returns how many bytes are free."""
    free = 1024 * (number_in("/proc/meminfo", r"MemAvailable:\s+(\d+)") or 8_000_000)
    most = number_in("/sys/fs/cgroup/memory.max", r"^(\d+)")
    used = number_in("/sys/fs/cgroup/memory.current", r"^(\d+)")
    return min(free, most - used) if most and used else free


class Proof(threading.Thread):
    """One crate, as it is proved."""

    def __init__(self, room, name, jobs, is_first, ended):
        super().__init__(daemon=True)
        self.room, self.name_of, self.jobs, self.is_first, self.ended = room, name, jobs, is_first, ended
        self.done, self.all, self.status, self.process, self.is_stopped = 0, 0, None, None, False
        self.log = room.logs / f"{name}.log"

    def words(self):
        """Returns the words for `rt`: one command proves the crate, says how far it is, and builds its library or program."""
        jobs = ["--jobs", str(self.jobs)]
        if self.name_of == self.room.source.program and self.room.source.kind == "program":
            # `rt` also runs what it built, here with an argument that most programs refuse at once.
            return ["run", *jobs, "--", "--help"]
        return ["lib", *jobs]

    def run(self):
        try:
            self.room.lay_out(self.name_of)
            with open(self.log, "w", errors="replace") as log:
                self.status = self.call(self.words(), log)
            if self.status == 0:
                self.room.has_proved(self.name_of)
        except (OSError, shutil.Error) as error:
            self.status = str(error)
        self.ended.put(self)

    def command(self):
        """Returns the command `rt`, which gives way to the crate that comes first."""
        number = self.room.kit.gives_way + (0 if self.is_first else GIVES_WAY)
        niced = ["nice", "-n", str(number)] if number and shutil.which("nice") else []
        return [*niced, *self.room.kit.command()]

    def call(self, words, log):
        how = {"cwd": self.room.crate(self.name_of), "stdin": subprocess.DEVNULL, "stderr": subprocess.STDOUT}
        log.write(f"$ cd {how['cwd']} && rt {' '.join(words)}\n")
        log.flush()
        with subprocess.Popen([*self.command(), *words], stdout=subprocess.PIPE, text=True, errors="replace", **how) as self.process:
            if self.is_stopped:
                self.process.terminate()
            is_built = False
            for line in self.process.stdout:
                log.write(line)
                log.flush()
                found = re.match(r"checked .*, (\d+) of (\d+)$", line)
                if found:
                    self.done, self.all = int(found[1]), int(found[2])
                # From here on the status is the program's own, which may be any.
                is_built = is_built or line.startswith(f"rt: running out/{self.name_of};")
        return 0 if is_built else self.process.returncode

    def stop(self):
        self.is_stopped = True
        if self.process and self.process.poll() is None:
            self.process.terminate()

    def was_killed(self):
        return self.status in (-9, 137, 247)

    def cause(self):
        """Returns the lines of the log that tell why, at most six."""
        if isinstance(self.status, str):
            return [self.status]
        lines = [it.rstrip() for it in self.log.read_text(errors="replace").split("\n") if it.strip()]
        told = [it for it in lines if CAUSE.search(it) and not it.lstrip().startswith(("help:", "fn ", "note: to see"))]
        told = told or [it for it in lines if CAUSE.search(it)] or lines[-5:]
        return [it if len(it) <= 160 else f"{it[:157]}..." for it in told[:6]]


class Build:
    """Proves what isn't proved yet: first what most waits for, and side by side what doesn't stand on one another."""

    def __init__(self, room):
        self.room, self.source, self.ended = room, room.source, queue.Queue()
        self.proved = {it for it in self.source.names if room.is_proved(it)}
        self.waiting = [it for it in self.source.names if it not in self.proved]
        self.number, self.begun, self.running, self.alone = len(self.waiting), time.time(), [], set()
        self.processors = processors()
        self.most = self.processors if "TELE_JOBS" in os.environ else max(1, min(self.processors, memory() // MEMORY_OF_A_JOB))
        self.weight = {it: self.source.weight(it) for it in self.source.names}
        above = lambda name: [it for it in self.waiting if name in self.source.below[it]]
        self.chain = {}
        for it in reversed(self.waiting):
            self.chain[it] = self.weight[it] + max([self.chain[of] for of in above(it)], default=0)

    def ready(self):
        if any(it.name_of in self.alone for it in self.running):
            return []
        able = [it for it in self.waiting if self.proved.issuperset(self.source.below[it])]
        able = [it for it in able if it not in self.alone or not self.running]
        return sorted(able, key=lambda it: -self.chain[it])

    def begin(self):
        """Starts as many crates as there is room for, first the one that most waits for."""
        while True:
            able, free = self.ready(), self.most - sum(it.jobs for it in self.running)
            if not able or free < 1:
                return
            name = able[0]
            is_first = all(self.chain[name] > self.chain[it.name_of] for it in self.running)
            proof = Proof(self.room, name, self.jobs_of(name, able, free), is_first, self.ended)
            self.waiting.remove(name)
            self.running.append(proof)
            proof.start()

    def jobs_of(self, name, able, free):
        """Returns how many jobs a check gets: one, since each further job reads again what the crate stands on; or four, if nothing of the
        repository lies below the crate, and the processors have nothing else to do."""
        is_alone = not self.running and len(able) == 1 and name not in self.alone
        return JOBS_ALONE if is_alone and free >= JOBS_ALONE and not self.source.below[name] else 1

    def all(self):
        show = Shown(self)
        try:
            while self.waiting or self.running:
                self.begin()
                try:
                    self.end_of(self.ended.get(timeout=1 if show.is_terminal else 5), show)
                except queue.Empty:
                    pass
                show.now()
        finally:
            clear_line()
            for it in self.running:
                it.stop()

    def end_of(self, proof, show):
        self.running.remove(proof)
        name = proof.name_of
        if proof.status == 0:
            self.proved.add(name)
            show.ended()
        elif proof.was_killed() and name not in self.alone:
            self.alone.add(name)
            self.waiting.append(name)
        else:
            where = [] if isinstance(proof.status, str) else [f"all that was said: {proof.log}"]
            raise NotBuilt("\n".join([f"{name} failed", *[f"  {it}" for it in proof.cause()], *where]))


class Shown:
    """What is said while crates are proved: a line that changes on a terminal, and else a line now and then."""

    def __init__(self, build):
        self.build, self.is_terminal = build, sys.stderr.isatty()
        self.next, self.width = time.time() + 15, 0
        number, most = build.number, min(build.most, build.processors)
        beside = f", up to {most} side by side" if most > 1 and number > 1 else ""
        say(f"the {build.source.kind} is proved before it is built, once: {number} crate{'s' * (number > 1)}{beside}, up to half an hour")
        say(f"log: {build.room.logs}")

    def text(self):
        build, gone = self.build, int(time.time() - self.build.begun)
        done = build.number - len(build.waiting) - len(build.running)
        name = lambda it: f"the {build.source.kind} itself" if it == build.source.program else it
        parts = [name(it.name_of) + (f" ({it.done} of {it.all})" if it.all else "") for it in build.running]
        return f"{gone // 60}:{gone % 60:02}  {done} of {build.number} crates" + f"; proving {', '.join(parts)}" * bool(parts)

    def now(self, is_due=False):
        if self.is_terminal:
            # A line is left out rather than waited for.
            if SPEAKING.acquire(blocking=False):
                wide = shutil.get_terminal_size((100, 24)).columns - 1
                print(f"\r\033[K{f'{SPEAKER}: {self.text()}'[:wide]}", end="", file=sys.stderr, flush=True)
                SPEAKING.release()
        elif self.build.running and (is_due or time.time() >= self.next):
            say(self.text())
            self.next = time.time() + 15

    def ended(self):
        self.now(is_due=True)


def in_turn(room):
    """Waits until no other call builds here, and returns what keeps others out."""
    lock = open(room / "lock", "w")
    try:
        fcntl.flock(lock, fcntl.LOCK_EX | fcntl.LOCK_NB)
    except BlockingIOError:
        say("another call is building; waiting for it")
        fcntl.flock(lock, fcntl.LOCK_EX)
    return lock


def build(top, program, begin=lambda *_: None):
    """Makes out/NAME. Where that takes a proof, `begin` is called first, with the files, the kit and the folder to build in."""
    made, kit = Made(top, program), Kit()
    source = Source(top, program)
    if made.fits(source, kit):
        return made.refresh(source, kit)
    if not kit.rt:
        raise NotBuilt("the Rattle kit is missing: there is no command `rt` on the path\nREADME.md says what is needed")
    made.can_be_put()
    at = room_for(top)
    with private():
        begin(source, kit, at)
        with in_turn(at):
            make(made, kit, at)


def make(made, kit, at):
    """Proves and builds the program, unless another call has done so meanwhile."""
    top, program = made.program.parent.parent, made.program.name
    source = Source(top, program)
    if made.fits(source, kit):
        return made.refresh(source, kit)
    room = Room(at, source, kit)
    begun = time.time()
    Build(room).all()
    made.take(room.crate(program) / "out" / program, source, kit)
    room.tidy()
    took = int(time.time() - begun)
    say(f"proved and built in {took // 60}:{took % 60:02}; from now on it starts at once")
    if Source(top, program).sum != source.sum:
        say("a file changed meanwhile: the next call builds again")


class Stopped(BaseException):
    """A signal that ends the call."""


def stop(number, _):
    raise Stopped(number)


def ended(call):
    """Returns the status that the call answers with, or that of what ends it, which is said."""
    sys.stderr = sys.stderr or open(os.devnull, "w")
    for it in (signal.SIGINT, signal.SIGTERM, signal.SIGHUP):
        if signal.getsignal(it) != signal.SIG_IGN:
            signal.signal(it, stop)
    try:
        return call()
    except NotBuilt as why:
        say(f"not built: {why}".replace("\n", f"\n{SPEAKER}: "))
        return NOT_BUILT
    except Stopped as why:
        say("stopped; the next call goes on from here")
        return 128 + why.args[0]
    except Exception as why:
        # Python's own status, 1, may be the program's.
        say(f"not built: {type(why).__name__}: {why}")
        return NOT_BUILT


def main():
    top = Path(__file__).resolve().parent.parent
    return ended(lambda: build(top, sys.argv[1]) or 0)


if __name__ == "__main__":
    sys.exit(main())
