#!/usr/bin/env python3
"""Runs a program of this repository that isn't built: an unproved build answers first, while the program is proved and built.

    python3 tools/first_call.py NAME TUNABLES CLOSED PRESET ARGUMENTS..

`./tele` calls this if out/NAME is missing or out of date. If standard input ends within some seconds and has at most 64 MiB, it is
kept, and `rt try` answers from it without a proof. Then standard output is closed, and the proof goes on. At the end the proved
program runs on the kept input: it must write the same bytes and end with the same status.

In all other cases the answer waits for the proved program:

- TELE_WAIT is set, and isn't 0;
- the input is a terminal, is larger, or doesn't end in time, and the answer depends on it;
- `rt try` gives no answer, for instance because that is longer than 1 MiB or takes more than 60 seconds.

TUNABLES is GLIBC_TUNABLES for the program, CLOSED has the numbers of the streams that are closed for it, and PRESET is an argument
that precedes those of the caller, or empty. The status is the program's. It is 125 if the program couldn't be built, gives another
answer or couldn't check the one that was given, and 128 + N after signal N.

Without arguments it does nothing, which shows that this Python can run it.
"""
import contextlib
import fcntl
import os
import re
import shutil
import signal
import subprocess
import sys
import tempfile
import threading
from pathlib import Path

sys.dont_write_bytecode = True
# Python is told to leave it out, as other settings of its caller.
sys.path.insert(0, str(Path(__file__).resolve().parent))
import build
from kept import Kept

# The statuses that come from input and arguments only. The others come from memory, or from a read or write that failed.
SETTLED = (0, 2, 3)
WRITE_FAILED = 5
# The last line of `rt try` if the program ended.
ENDED = re.compile(rb"^run=ended status=(\d+) .*proved=no\n\Z", re.M)


class Answer(threading.Thread):
    """The answer of an unproved build. It is written as soon as it is there, and standard output is closed then."""

    def __init__(self, source, kit, at, kept, arguments):
        super().__init__(daemon=True)
        self.source, self.kit, self.kept, self.log = source, kit, kept, at / "logs" / "unproved.log"
        self.folder, self.lock = own_folder(at)
        self.words = [*kit.command(), "try", "--", *arguments]
        self.turn, self.is_stopped, self.process = threading.Lock(), False, None
        self.status, self.text, self.is_lost = None, None, False

    def run(self):
        try:
            build.lay_repository(self.folder, self.source, self.source.program)
            found = self.tried()
        except OSError as error:
            found = None
            build.say(f"the unproved build: {error}")
        finally:
            shutil.rmtree(self.folder, ignore_errors=True)
        with self.turn:
            if self.is_stopped:
                return
            if found:
                self.status, self.text = found
        if found:
            self.write()
        else:
            self.kit.gives_way = 0
            build.say(f"the unproved build has no answer ({self.log} says why): the proved program will answer")

    def tried(self):
        """Returns the status and the text of the unproved build, if the proved program must answer the same."""
        at, whole = self.folder / "crates" / self.source.program, self.kept.whole()
        # `rt` waits two seconds for more of a pipe, and then takes what came for the whole input. A file keeps it from that.
        with open(os.memfd_create("given"), "w+b") as given:
            given.write(whole)
            given.seek(0)
            if os.fstat(given.fileno()).st_size != len(whole):
                raise OSError("its input couldn't be written whole")
            with self.turn:
                if self.is_stopped:
                    return None
                self.process = subprocess.Popen(self.words, cwd=at, stdin=given, stdout=subprocess.PIPE, stderr=subprocess.PIPE)
        text, said = self.process.communicate()
        self.log.parent.mkdir(exist_ok=True)
        self.log.write_bytes(said)
        return self.settled(ENDED.search(said), text)

    def settled(self, ended, text):
        status = int(ended[1]) if ended else None
        # With arguments that are refused, and for lines that are made, no input is read.
        is_from_arguments = status == 2 or text.startswith(b"made ")
        return (status, text) if status in SETTLED and (self.kept.is_whole or is_from_arguments) else None

    def write(self):
        with build.SPEAKING if os.isatty(1) else contextlib.nullcontext():
            build.clear_line()
            rest = memoryview(self.text)
            try:
                while rest:
                    rest = rest[os.write(1, rest) :]
            except OSError:
                self.is_lost = True
        os.dup2(os.open(os.devnull, os.O_WRONLY), 1)
        build.say("this was the unproved build; the proof goes on. If you stop it, the next call goes on from there")
        tell_of_options(self.status)

    def abandon(self):
        """Ends the unproved build, unless it has answered."""
        with self.turn:
            self.is_stopped = True
            if self.status is None and self.process and self.process.poll() is None:
                self.process.terminate()

    def stop(self):
        """Ends it, or waits until its answer is written. Returns whether there is an answer."""
        self.abandon()
        self.join()
        return self.status is not None


def tell_of_options(status):
    """Says where options are described, after arguments that were refused."""
    if status == 2 and sys.stderr.isatty():
        build.say("docs/LINES.md describes the options")


class Call:
    """One call of the program, with these arguments, before the program is built."""

    def __init__(self, program, tunables, closed, preset, arguments):
        self.top = Path(__file__).resolve().parent.parent
        self.name, self.arguments, self.kept, self.answer = program, arguments, None, None
        self.given = [*([preset] if preset else []), *arguments]
        self.words = [str(self.top / "out" / program), *self.given]
        self.environment = {**os.environ, "GLIBC_TUNABLES": tunables}
        self.closed = [int(it) for it in closed]

    def begin(self, source, kit, at):
        """Has an unproved build answer, if there is an input for it."""
        self.at = at
        if os.environ.get("TELE_WAIT", "0") not in ("", "0") or {0, 1} & {*self.closed}:
            return
        self.kept = Kept()
        self.kept.read()
        if not self.kept.is_whole and not self.arguments:
            build.say(f"{self.kept.why}: the answer waits for the proof")
            return
        build.say("an unproved build answers first, in about a minute; meanwhile the program is proved, and then it answers too")
        self.answer = Answer(source, kit, at, self.kept, self.given)
        self.answer.start()
        kit.gives_way = build.GIVES_WAY

    def make(self):
        try:
            build.build(self.top, self.name, self.begin)
        except build.Stopped:
            if self.answer:
                self.answer.abandon()
                shutil.rmtree(self.answer.folder, ignore_errors=True)
            raise
        except Exception:
            self.is_answered()
            raise
        return self.compared() if self.is_answered() else self.run()

    def is_answered(self):
        """Returns whether the unproved build answered. From here on it won't."""
        return self.answer is not None and self.answer.stop()

    def compared(self):
        """Runs the proved program on the same input. Returns the status, or 125 if its answer is another or it has none."""
        ran = subprocess.run(self.words, input=self.kept.whole(), stdout=subprocess.PIPE, env=self.environment)
        status = status_of(ran)
        if (status, ran.stdout) == (self.answer.status, self.answer.text):
            build.say("the proved program gives the same answer")
            return WRITE_FAILED if self.answer.is_lost else status
        if status not in SETTLED:
            how = f"ended with status {status}" if ran.returncode >= 0 else f"was ended by signal {-ran.returncode}"
            build.say(f"THE ANSWER IS UNCHECKED: the proved program {how}")
            return build.NOT_BUILT
        build.say(f"THE ANSWER WAS WRONG: the proved program answers otherwise (status {status}, unproved {self.answer.status})")
        for name, it in (("unproved", self.answer.text), ("proved", ran.stdout)):
            (self.at / "logs" / f"answer.{name}").write_bytes(it)
        build.say(f"its answer: {self.at}/logs/answer.proved; the one that was given: {self.at}/logs/answer.unproved")
        return build.NOT_BUILT

    def run(self):
        """Becomes the proved program, on standard input as the caller gave it."""
        if self.kept:
            self.kept.give_back()
        for it in (signal.SIGPIPE, signal.SIGXFSZ, signal.SIGTERM, signal.SIGHUP):
            signal.signal(it, signal.SIG_DFL)
        if self.arguments and sys.stderr.isatty():
            # The terminal gives this signal to the program too, whose status then tells.
            signal.signal(signal.SIGINT, lambda *_: None)
            status = status_of(subprocess.run(self.words, env=self.environment))
            tell_of_options(status)
            return status
        for it in self.closed:
            os.close(it)
        os.execve(self.words[0], self.words, self.environment)


def status_of(ran):
    return ran.returncode if ran.returncode >= 0 else 128 - ran.returncode


def own_folder(at):
    """Makes a folder for an unproved build, and removes those of calls that ended. Returns it, and a lock for as long as the call lives."""
    with open(at / "unproved.lock", "w") as turn:
        fcntl.flock(turn, fcntl.LOCK_EX)
        for it in at.glob("unproved-*"):
            if is_left(it):
                shutil.rmtree(it, ignore_errors=True)
        folder = Path(tempfile.mkdtemp(prefix="unproved-", dir=at))
        lock = open(folder / "lock", "w")
        fcntl.flock(lock, fcntl.LOCK_EX)
        return folder, lock


def is_left(folder):
    """Returns whether no process holds the folder's lock. The number of a process wouldn't show it: another container has its own."""
    try:
        with open(folder / "lock", "r+") as lock:
            fcntl.flock(lock, fcntl.LOCK_EX | fcntl.LOCK_NB)
        return True
    except OSError as error:
        return isinstance(error, FileNotFoundError)


def main():
    name, tunables, closed, preset, *arguments = sys.argv[1:]
    return build.ended(Call(name, tunables, closed, preset, arguments).make)


if __name__ == "__main__" and sys.argv[1:]:
    sys.exit(main())
