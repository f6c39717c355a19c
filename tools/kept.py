"""Standard input, as far as it was read before the program that will read it was there.

It is kept in memory, so that no full disk and no limit on files can cut it.
"""
import os
import select
import signal
import socket
import stat
import time

KEPT_AT_MOST = 64 << 20
SECONDS_TO_READ = 5
PART = 1 << 20


class Kept:
    """What was read, whether that is all, and otherwise why not."""

    def __init__(self):
        self.bytes, self.is_whole, self.has_failed, self.why = bytearray(), False, False, None

    def read(self):
        """Reads standard input to its end, or says why it can't. A file that isn't read to its end is left as it was."""
        if os.isatty(0):
            self.why = "standard input is a terminal"
            return
        start = os.lseek(0, 0, os.SEEK_CUR) if stat.S_ISREG(os.fstat(0).st_mode) else None
        self.take_all(time.monotonic() + SECONDS_TO_READ)
        if self.why and start is not None:
            os.lseek(0, start, os.SEEK_SET)
            self.bytes, self.has_failed = bytearray(), False

    def take_all(self, until):
        while len(self.bytes) <= KEPT_AT_MOST:
            if not select.select([0], [], [], max(0, until - time.monotonic()))[0]:
                self.why = f"standard input did not end within {SECONDS_TO_READ} seconds"
                return
            try:
                part = os.read(0, PART)
            except BlockingIOError:
                continue
            except OSError as error:
                self.why, self.has_failed = f"standard input: {error.strerror}", True
                return
            if not part:
                self.is_whole = True
                return
            self.bytes += part
        self.why = f"standard input is larger than {KEPT_AT_MOST >> 20} MiB"

    def whole(self):
        """Returns the whole input, or nothing if it isn't known to be whole."""
        return bytes(self.bytes) if self.is_whole else b""

    def give_back(self):
        """Makes standard input a socket with what was read of it and then the rest. A read that failed, or fails there, fails here.

        A process of its own fills the socket. If a socket is closed before all that was sent to it is read, Linux has the other end's
        next read fail (ECONNRESET), after all data. So a byte is sent, and read only once the input is at its end: whatever else ends
        the process, no reader takes what came for the whole input.
        """
        if not (self.bytes or self.is_whole or self.has_failed):
            return
        mine, its = socket.socketpair()
        mine.send(b"?")
        if os.fork() == 0:
            try:
                mine.close()
                self.fill(its)
            finally:
                os._exit(0)
        os.dup2(mine.fileno(), 0)
        mine.close()
        its.close()

    def fill(self, end):
        for it in (signal.SIGINT, signal.SIGTERM, signal.SIGHUP):
            if signal.getsignal(it) != signal.SIG_IGN:
                signal.signal(it, signal.SIG_DFL)
        # A caller that waits for the program's streams to close waits for nothing else.
        null = os.open(os.devnull, os.O_RDWR)
        os.dup2(null, 1)
        os.dup2(null, 2)
        end.sendall(self.bytes)
        if self.is_whole or not self.has_failed and has_sent_rest(end):
            end.recv(1)


def has_sent_rest(end):
    """Sends what standard input still gives. Returns whether it came to its end, before a read failed and while there was a reader."""
    waiting = select.poll()
    waiting.register(0, select.POLLIN)
    # Without a kind of event to wait for, it is reported only if the other end is closed.
    waiting.register(end, 0)
    while end.fileno() not in dict(waiting.poll()):
        try:
            part = os.read(0, PART)
        except BlockingIOError:
            continue
        if not part:
            return True
        end.sendall(part)
    return False
