#!/usr/bin/env python3
"""Inputs of the program `tele` with the output and the status that they are to have.

    python3 tests/inputs.py

Run after `rt ci`, which leaves the program; otherwise it is built first. Forms of lines and causes of bad ones; words; each prefix
of an input; each read of one byte refused in its turn; how many lines a round has; trees of each size by several numbers of workers,
with and without stealing; made lines. The last line is 'N passed, M failed'.
"""
import os
import subprocess
import tempfile

from cases import TOP, check, end, program, refusals

ANSWERED, USAGE, BAD_LINE, READ_FAILED, WRITE_FAILED = 0, 2, 3, 4, 5
ROUND = 16_384


PROGRAM = program("tele")


def run(words, data, **environment):
    """What is written in a run over these bytes, and its status."""
    ran = subprocess.run([PROGRAM, *words], input=data, capture_output=True, timeout=120, env={**os.environ, **environment})
    return ran.stdout, ran.returncode


# The input, the output, the status.
ANSWERS = [
    (b"", b"", 0),
    (b"P 5 7\n", b"1 -\n", 0),
    (b"P 5 7", b"1 -\n", 0),
    (b"P 5 7\nP 5 9\nG 5\nR 5\nG 5\n", b"1 -\n2 7\n3 9\n4 9\n5 -\n", 0),
    (b"P 18446744073709551615 0\nI 18446744073709551615 18446744073709551615\n", b"1 -\n2 1\n18446744073709551615 0\n", 0),
    (b"P 18446744073709551616 1\n", b"! 1 number\n", 3),
    (b"I 0 10\nI 9 3\n", b"1 0\n2 0\n", 0),
    (b"# note\r\n\nG 1", b"3 -\n", 0),
    (b"P 1 1\nX 2\nP 3 3\n", b"1 -\n! 2 letter\n", 3),
    (b"P 1\n", b"! 1 fields\n", 3),
    (b"P 1 2 3\n", b"! 1 fields\n", 3),
    (b"G\n", b"! 1 fields\n", 3),
    (b"P 1 x\n", b"! 1 number\n", 3),
    (b"p 1 2\n", b"! 1 letter\n", 3),
    (b"P +1 2\n", b"! 1 number\n", 3),
    (b"P1 2\n", b"! 1 letter\n", 3),
    (b"\tP\t 007  8 \t\r\nG 7\n", b"1 -\n2 8\n", 0),
    (b"P 1 1\r\r\n", b"! 1 number\n", 3),
    (b"P 1 \x001\n", b"! 1 number\n", 3),
    (b"\xff\n", b"! 1 letter\n", 3),
    (b"P 3 1\nP 1 2\nP 2 3\nI 2 9\n", b"1 -\n2 -\n3 -\n4 2\n2 3\n3 1\n", 0),
    (b"V 2\nP -5 -7\nP 3 1\nG -5\nI -10 10\n", b"2 -\n3 -\n4 -7\n5 2\n-5 -7\n3 1\n", 0),
    (b"V 2\nP -9223372036854775808 9223372036854775807\nG -9223372036854775808\n", b"2 -\n3 9223372036854775807\n", 0),
    (b"V 2\nP 9223372036854775808 1\n", b"! 2 number\n", 3),
    (b"V 2\nG -\n", b"! 2 number\n", 3),
    (b"P -1 1\n", b"! 1 number\n", 3),
    (b"V 3\n", b"! 1 number\n", 3),
    (b"V\n", b"! 1 fields\n", 3),
    (b"P 1 1\nV 2\n", b"1 -\n! 2 letter\n", 3),
    (b"# first\nV 02\nP -0 --1\n", b"! 3 number\n", 3),
]

# How many zeros precede the key, the end of the line, the output, the status: a line has at most 80 bytes.
LONG_LINES = [
    (75, b"", b"1 -\n", 0),
    (76, b"", b"! 1 long\n", 3),
    (75, b"\r\n", b"1 -\n", 0),
    (76, b"\r\n", b"! 1 long\n", 3),
    (75, b"\r", b"1 -\n", 0),
    (200, b"\n", b"! 1 long\n", 3),
]

# The words of the command line, what is written over a source that can't be read, the status.
WORDS = [
    ("", "", READ_FAILED),
    ("--workers 2 --words=64", "", READ_FAILED),
    ("--seed 7", "", READ_FAILED),
    ("--steal 1", "", READ_FAILED),
    ("--workers 64 --words=268435456 --steal 0", "", READ_FAILED),
    ("--workers=1 --words 64 --seed 18446744073709551615", "", READ_FAILED),
    ("--workers 0", "! usage\n", USAGE),
    ("--workers 65", "! usage\n", USAGE),
    ("--words 63", "! usage\n", USAGE),
    ("--words 268435457", "! usage\n", USAGE),
    ("--seed 18446744073709551616", "! usage\n", USAGE),
    ("--seed -1", "! usage\n", USAGE),
    ("--workers 1 --workers 2", "! usage\n", USAGE),
    ("--steal 2", "! usage\n", USAGE),
    ("--generate 1 --steal", "! usage\n", USAGE),
    ("--help", "! usage\n", USAGE),
    ("x", "! usage\n", USAGE),
    ("--generate 1048577", "! usage\n", USAGE),
    ("--generate 1 --seed", "! usage\n", USAGE),
    ("--generate 1 x", "! usage\n", USAGE),
    ("--generate 2 --seed 0", "made 2 keys 2 found 0 sum 74222\n", ANSWERED),
    ("--generate 2 --seed 0 --steal 1", "made 2 keys 2 found 0 sum 74222\n", ANSWERED),
    ("--generate 0", "made 0 keys 0 found 0 sum 0\n", ANSWERED),
    ("--generate=1 --seed=0 --workers=1", "made 1 keys 1 found 0 sum 26497\n", ANSWERED),
]

# Four point lines on two lanes, and an interval line after them; what a map of one thread replies: seven lines of four bytes.
INPUT = b"P 2 1\nP 3 1\nP 2 5\nG 2\nI 0 9\n"
OUTPUT = b"1 -\n2 -\n3 1\n4 5\n5 2\n2 5\n3 1\n"

# The least and the greatest length of a prefix of that, how many lines of the output come first, what follows them, the status.
PREFIXES = [
    (0, 0, 0, b"", 0),
    (1, 4, 0, b"! 1 fields\n", 3),
    (5, 6, 1, b"", 0),
    (7, 10, 1, b"! 2 fields\n", 3),
    (11, 12, 2, b"", 0),
    (13, 16, 2, b"! 3 fields\n", 3),
    (17, 18, 3, b"", 0),
    (19, 20, 3, b"! 4 fields\n", 3),
    (21, 22, 4, b"", 0),
    (23, 26, 4, b"! 5 fields\n", 3),
    (27, 28, 7, b"", 0),
]

# Two rounds, and a line after them. After how many bytes of input how many of the output are written.
ROUNDS = b"P 1 1\nP 2 2\nI 0 9\nP 3 3\nP 4 4\nI 3 3\nP 5 5\n"
REPLIED = b"1 -\n2 -\n3 2\n1 1\n2 2\n4 -\n5 -\n6 1\n3 3\n7 -\n"
WRITTEN = [(0, 0), (18, 20), (36, 36)]

# Thirty lines over keys that lie apart, in three rounds, and what a map of one thread answers, worked out apart from the program.
LINES = (
    b"P 40 1\nP 7 2\nP 93 3\nG 7\nP 12 4\nP 55 5\nP 3 6\nR 40\nP 71 7\nP 28 8\n"
    b"I 0 60\nP 64 9\nP 7 10\nG 40\nP 86 11\nP 19 12\nR 3\nP 1 13\nP 33 14\nG 19\n"
    b"P 47 15\nI 20 90\nP 99 16\nR 93\nP 60 17\nP 5 18\nG 93\nP 80 19\nP 64 20\nI 0 99\n"
)
REPLIES = (
    b"1 -\n2 -\n3 -\n4 2\n5 -\n6 -\n7 -\n8 1\n9 -\n10 -\n"
    b"11 5\n3 6\n7 2\n12 4\n28 8\n55 5\n12 -\n13 2\n14 -\n15 -\n16 -\n17 6\n18 -\n19 -\n20 12\n"
    b"21 -\n22 7\n28 8\n33 14\n47 15\n55 5\n64 9\n71 7\n86 11\n"
    b"23 -\n24 3\n25 -\n26 -\n27 -\n28 -\n29 9\n"
    b"30 15\n1 13\n5 18\n7 10\n12 4\n19 12\n28 8\n33 14\n47 15\n55 5\n60 17\n64 20\n71 7\n80 19\n"
    b"86 11\n99 16\n"
)

# Thirty lines over four keys, most of which find what another put, in two rounds, and what is answered to those.
FEW_KEYS = (
    b"R 2\nG 0\nP 1 3\nP 1 4\nG 2\nG 1\nP 0 7\nP 0 8\nR 3\nG 1\nP 1 11\nG 1\n"
    b"P 1 13\nP 0 14\nI 0 9\nP 1 16\nP 1 17\nR 2\nP 1 19\nP 1 20\nR 3\nR 0\nP 3 23\nR 1\nR 0\n"
    b"P 2 26\nP 2 27\nR 2\nG 2\nI 0 9\n"
)
FEW_REPLIES = (
    b"1 -\n2 -\n3 -\n4 3\n5 -\n6 4\n7 -\n8 7\n9 -\n10 4\n11 4\n12 11\n"
    b"13 11\n14 8\n15 2\n0 14\n1 13\n16 13\n17 16\n18 -\n19 17\n20 19\n21 -\n22 14\n23 -\n24 20\n"
    b"25 -\n26 -\n27 26\n28 27\n29 -\n30 1\n3 23\n"
)


def small_inputs():
    for data, output, status in ANSWERS:
        check(f"{data}", run([], data), (output, status))
    for zeros, end, output, status in LONG_LINES:
        check(f"{zeros} zeros, {end}", run([], b"P " + zeros * b"0" + b"5 7" + end), (output, status))
    for words, output, status in WORDS:
        folder = os.open(TOP, os.O_RDONLY)
        ran = subprocess.run([PROGRAM, *words.split()], stdin=folder, capture_output=True, timeout=120)
        os.close(folder)
        check(words, (ran.stdout.decode(), ran.returncode), (output, status))
    for least, greatest, lines, rest, status in PREFIXES:
        for length in range(least, greatest + 1):
            check(f"{length} bytes", run(["--workers", "2"], INPUT[:length]), (OUTPUT[: 4 * lines] + rest, status))


def many_lines():
    """No more lines are read than a run may have."""
    most = 16_777_216
    check("the most empty lines", run([], most * b"\n"), (b"", ANSWERED))
    check("one more", run([], most * b"\n" + b"G 1\n"), (b"! %d lines\n" % (most + 1), BAD_LINE))
    told = run([], (most - 1) * b"\n" + b"P 1 1\nP 2 2\n")
    check("the last one", told, (b"%d -\n! %d lines\n" % (most, most + 1), BAD_LINE))


def refused_calls(library):
    """Reads and writes of one byte, of which one is refused."""
    pieces = {"LD_PRELOAD": library, "PIECES": "1"}
    for number in range(1, len(ROUNDS) + 2):
        written = max(length for behind, length in WRITTEN if behind < number)
        told = run([], ROUNDS, REFUSE="read", REFUSE_AT=str(number), **pieces)
        check(f"read {number} refused", told, (REPLIED[:written], READ_FAILED))
    check("all reads", run([], ROUNDS, **pieces), (REPLIED, ANSWERED))
    # a line of an open round isn't answered
    check("an open round", run([], b"P 1 1\nP 2", REFUSE="read", REFUSE_AT="10", **pieces), (b"", READ_FAILED))
    bad, named = b"P 1 1\nP 2 2\nI 0 9\nP 3 3\nX 4 4\n", b"1 -\n2 -\n3 2\n1 1\n2 2\n4 -\n! 5 letter\n"
    for number in range(1, len(named) + 2):
        told = run([], bad, REFUSE="write", REFUSE_AT=str(number), **pieces)
        check(f"write {number} refused", told, (named[: number - 1], WRITE_FAILED) if number <= len(named) else (named, BAD_LINE))
    # how many lines come before the read that fails, how many of them are answered
    for lines, answered in [(ROUND - 1, 0), (ROUND, ROUND), (20_000, ROUND), (2 * ROUND, 2 * ROUND)]:
        told, status = run([], lines * b"G 1\n", REFUSE="read", REFUSE_AT=str(4 * lines + 1), **pieces)
        check(f"{lines} lines", (told.count(b"\n"), status), (answered, READ_FAILED))


def sizes():
    """Neither workers nor words show in the output, and neither does stealing."""
    for workers, steal, inputs in [(1, 0, 2), (2, 0, 2), (3, 0, 2), (64, 0, 1), (3, 1, 2)]:
        for data, output in [(LINES, REPLIES), (FEW_KEYS, FEW_REPLIES)][:inputs]:
            for words in range(64, 401):
                options = ["--workers", str(workers), "--steal", str(steal), "--words", str(words)]
                check(f"{options}", run(options, data), (output, ANSWERED))


def uneven():
    """3,000 puts of which one in a hundred goes to a lane of its own, and all others to lane 0."""
    plain, data, output = {}, [], []
    for line in range(1, 3_001):
        key = line // 100 if line % 100 == 0 else 64 * (line % 97)
        data.append(f"P {key} {line}\n")
        output.append(f"{line} {plain.get(key, '-')}\n")
        plain[key] = line
    for workers in (1, 2, 4, 64):
        told = run(["--workers", str(workers), "--steal", "1", "--words", "65536"], "".join(data).encode())
        check(f"uneven lanes by {workers}", told, ("".join(output).encode(), ANSWERED))


def made_lines():
    number, plain, found = 1, {}, 0
    for _ in range(20_000):
        number = (number * 6_364_136_223_846_793_005 + 1_442_695_040_888_963_407) % 2**64
        key, kind = (number >> 40) % 65_536, number >> 61
        found += key in plain
        if kind < 5:
            plain[key] = (number >> 8) % 65_536
        elif kind == 5:
            plain.pop(key, None)
    summary = f"made 20000 keys {len(plain)} found {found} sum {sum(plain.values()) % 2**64}\n".encode()
    for workers in (1, 4, 64):
        for steal in (0, 1):
            options = ["--generate", "20000", "--seed", "1", "--workers", str(workers), "--steal", str(steal)]
            check(f"{options}", run(options, b""), (summary, ANSWERED))


small_inputs()
many_lines()
with tempfile.TemporaryDirectory() as room:
    refused_calls(refusals(room))
sizes()
uneven()
made_lines()
end()
