#!/usr/bin/env python3
"""Dumps, lawful and flawed, as tele_dump packs, checks and lists them.

    python3 tests/dumps.py

Run after `rt ci`, which leaves the program; otherwise it is built first. Each byte of a dump of twenty pairs is changed to six
others, and what is said of it is compared with a second reading, in this file. The last line is 'N passed, M failed'.
"""
import os
import subprocess
import tempfile

from cases import TOP, check, end, program, refusals
from dump_cases import HIGH, chain, dump_of, half_rebuilt, twenty

DONE, USAGE, BAD_LINE, READ_FAILED, WRITE_FAILED, FLAWED = 0, 2, 3, 4, 5, 8
MOST = 2**64 - 1


PROGRAM = program("tele_dump")


def run(words, data, **environment):
    """The status of a run over these bytes, and what it writes."""
    ran = subprocess.run([PROGRAM, *words], input=data, capture_output=True, timeout=120, env={**os.environ, **environment})
    return ran.returncode, ran.stdout


# The second reading: it keeps the way to each slot whole, and the rows that were read in a list.


class Flawed(Exception):
    """The word for a flaw."""


def read_again(data):
    """The pairs of a dump."""
    number = lambda at: int.from_bytes(data[at : at + 8], "little")
    size, used, length = number(8), number(16), len(data)
    whole = 16 + 8 * used
    for is_flaw, word in (
        (data[:8] != b"CISTDUMP", "magic"),
        (length < 16, "short"),
        (not 4 <= size <= HIGH, "size"),
        (length < 24, "short"),
        (not 4 <= used <= size, "used"),
        (length < whole, "short"),
        (length > whole, "long"),
        (number(32) != 0, "anchor"),
    ):
        if is_flaw:
            raise Flawed(word)
    words = [number(16 + 8 * place) for place in range(used)]
    rows, pairs, left = [], [], [(3, words[3], 2, [])]
    while left:
        place, word, node, way = left.pop()
        try:
            read_slot(words, rows, pairs, left, place, word, node, way)
        except (Flawed, IndexError):
            raise Flawed(f"row {place}") from None
    return pairs


def claim(words, rows, base, size):
    """The words of a row lie in bounds, and apart from the rows that were read."""
    if base < 4 or base + size > words[0] or any(base < other + long and other < base + size for other, long in rows):
        raise Flawed
    rows.append((base, size))


def read_slot(words, rows, pairs, left, place, word, node, way):
    if word % 8 == 3:
        change = word // 8
        claim(words, rows, change, 9)
        if words[change] > 2:
            raise Flawed
        word = words[change + (5 if words[change] == 1 else 4)]
    base, kind = divmod(word, 8)
    if word == 0:
        return
    if kind == 1:
        claim(words, rows, base, 2)
        key = words[base]
        for row, index in way:
            if sum(words[row + 3 + i] <= key for i in range(1, words[row + 2])) != index:
                raise Flawed
        pairs.append((key, words[base + 1]))
        return
    if kind == 4:
        claim(words, rows, base, 5)
        base = words[base]
    elif kind != 2:
        raise Flawed
    if base < 4:
        raise Flawed
    degree = words[base + 2]
    if not 2 <= degree <= words[0]:
        raise Flawed
    claim(words, rows, base, 2 * degree + 3)
    status = words[base]
    if not (status <= 1 or status % 4 == 3 and status // 4 < 2**32) or words[base + 3] < 2 or base <= node:
        raise Flawed
    keys = words[base + 4 : base + 3 + degree]
    if any(low >= high for low, high in zip(keys, keys[1:])):
        raise Flawed
    for i in reversed(range(degree)):
        at = base + 3 + degree + i
        left.append((at, words[at], base, [*way, (base, i)]))


def said(data):
    """What `list 0 18446744073709551615` is to say of these bytes, with its status."""
    try:
        return DONE, "".join(f"{key} {value}\n" for key, value in read_again(data)).encode()
    except Flawed as flaw:
        return FLAWED, f"! dump {flaw}\n".encode()


ALL = ("list", "0", str(MOST))
ONE = (6, 0, 0, 33, 5, 7)


def first_flaws():
    # the number of words, the used words, the flaw
    for size, words, flaw in [
        (6, ONE, None),
        (HIGH, ONE, None),
        (HIGH, (6, 9, 0, 33, 0, 7), None),
        (6, (6, 0, 0, 34, 5, 7), "row 3"),
        (6, (6, 0, 0, 41, 5, 7), "row 3"),
        (6, (6, 0, 1, 34, 5, 7), "anchor"),
        (6, (6, 0, 1, 33, 5, 7, 0), "long"),
        (6, (6, 0, 1, 33, 5), "short"),
        (HIGH, (HIGH, 0, 0, 33), "short"),
        (6, (7, 0, 0, 33, 5, 7), "used"),
        (6, (3, 0, 0), "used"),
        (3, (3, 0, 0), "size"),
        (HIGH + 1, ONE, "size"),
        (3, (), "size"),
    ]:
        text = f"! dump {flaw}\n" if flaw else f"keys 1 used {words[0]} words {size}\n"
        check(f"{size} words, {words}", run(["check"], dump_of(size, words)), (FLAWED if flaw else DONE, text.encode()))
    check("no byte", run(["check"], b""), (FLAWED, b"! dump magic\n"))


def drawn_dumps():
    # the dump that docs/ARCHITECTURE.md shows, its keys, used words and words
    for name, numbers in [("three_pairs", (3, 24, 24)), ("before_the_rebuild", (11, 159, 400)), ("after_the_rebuild", (12, 272, 400))]:
        data = (TOP / f"tests/drawn/{name}.dump").read_bytes()
        check(name, run(["check"], data), (DONE, b"keys %d used %d words %d\n" % numbers))
    check("three pairs", run(["pack"], b"P 10 5\nP 20 7\nP 30 9\n"), (DONE, (TOP / "tests/drawn/three_pairs.dump").read_bytes()))


def words_of_a_command_line():
    # the words, the status, what is written of the dump of one pair
    for words, status, text in [
        ([], USAGE, "! usage\n"),
        (["Check"], USAGE, "! usage\n"),
        (["checks"], USAGE, "! usage\n"),
        (["list"], USAGE, "! usage\n"),
        (["list", "5"], USAGE, "! usage\n"),
        (["list", "5", "+9"], USAGE, "! usage\n"),
        (["list", "", "9"], USAGE, "! usage\n"),
        (["list", "0", "18446744073709551616"], USAGE, "! usage\n"),
        (["list", "0", "9", "9"], USAGE, "! usage\n"),
        (["check", "check"], USAGE, "! usage\n"),
        (["check", "0", "9"], USAGE, "! usage\n"),
        (["pack", "0"], USAGE, "! usage\n"),
        (["list", "005", str(MOST)], DONE, "5 7\n"),
        (["list", "9", "0"], DONE, ""),
        (["list", "0", "9"], DONE, "5 7\n"),
        (["list", "5", "5"], DONE, "5 7\n"),
        (["list", "6", "9"], DONE, ""),
        (["list", "0", "4"], DONE, ""),
    ]:
        check(f"{words}", run(words, dump_of(6, ONE)), (status, text.encode()))


def packed_lines():
    check("one line", run(["pack"], b"P 5 7"), (DONE, dump_of(6, ONE)))
    # the lines, what their dump lists
    for lines, listed in [
        ("", ""),
        ("# none\n\nI 0 9\nG 5\nR 5", ""),
        ("P 5 7\nP 6 8\nI 0 9\nR 5\nP 6 9\nP 4 1\n", "4 1\n6 9\n"),
        (f"P {MOST} 0\r\nP 0 1\r\n", f"0 1\n{MOST} 0\n"),
        ("V 2\nP -1 -2\n", "9223372036854775807 9223372036854775806\n"),
    ]:
        status, dump = run(["pack"], lines.encode())
        check(f"pack {lines!r}", (status, *run(ALL, dump)), (DONE, DONE, listed.encode()))
    # the lines, what is written of the first bad one
    for lines, text in [
        ("P 5 7\nQ 5\nP", "! 2 letter\n"),
        ("\nP 5", "! 2 fields\n"),
        ("P 5 -7", "! 1 number\n"),
        ("P 5 7\nV 2\n", "! 2 letter\n"),
    ]:
        check(f"pack {lines!r}", run(["pack"], lines.encode()), (BAD_LINE, text.encode()))
    seed, plain, lines = 1, {}, []
    for _ in range(20_000):
        seed = (seed * 6_364_136_223_846_793_005 + 1) % 2**64
        key, value = (seed >> 32) % 700, (seed >> 40) % 1000
        if value % 5 == 0:
            plain.pop(key, None)
            lines.append(f"R {key}\n")
        else:
            plain[key] = value
            lines.append(f"P {key} {value}\n")
    status, dump = run(["pack"], "".join(lines).encode())
    listed = "".join(f"{key} {plain[key]}\n" for key in sorted(plain) if 100 <= key <= 600).encode()
    check("many lines", (status, *run(["list", "100", "600"], dump)), (DONE, DONE, listed))


def changed_bytes():
    whole = dump_of(120, twenty())
    check("the dump of twenty pairs", (len(whole), run(ALL, whole)), (872, (DONE, b"".join(b"%d %d\n" % (10 * i, 1000 + i) for i in range(20)))))
    for at in range(len(whole)):
        for change in (1, 2, 3, 8, 128, 255):
            data = bytearray(whole)
            data[at] ^= change
            check(f"byte {at}, {change}", run(ALL, bytes(data)), said(bytes(data)))


def parts():
    whole = dump_of(107, twenty())
    for length in range(len(whole)):
        check(f"{length} bytes", run(["check"], whole[:length]), (FLAWED, b"! dump magic\n" if length < 8 else b"! dump short\n"))
    check("a byte more", run(["check"], whole + b"\0"), (FLAWED, b"! dump long\n"))


def intervals():
    """A row of three leaves, whose keys are the first and the last of all, and one between."""
    dump = dump_of(19, [19, 0, 0, 34, 0, 0, 3, 3, 7, MOST, 105, 121, 137, 0, 1, 7, 2, MOST, 3])
    # the first key, the last key, the values
    for first, last, values in [
        (0, MOST, [1, 2, 3]),
        (0, 0, [1]),
        (MOST, MOST, [3]),
        (0, 7, [1, 2]),
        (7, MOST, [2, 3]),
        (1, 6, []),
        (8, MOST - 1, []),
        (MOST, 0, []),
    ]:
        status, listed = run(["list", str(first), str(last)], dump)
        check(f"{first} to {last}", (status, [int(line.split()[1]) for line in listed.splitlines()]), (DONE, values))


def rows_under_way():
    # the decision, the value of key 9
    for decision, value in [(0, 1), (1, 3), (2, 1)]:
        dump = half_rebuilt(decision)
        check(f"decided {decision}", (run(ALL, dump), run(["list", "6", "9"], dump)), ((DONE, b"5 7\n9 %d\n" % value), (DONE, b"9 %d\n" % value)))
    # words and their places, the place of the first slot that breaks the rules
    for edits, place in [
        ([(8, 2)], 3),
        ([(10, 1)], 3),
        ([(11, 1)], 3),
        ([(17, 1 << 28)], 3),
        ([(12, 5)], 13),
        ([(13, 66)], 13),
        ([(13, 7)], 13),
        ([(14, 33)], 14),
        ([(14, 7)], 14),
        ([(14, 38)], 14),
        ([(22, 3)], 14),
        ([(26, 33)], 14),
        # the leaf at 9 is in good shape, but its words are the row's
        ([(9, 12), (14, 73)], 14),
    ]:
        check(f"{edits}", run(["check"], half_rebuilt(2, *edits)), (FLAWED, b"! dump row %d\n" % place))
    check("another count", run(["check"], half_rebuilt(2, (9, 12))), (DONE, b"keys 2 used 31 words 33\n"))


def chains():
    rows = 200_000
    whole = dump_of(HIGH, chain(rows))
    check("a long chain", run(["check"], whole), (DONE, b"keys %d used %d words %d\n" % (rows + 1, 9 * rows + 6, HIGH)))
    listed = b"".join(b"%d %d\n" % (key, 2 * key) for key in range(150_000, 150_010))
    check("ten pairs of it", run(["list", "150000", "150009"], whole), (DONE, listed))
    check("a loop", run(["check"], dump_of(HIGH, chain(rows, last=34))), (FLAWED, b"! dump row %d\n" % (9 * rows + 1)))


def refused_calls(library):
    """Each read of one byte and each write is refused in its turn."""
    # the words, the bytes
    for words, data in [(["check"], dump_of(6, ONE)), (["pack"], b"P 5 7\nP 6 8\n"), (["list", "0", "9"], dump_of(6, ONE))]:
        whole = run(words, data)
        for number in range(1, len(data) + 2):
            told = run(words, data, LD_PRELOAD=library, PIECES="1", REFUSE="read", REFUSE_AT=str(number))
            check(f"{words}, read {number} refused", told, (READ_FAILED, b""))
        for number in range(1, len(whole[1]) + 2):
            told = run(words, data, LD_PRELOAD=library, PIECES="1", REFUSE="write", REFUSE_AT=str(number))
            wanted = (WRITE_FAILED, whole[1][: number - 1]) if number <= len(whole[1]) else whole
            check(f"{words}, write {number} refused", told, wanted)


first_flaws()
drawn_dumps()
words_of_a_command_line()
packed_lines()
changed_bytes()
parts()
intervals()
rows_under_way()
chains()
with tempfile.TemporaryDirectory() as room:
    refused_calls(refusals(room))
end()
