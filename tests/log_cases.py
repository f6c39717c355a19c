#!/usr/bin/env python3
"""Runs log_check over small logs, and holds what it says and its status to what is wanted.

    python3 tests/log_cases.py PROGRAM

The logs of tests/logs come from a model of the events that shares nothing with the program, and so do the answers. They are:
a put, a rebuild of the anchor's child that two callers build, a put that comes too late, and a remove (small); eight puts that
make a pair row due, and the start of its rebuild (eight_puts), after which a put was seen to be open before the mark and takes
effect after it (seen_open), or is decided yes after the mark all the same (seen_marked); two callers that have built the root
of one rebuild (two_roots); and a rebuild of a lower row that has its root when the row above it is marked (marked_parent),
after which its finish is decided no and the rebuild above goes on over it (finish_refused). The last line of what this says is
'N passed, M failed'.
"""
import subprocess
import sys

from cases import TOP, check, end

sys.path.insert(0, str(TOP / "bench"))
import logs

LOGS = TOP / "tests/logs"
LAWFUL, UNLAWFUL, OUT_OF_FORM = 0, 1, 3

# The events of a put into an empty tree.
PUT = """Enter 0
Reserve 0 4 2
Reserve 0 6 9
Install 0 6 6=0,1,2,0,0,33,0,1,1;4=1,1
Okay 0 6
Decide 0 6 yes
Resolve 0 6
"""
OUTCOME = "yes takes an Okay of the change, and no a node that isn't open"


def log(*names):
    return "".join((LOGS / f"{name}.log").read_text() for name in names)


# The texts, what is said of each.
ENDS = [
    ("start 15\n" + PUT, "ok next 15 callers 1 anchor 33"),
    ("start 14\n" + PUT, "unlawful 2: Reserve, line 4, as this is false: there is room for the row"),
    (log("small"), "ok next 83 callers 2 anchor 322"),
    (log("eight_puts", "seen_open"), "ok next 128 callers 4 anchor 828"),
    (log("eight_puts", "seen_marked"), f"unlawful 70: Decide, line 72, as this is false: {OUTCOME}"),
    (log("two_roots") + "Lose 1 124\n", "ok next 131 callers 2 anchor 828"),
    (
        log("two_roots") + "Root 1 103 994 124=0,0,2,2,20,737,105\n",
        "unlawful 71: Root, line 73, as this is false: the rebuild has no root yet",
    ),
    (log("marked_parent", "finish_refused"), "ok next 381 callers 2 anchor 2218"),
    (log("marked_parent") + "Decide 0 268 yes\n", f"unlawful 105: Decide, line 107, as this is false: {OUTCOME}"),
    # a start on the anchor's child, which isn't due
    (
        "start 100 10:1 20:2\nEnter 0\nReserve 0 15 5\nReserve 0 20 9\nInstall 0 20 20=0,3,2,0,34,124,0,0,0;15=4,2,0,7,0\n",
        "ok next 29 callers 1 anchor 163",
    ),
    # no event
    ("start 4", "ok next 4 callers 0 anchor 0"),
    ("start 16 5:7\n", "ok next 6 callers 0 anchor 33"),
    ("start 20 5:7 9:1\n", "ok next 15 callers 0 anchor 34"),
    ("start 33 1:1 2:2 3:3 4:4\n", "ok next 33 callers 0 anchor 34"),
    ("start 82 1:1 2:2 3:3 4:4 5:5 6:6 7:7 8:8 9:9 10:10\n", "ok next 82 callers 0 anchor 34"),
    # lines that say nothing
    ("# a log\r\n\r\nstart 15\r\nEnter 0\r\nReserve 0 4 2\r\n", "ok next 6 callers 1 anchor 0"),
    ("start 15\n\nEnter 0\n# a row\nReserve 0 4 2\n \t\n", "ok next 6 callers 1 anchor 0"),
    ("start 15\n# numbers\nconst SHARE_FROM=256 LIMIT_MIN=8 LIMIT_DIV=4\nEnter 0", "ok next 4 callers 1 anchor 0"),
    # a number that ends early says another event
    ("start 15\nEnter 0\nReserve 0 4 2\n", "ok next 6 callers 1 anchor 0"),
    ("start 99\nEnter 0\n\nReserve 0 4 1", "unlawful 1: Reserve, line 4, as this is false: what the caller then holds is fair"),
]

NO_START = "the first line isn't `start WORDS KEY:VALUE ..`"
WORDS = "the number of words isn't one up to 268435456"
PAIR = "a pair isn't `KEY:VALUE`"
TABLE = "the keys don't rise, or the pairs need more words"
NUMBERS = "the numbers aren't those of this program"
NAME = "no event has this name"
MISSING = "a field is missing"
EXTRA = "there is a field too many"
FIELD = "a field isn't a number, or the list or word that stands there"

# A text, the line that is out of form, what is wrong with it.
FORMS = [
    ("", 1, NO_START),
    ("# nothing\n\n", 1, NO_START),
    ("start", 1, WORDS),
    ("# first\n\nstart\n", 3, WORDS),
    ("start 3\n", 1, TABLE),
    ("start 268435457\n", 1, WORDS),
    ("start 14 5:7 9:1\n", 1, TABLE),
    ("start 20 9:1 5:7\n", 1, TABLE),
    ("start 20 5:7 5:8\n", 1, TABLE),
    ("start 20 5:7:9\n", 1, PAIR),
    ("start 20  5:7\n", 1, PAIR),
    ("start 20 5:", 1, PAIR),
    ("start 20\nconst SHARE_FROM=4 LIMIT_MIN=8 LIMIT_DIV=4\n", 2, NUMBERS),
    ("start 20\nEnter\n", 2, MISSING),
    ("start 20\nEnter 0 0\n", 2, EXTRA),
    ("start 20\nEnter +1\n", 2, FIELD),
    ("start 20\nEnter 18446744073709551616\n", 2, FIELD),
    ("start 20\nEnter 0\nDecide 0 6 maybe\n", 3, FIELD),
    ("start 20\nEnter 0\nInstall 0 6 6=\n", 3, FIELD),
    ("start 20\nEnter 0\nInstall 0 6 6=0,1,", 3, FIELD),
    ("start 20\nEnter 0\nReserve 0 4", 3, MISSING),
    ("start 20\nEnter 0\nLose 0 4,\n", 3, FIELD),
    ("start 20\nEnter 0\nSleep 0 4\n", 3, NAME),
]

IDEAL = "the word and the rows are the ideal subtree over the part's leaves, each row once"

# How many parts of a shared root are drawn, the event after that, the condition that it fails.
SHARES = [
    (0, "Draw 0 2071 1", "the part is the rebuild's draw word"),
    (3, "Draw 0 2071 2", "the part is the rebuild's draw word"),
    (17, "Draw 0 2071 16", "the part is the rebuild's draw word"),
    (17, "Draw 0 2071 17", "no part that the caller drew before lay past the last"),
    # part 0 has sixteen leaves, of which the first is at 64
    (1, "Place 0 2071 0 0 -", IDEAL),
    (1, "Place 0 2071 0 513 -", IDEAL),
    (1, "Place 0 2071 15 7 -", IDEAL),
    (1, "Place 0 2071 16 0 -", "the root's slot isn't built yet"),
    (1, "Place 0 2071 0 0 2120=0,0,2,2,2,513,529", "the caller holds each of the rows"),
]


def marked(above, row_index, row):
    """The row below a slot is passed there, and marked."""
    return f"Pass 0 {above} {row_index} {8 * row + 2}\nMark 0 {row}\n"


def drawn(parts):
    """A table of the pairs from 1:1 to 256:256, just enough to make the root of a rebuild a shared one: the rebuild of its
    top row is started at 2071, each row is marked, passed and finished, the root is at 2085, and this many parts are drawn."""
    text = "start 3000" + "".join(f" {key}:{key}" for key in range(1, 257))
    text += "\nEnter 0\nReserve 0 2071 5\nReserve 0 2076 9\nInstall 0 2076 2076=0,3,2,0,34,16572,0,0,0;2071=4,2,0,7,0\n"
    text += "Okay 0 2076\nDecide 0 2076 yes\nResolve 0 2076\nMark 0 4\n"
    for part in range(16):
        sixteen = 39 + 127 * part
        text += marked(4, part, sixteen)
        for j in range(4):
            four = sixteen + 11 + 29 * j
            text += marked(sixteen, j, four)
            for k in range(2):
                two = four + 7 + 11 * k
                text += marked(four, k, two)
                text += f"Pass 0 {two} 0 {8 * (two + 7) + 1}\nPass 0 {two} 1 {8 * (two + 9) + 1}\nFinish 0 {two} 2\n"
            text += f"Finish 0 {four} 4\n"
        text += f"Finish 0 {sixteen} 16\n"
    text += "Finish 0 4 256\nReserve 0 2085 35\nRoot 0 2071 16682 2085=0,0,16,256"
    text += "".join(f",{16 * i + 1}" for i in range(1, 16)) + 16 * ",7" + "\n"
    return text + "".join(f"Draw 0 2071 {part}\n" for part in range(parts))


def large_tables():
    """Tables of many pairs, in just as many words as they need and in one too few."""
    for keys in (255, 256, 20_000):
        words = logs.laid(4, keys, [])[1]
        pairs = "".join(f" {key}:{key}" for key in range(keys))
        yield f"start {words}{pairs}\n", f"ok next {words} callers 0 anchor 34"
        yield f"start {words - 1}{pairs}\n", f"! form 1: {TABLE}"


def refusals():
    """The logs of tests/logs/refused.txt, each with what is said of it."""
    events = log("small").splitlines(True)
    for line in (LOGS / "refused.txt").read_text().splitlines():
        if not line or line.startswith("#"):
            continue
        before, lines, condition = line.split(" | ")
        lines = lines.split(" / ")
        at = int(before) + len(lines) - 1
        text = "".join(events[: int(before) + 1]) + "\n".join(lines)
        yield text, f"unlawful {at}: {lines[-1].split()[0]}, line {at + 2}, as this is false: {condition}"


FAIR = "what the caller then holds is fair"
LATE = "the rows are a pair row that may be too low, or a build that comes too late"


def two_pairs(keys, words=268435456):
    """A log in which the row over two pairs is rebuilt, this many keys are put in, and a rebuild of all of them is under way."""
    log = logs.Log(("1:1", "2:2"), 15, words)
    log.say("Enter 0")
    logs.rebuild(log, logs.grown(log, 1, keys))
    return log


def four_pairs():
    """A log in which the rows over four pairs are rebuilt."""
    log = logs.Log(("1:1", "2:2", "3:3", "4:4"), 33)
    log.say("Enter 0")
    logs.rebuilds(log, 1)
    return log


def spare_rows():
    """What a caller holds where nothing is rebuilt, and why its last row may not be reserved: one of each kind may."""
    for held in ([9, 2, 7, 5], [5, 7, 2, 9], [9, 2, 9], [2, 2], [7, 7], [5, 5], [11]):
        log = logs.Log()
        log.say("Enter 0")
        for size in held:
            log.reserve(0, size)
        yield log, None if len(held) == 4 else FAIR


def cut_off_rows():
    """The build of a hundred keys begins with a row of 23 words and one of 9. It is cut off where fewer words are left, and only after
    that may a build of two keys begin, which is a row of 7."""
    for room in (7, 8, 9, 100):
        log = two_pairs(100, two_pairs(100).next + 23 + 7 + room)
        for size in (23, 7, 7):
            log.reserve(0, size)
        yield log, None if room < 9 else FAIR


def held_builds():
    """What a caller reserves that holds the whole build of 255 keys, and has given a pair row up twice, and why the last may not be
    reserved: one row of each kind may."""
    for sizes, why in [([7], None), ([9, 7, 2, 5], None), ([7, 7], FAIR), ([11], FAIR), ([9, 35], FAIR)]:
        log = logs.Log()
        log.say("Enter 0")
        logs.holders(log, 1, 2)
        for size in sizes:
            log.reserve(1, size)
        yield log, why


def late_rows():
    """How many rows of 7 words another caller holds when four keys are rebuilt, whose build has three of them; which it gives up, and
    why it may not. It may once, and no part."""
    for held, lost, why in [
        (3, [(0, 1, 2)], None),
        (3, [(2, 0, 1)], None),
        (3, [(0, 0, 0)], LATE),
        (3, [(0, 1, 1)], LATE),
        (3, [(0, 1)], LATE),
        (3, [(1,)], LATE),
        (4, [(0, 1, 2, 3)], LATE),
        (4, [(0, 1, 3)], None),
        (4, [(0, 1, 2), (3,)], LATE),
    ]:
        log = four_pairs()
        log.say("Enter 1")
        rows = [log.reserve(1, 7) for _ in range(held)]
        for which in lost:
            log.say(f"Lose 1 {','.join(str(rows[i]) for i in which)}")
        yield log, why


def other_rows():
    """Who gives up a row after the shared root of 256 keys that caller 0 has put in place, and of which size: that of such a root, or
    that with which the build of a part begins."""
    for caller, size, why in [(0, 35, LATE), (1, 35, None), (1, 11, LATE)]:
        log = two_pairs(256)
        log.say("Enter 1")
        log.say(f"Lose {caller} {log.reserve(caller, size)}")
        yield log, why


def placed_parts():
    """After all parts of a shared root but the last: that part as it is, in a slot that is set, as a leaf of another part, without its
    last row, and with another leaf; and why it may not be placed."""
    for change, why in [
        (lambda part, word, rows: (part, word, rows), None),
        (lambda part, word, rows: (part - 1, word, rows), "the root's slot isn't built yet"),
        (lambda part, word, rows: (part, 513, "-"), IDEAL),
        (lambda part, word, rows: (part, word, rows.rpartition(";")[0]), IDEAL),
        (lambda part, word, rows: (part, word, rows.rpartition(",")[0] + ",513"), IDEAL),
    ]:
        log = logs.parts(256)
        *words, part, word, rows = log.lines.pop().split()
        log.say(" ".join(map(str, [*words, *change(int(part), word, rows)])))
        yield log, why


def last_events():
    """Logs whose last event may come, or not and why."""
    for log, why in [*spare_rows(), *cut_off_rows(), *held_builds(), *late_rows(), *other_rows(), *placed_parts()]:
        kinds = [line.split()[0] for line in log.lines]
        anchor = [line.split()[3].split(",")[5] for line in log.lines if line.startswith("Install") and ",2,0," in line][-1:]
        at = len(kinds) - 2
        wanted = f"ok next {log.next} callers {kinds.count('Enter')} anchor {anchor[0] if anchor else 0}"
        yield "\n".join(log.lines), wanted if why is None else f"unlawful {at}: {kinds[-1]}, line {at + 2}, as this is false: {why}"


def cases():
    yield from ENDS
    yield from last_events()
    yield from ((text, f"! form {line}: {fault}") for text, line, fault in FORMS)
    yield from refusals()
    yield from large_tables()
    yield from ((drawn(parts), "ok next 2120 callers 1 anchor 16572") for parts in (0, 1, 16, 17))
    for parts, event, condition in SHARES:
        text = drawn(parts)
        at = text.count("\n")
        yield text + event, f"unlawful {at - 1}: {event.split()[0]}, line {at + 1}, as this is false: {condition}"


for text, wanted in cases():
    ran = subprocess.run([sys.argv[1]], input=text.encode(), capture_output=True, timeout=60)
    status = LAWFUL if wanted.startswith("ok") else UNLAWFUL if wanted.startswith("unlawful") else OUT_OF_FORM
    said = ran.stdout.decode(errors="replace"), ran.stderr.decode(errors="replace"), ran.returncode
    check(repr(text[-200:]), said, (wanted + "\n", "", status))
end()
