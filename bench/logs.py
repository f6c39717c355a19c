#!/usr/bin/env python3
"""Large lawful logs for `log_check`, in eleven shapes.

    python3 bench/logs.py chain N       N puts of rising keys, so that pair rows hang one below the other
    python3 bench/logs.py root N        the same, and a rebuild at the anchor: all rows are marked, passed and finished, and its Root
    python3 bench/logs.py callers N     N callers that each hold a row
    python3 bench/logs.py crowd N       the same, and N puts of rising keys of one caller among them
    python3 bench/logs.py rebuilds N    N rebuilds of four pairs at the anchor, one after the other; each builds three rows
    python3 bench/logs.py sizes N       N puts of rising keys, and a rebuild at each row but the last eight, whose targets are finished
                                        with as many numbers of keys; and N callers that each begin a build
    python3 bench/logs.py losses N      N rebuilds of two pairs at the anchor, one after the other, and one of 256 pairs with a shared
                                        root; and 10 N callers that each give up such a root, as theirs comes too late
    python3 bench/logs.py parts N       a rebuild of a new table of N pairs at the anchor: its rows are marked, passed and finished, its shared
                                        root is put in place, and then each part
    python3 bench/logs.py turns N       N puts, rebuilds of the first 25 pair rows, one below the other, with their shared roots, and the parts
                                        of all by turns
    python3 bench/logs.py below N       N - 2 puts, each below the one before it, below the last leaf of a table of two pairs
    python3 bench/logs.py holders N     N callers that each hold all rows of a build of 255 keys, and then 300 times reserve a pair row and
                                        give it up, once a put has made a row with a higher base
"""
import math
import sys


class Log:
    """A log under way: its lines, and the first free word."""

    def __init__(self, pairs=(), first=4, words=268435456):
        self.lines, self.next = [" ".join([f"start {words}", *pairs])], first

    def say(self, line):
        self.lines.append(line)

    def reserve(self, caller, size):
        base, self.next = self.next, self.next + size
        self.say(f"Reserve {caller} {base} {size}")
        return base

    def decide(self, change):
        for line in (f"Okay 0 {change}", f"Decide 0 {change} yes", f"Resolve 0 {change}"):
            self.say(line)

    def put(self, node, index, stood, key, pair):
        """A put of a key above all others, which makes a pair row if a leaf is there; returns the words in its slots, and its base."""
        leaf = self.reserve(0, 2)
        row = self.reserve(0, 7) if pair else None
        change = self.reserve(0, 9)
        word = leaf * 8 + 1
        to = row * 8 + 2 if pair else word
        made = f";{row}=0,0,2,2,{key},{stood},{word}" if pair else ""
        self.say(f"Install 0 {change} {change}=0,1,{node},{index},{stood},{to},0,{key},{key}{made};{leaf}={key},{key}")
        self.decide(change)
        return row, to, word


def chain(log, puts, counted=0, until=None):
    """Answers the pair rows from the top on, each with its base and the words in its slots. Each put is counted at the last rows; those
    after so many puts are not counted."""
    _, _, leaf = log.put(2, 0, 0, 1, False)
    node, index, rows = 2, 0, []
    for key in range(2, puts + 1):
        row, to, word = log.put(node, index, leaf, key, True)
        if rows:
            rows[-1][2] = to
        if until is None or key <= until:
            for above, _, _ in rows[len(rows) - min(counted, len(rows)):]:
                log.say(f"Count 0 {above}")
        rows.append([row, leaf, word])
        node, index, leaf = row, 1, word
    return rows


def start(log, target, node, index):
    """Starts a rebuild of a row in a slot, and answers the base of the rebuild."""
    row, change = log.reserve(0, 5), log.reserve(0, 9)
    log.say(f"Install 0 {change} {change}=0,3,{node},{index},{target * 8 + 2},{row * 8 + 4},0,0,0;{row}={target},{node},{index},7,0")
    log.decide(change)
    return row


def freeze(log, rows):
    """Marks, passes and finishes all rows."""
    for base, left, right in rows:
        for line in (f"Mark 0 {base}", f"Pass 0 {base} 0 {left}", f"Pass 0 {base} 1 {right}"):
            log.say(line)
    for above, (base, _, _) in enumerate(reversed(rows)):
        log.say(f"Finish 0 {base} {above + 2}")


def rebuild(log, rows):
    keys = len(rows) + 1
    row = start(log, rows[0][0], 2, 0)
    freeze(log, rows)
    if keys >= 256:
        root(log, row, keys, 1)


def callers(log, number, first=0):
    for caller in range(first, number):
        log.say(f"Enter {caller}")
        log.reserve(caller, 2)


def rebuilds(log, number):
    """Each rebuild of the tree over four leaves replaces the row that the one before it has made."""
    top, parts, leaves = 4, (11, 22), (145, 161, 233, 249)
    for _ in range(number):
        row = start(log, top, 2, 0)
        log.say(f"Mark 0 {top}")
        for i, part in enumerate(parts):
            log.say(f"Pass 0 {top} {i} {part * 8 + 2}")
            log.say(f"Mark 0 {part}")
            for j in range(2):
                log.say(f"Pass 0 {part} {j} {leaves[2 * i + j]}")
            log.say(f"Finish 0 {part} 2")
        log.say(f"Finish 0 {top} 4")
        top, *parts = log.reserve(0, 7), log.reserve(0, 7), log.reserve(0, 7)
        left, right = parts
        words = f"{top}=0,0,2,4,3,{left * 8 + 2},{right * 8 + 2}"
        words += f";{left}=0,0,2,2,2,{leaves[0]},{leaves[1]};{right}=0,0,2,2,4,{leaves[2]},{leaves[3]}"
        log.say(f"Root 0 {row} {top * 8 + 2} {words}")
        change = log.reserve(0, 9)
        log.say(f"Install 0 {change} {change}=0,4,2,0,{row * 8 + 4},{top * 8 + 2},0,0,0")
        log.decide(change)


def grown(log, number, keys):
    """Each rebuild of the two leaves replaces the row that the one before it has made. Puts below the last row make so many pairs,
    whose rows are answered."""
    top, leaves = 4, [89, 105]
    for _ in range(number):
        row = start(log, top, 2, 0)
        freeze(log, [(top, *leaves)])
        top = log.reserve(0, 7)
        log.say(f"Root 0 {row} {top * 8 + 2} {top}=0,0,2,2,2,{leaves[0]},{leaves[1]}")
        change = log.reserve(0, 9)
        log.say(f"Install 0 {change} {change}=0,4,2,0,{row * 8 + 4},{top * 8 + 2},0,0,0")
        log.decide(change)
    rows = [[top, *leaves]]
    for key in range(3, keys + 1):
        row, to, word = log.put(rows[-1][0], 1, rows[-1][2], key, True)
        leaf, rows[-1][2] = rows[-1][2], to
        rows.append([row, leaf, word])
    return rows


def losses(log, number):
    rebuild(log, grown(log, number, 256))
    for caller in range(1, 10 * number + 1):
        log.say(f"Enter {caller}")
        log.say(f"Lose {caller} {log.reserve(caller, 35)}")


def lens(keys):
    """How many keys each part of this many has."""
    degree = max(2, math.isqrt(keys))
    return [keys // degree + (part < keys % degree) for part in range(degree)]


def laid(base, keys, rows):
    """The word of the ideal tree over this many keys at a base, and where it ends. Adds each of its rows: base, words in slots, keys."""
    if keys == 1:
        return base * 8 + 1, base + 2
    words, parts = [], lens(keys)
    rows.append((base, words, keys))
    end = base + 2 * len(parts) + 3
    for part in parts:
        word, end = laid(end, part, rows)
        words.append(word)
    return base * 8 + 2, end


def built(log, leaves, first, rows):
    """The word of the ideal tree over leaves whose keys rise from the first one on, in reserved rows, which are added as text."""
    if len(leaves) == 1:
        return leaves[0]
    parts, at = lens(len(leaves)), len(rows)
    base = log.reserve(0, 2 * len(parts) + 3)
    rows.append(None)
    keys, words, begin = [], [], 0
    for part in parts:
        keys.append(first + begin)
        words.append(built(log, leaves[begin : begin + part], first + begin, rows))
        begin += part
    rows[at] = f"{base}={','.join(map(str, [0, 0, len(parts), len(leaves), *keys[1:], *words]))}"
    return base * 8 + 2


def root(log, row, keys, first):
    """Puts the shared root of a rebuild over this many keys from the first one on in place, and returns the bounds of its parts."""
    ends = [sum(lens(keys)[:part]) for part in range(len(lens(keys)) + 1)]
    base = log.reserve(0, 2 * len(ends) + 1)
    words = [0, 0, len(ends) - 1, keys, *(first + end for end in ends[1:-1]), *[7] * (len(ends) - 1)]
    log.say(f"Root 0 {row} {base * 8 + 2} {base}={','.join(map(str, words))}")
    return ends


def place(log, row, part, leaves, ends, first):
    texts = []
    word = built(log, leaves[ends[part] : ends[part + 1]], first + ends[part], texts)
    log.say(f"Place 0 {row} {part} {word} {';'.join(texts)}")


def started(log, rows, node, index, number):
    """Starts the rebuilds of the first rows of a chain, each in the slot of the row above it, and answers their bases."""
    all = []
    for above, row in zip([None, *rows], rows[:number]):
        all.append(start(log, row[0], node, index))
        if above:
            above[2] = all[-1] * 8 + 4
        node, index = row[0], 1
    return all


def shape(keys):
    """The sizes of the rows of the ideal tree over this many keys."""
    return [2 * len(lens(keys)) + 3] + [size for part in lens(keys) for size in shape(part)] if keys > 1 else []


def holders(log, number, rounds=300):
    rows = chain(log, 255)
    row = start(log, rows[0][0], 2, 0)
    freeze(log, rows)
    for caller in range(1, number + 1):
        log.say(f"Enter {caller}")
        for size in shape(255):
            log.reserve(caller, size)
    texts, stood = [], rows[-1][2]
    word = built(log, [row[1] for row in rows] + [stood], 1, texts)
    log.say(f"Root 0 {row} {word} {';'.join(texts)}")
    change = log.reserve(0, 9)
    log.say(f"Install 0 {change} {change}=0,4,2,0,{row * 8 + 4},{word},0,0,0")
    log.decide(change)
    # the last of the rows has the leaf of the last key
    node = int(texts[-1].partition("=")[0])
    index = int(texts[-1].split(",")[2]) - 1
    for key in range(256, 256 + rounds):
        pairs = [log.reserve(caller, 7) for caller in range(1, number + 1)]
        node, _, stood = log.put(node, index, stood, key, True)
        index = 1
        for caller, pair in enumerate(pairs):
            log.say(f"Lose {caller + 1} {pair}")


def turns(log, number):
    rows = chain(log, number, 8, 40)
    leaves = [row[1] for row in rows] + [rows[-1][2]]
    all = [(at, row, leaves[at:]) for at, row in enumerate(started(log, rows, 2, 0, 25))]
    freeze(log, rows)
    ends = [root(log, row, len(below), at + 1) for at, row, below in all]
    for part in range(max(map(len, ends)) - 1):
        for (at, row, below), bounds in zip(all, ends):
            if part + 1 < len(bounds):
                place(log, row, part, below, bounds, at + 1)


def parts(number):
    rows = []
    _, end = laid(4, number, rows)
    log = Log([f"{key}:{key}" for key in range(1, number + 1)], end)
    log.say("Enter 0")
    row = start(log, 4, 2, 0)
    for base, words, _ in rows:
        log.say(f"Mark 0 {base}")
        for i, word in enumerate(words):
            log.say(f"Pass 0 {base} {i} {word}")
    for base, _, keys in reversed(rows):
        log.say(f"Finish 0 {base} {keys}")
    # a leaf is after those with lower keys
    leaves = sorted(word for _, words, _ in rows for word in words if word % 8 == 1)
    ends = root(log, row, number, 1)
    for part in range(len(ends) - 1):
        place(log, row, part, leaves, ends, 1)
    return log


def sizes(log, number):
    """Each row that was counted eight times is due. Its rebuild is in the slot of the row above it."""
    rows = chain(log, number, 8)
    started(log, rows, 2, 0, len(rows) - 8)
    freeze(log, rows)
    for caller in range(1, number + 1):
        log.say(f"Enter {caller}")
        log.reserve(caller, 11)
        log.reserve(caller, 2)


def main():
    kind, number, log = sys.argv[1], int(sys.argv[2]), Log()
    if kind == "rebuilds":
        log = Log(("1:1", "2:2", "3:3", "4:4"), 33)
    if kind in ("losses", "below"):
        log = Log(("1:1", "2:2"), 15)
    if kind == "callers":
        callers(log, number)
    elif kind == "parts":
        log = parts(number)
    else:
        log.say("Enter 0")
        if kind == "crowd":
            callers(log, number, 1)
        if kind == "rebuilds":
            rebuilds(log, number)
        elif kind == "losses":
            losses(log, number)
        elif kind == "sizes":
            sizes(log, number)
        elif kind == "below":
            grown(log, 0, number)
        elif kind == "turns":
            turns(log, number)
        elif kind == "holders":
            holders(log, number)
        else:
            rows = chain(log, number)
        if kind == "root":
            rebuild(log, rows)
    print("\n".join(log.lines))


if __name__ == "__main__":
    main()
