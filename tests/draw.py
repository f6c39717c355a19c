#!/usr/bin/env python3
"""tools/draw.py: the trees of dumps as pictures, what is left out of large ones, files that it refuses; and that the pictures of docs/ are
those of the dumps in tests/drawn.

    python3 tests/draw.py

The last line is 'N passed, M failed'.
"""
import subprocess
import sys
import xml.etree.ElementTree as xml

from cases import TOP, check, end, holds
from dump_cases import HIGH, chain, dump_of, half_rebuilt, twenty

sys.dont_write_bytecode = True
sys.path.insert(0, str(TOP / "tools"))
import draw

SVG = "{http://www.w3.org/2000/svg}"
DRAWN = TOP / "tests" / "drawn"
ONE = (6, 0, 0, 33, 5, 7)


def drawn(data, *options):
    """The status of a run over these bytes, its picture if there is one, and what it says."""
    ran = subprocess.run([sys.executable, TOP / "tools/draw.py", *options], input=data, capture_output=True, timeout=120)
    return ran.returncode, xml.fromstring(ran.stdout) if ran.stdout else None, ran.stderr.decode()


def texts(picture):
    """What is written in a picture, below its title."""
    return [it.text for it in picture.iter(f"{SVG}text")][1:]


def boxes(picture):
    """The edges of the rectangles of a picture: left, top, right, bottom."""
    found = [[float(it.get(name)) for name in ("x", "y", "width", "height")] for it in picture.iter(f"{SVG}rect") if it.get("x")]
    return [(x, y, x + width, y + height) for x, y, width, height in found]


def is_apart(what, picture):
    """Checks that no two boxes meet, that each is in the picture, and that each line goes from a slot to the middle of a box's upper edge."""
    found, width, height = sorted(boxes(picture)), float(picture.get("width")), float(picture.get("height"))
    # (sorted by their left edges: only those that begin before the right edge can meet one)
    meet = [(a, b) for n, a in enumerate(found) for b in found[n + 1 : n + 60] if b[0] < a[2] and a[1] < b[3] and b[1] < a[3]]
    check(f"{what}: boxes that meet", meet, [])
    check(f"{what}: boxes outside", [it for it in found if it[0] < 0 or it[1] < 0 or it[2] > width or it[3] > height], [])
    slots = {(it.get("cx"), it.get("cy")) for it in picture.iter(f"{SVG}circle")}
    heads = {(round((left + right) / 2, 0), round(top, 0)) for left, top, right, _ in found}
    for it in picture.iter(f"{SVG}line"):
        begin, end_ = (it.get("x1"), it.get("y1")), (round(float(it.get("x2")), 0), round(float(it.get("y2")), 0))
        near = any(abs(end_[0] - x) <= 1 and abs(end_[1] - y) <= 1 for x, y in heads)
        holds(begin in slots and near, f"{what}: a line from {begin} to {end_}")


def trees():
    # the dump, what is written in its picture, its slots that are empty or unset
    for what, data, wanted, free in [
        ("no pair", dump_of(4, (4, 0, 0, 0)), ["anchor"], 1),
        ("one pair", dump_of(6, ONE), ["anchor", "5", "7"], 0),
        ("three pairs", (DRAWN / "three_pairs.dump").read_bytes(),
         ["anchor", "node 4", "count 0 of 8", "30", "node 11", "count 0 of 8", "20", "30", "9", "10", "5", "20", "7"], 0),
        ("a rebuild and a change that is undecided", half_rebuilt(0),
         ["anchor", "rebuild 17", "no root yet", "0 parts drawn", "node 8, finished with 2", "count 8 of 8", "9",
          "5", "7", "change 22", "put 9", "undecided", "9", "1"], 0),
        ("decided yes", half_rebuilt(1, (16, 33)),
         ["anchor", "rebuild 17", "no root yet", "0 parts drawn", "node 8, finished with 2", "count 8 of 8", "9",
          "5", "7", "change 22", "put 9", "decided yes", "9", "33"], 0),
        ("an unset slot", half_rebuilt(2, (14, 7)),
         ["anchor", "rebuild 17", "no root yet", "0 parts drawn", "node 8, finished with 2", "count 8 of 8", "9", "5", "7", "unset"], 1),
    ]:
        status, picture, said = drawn(data)
        check(f"{what}: the status", (status, said), (0, ""))
        check(f"{what}: what is written", texts(picture), wanted)
        check(f"{what}: free slots", sum(it.get("fill") == "#fff" for it in picture.iter(f"{SVG}circle")), free)
        is_apart(what, picture)


def large_tables():
    picture = drawn(dump_of(120, twenty()))[1]
    check("twenty pairs: all leaves", [it for it in texts(picture) if it.startswith("10") and len(it) == 4], [str(1000 + i) for i in range(20)])
    is_apart("twenty pairs", picture)
    size = 300
    words = [7 + 4 * size, 0, 0, 34, 0, 3, size, size, *[10 * i for i in range(1, size)], *[(7 + 2 * (size + i)) * 8 + 1 for i in range(size)]]
    picture = drawn(dump_of(5000, words + [it for i in range(size) for it in (10 * i, i)]))[1]
    written = texts(picture)
    check("a wide node: what is left out", [it for it in written if "more" in it or "keys" in it], ["285 more", "285 keys"])
    check("a wide node: the last leaf", written[-2:], ["2990", "299"])
    is_apart("a wide node", picture)
    picture = drawn(dump_of(HIGH, chain(200_000)))[1]
    # the anchor, and the first rows with a leaf each, of which the last has its number of keys instead of its own leaf and row
    check("a long chain: its rows", sum(it.startswith("node ") for it in texts(picture)), 100)
    check("a long chain: the keys below", [it for it in texts(picture) if "keys" in it], ["199,902 keys"])
    is_apart("a long chain", picture)


def words_of_a_table():
    picture = drawn((DRAWN / "three_pairs.dump").read_bytes(), "--words")[1]
    written = texts(picture)
    # the place of a word, the word, its field
    for place, word, name in [(0, 24, "next"), (3, 34, "slot"), (4, 0, "status"), (8, 30, "key 1"), (10, 177, "slot 1"), (22, 30, "key"), (23, 9, "value")]:
        at = next(n for n, it in enumerate(written[13:], 13) if it == str(place) and written[n + 1 : n + 3] == [str(word), name])
        holds(at, f"word {place}")
    check("where rows begin", [it for it in written[13:] if it.split()[0] in ("node", "leaf")], ["node 4", "node 11", "leaf 18", "leaf 20", "leaf 22"])
    check("words of two dumps", len(boxes(drawn(b"", "--words", DRAWN / "three_pairs.dump", DRAWN / "three_pairs.dump")[1])), 2 * (6 + 24))


def refused_files():
    # the bytes, what is said of them
    for data, why in [
        (b"", "it is no dump"),
        (dump_of(6, ONE)[:-1], "it is no dump"),
        (dump_of(6, ONE)[:-8], "its number of words is wrong"),
        (dump_of(5, ONE), "its number of words is wrong"),
        (dump_of(6, (6, 0, 0, 41, 5, 7)), "a row at 5 isn't within the words"),
        (dump_of(6, (6, 0, 0, 38, 5, 7)), "the word 38 names no row"),
        (half_rebuilt(2, (10, 1)), "the row at 8 has 1 slots"),
        (half_rebuilt(2, (14, 73)), "the row at 9 meets another one"),
        (dump_of(HIGH, chain(1000, last=34)), "the row at 4 meets another one"),
    ]:
        check(f"{why}", drawn(data), (1, None, f"draw: -: {why}\n"))
    check("no file", drawn(b"", "none.dump"), (1, None, "draw: none.dump: No such file or directory\n"))
    check("words of a large table", drawn(dump_of(HIGH, chain(200)), "--words"), (1, None, "draw: -: it has more than 1000 words: draw it without --words\n"))
    whole = dump_of(120, twenty())
    for at in range(len(whole)):
        for change in (1, 2, 4, 128, 255):
            data = bytearray(whole)
            data[at] ^= change
            try:
                xml.fromstring(draw.picture([("changed", draw.Table(bytes(data)))], False))
                holds(True, "")
            except draw.Flawed:
                holds(True, "")
            except Exception as other:
                holds(False, f"byte {at}, {change}: {other!r}")


def pictures_of_docs():
    # the picture, the words that draw it
    for name, options in [("words", ["--words", "three_pairs"]), ("rebuild", ["before_the_rebuild", "after_the_rebuild"])]:
        words = [it if it.startswith("--") else f"tests/drawn/{it}.dump" for it in options]
        ran = subprocess.run([sys.executable, "tools/draw.py", *words], cwd=TOP, capture_output=True, timeout=120)
        path = TOP / "docs" / f"{name}.svg"
        holds(path.is_file() and ran.stdout == path.read_bytes(), f"docs/{name}.svg is another picture: python3 tools/draw.py {' '.join(words)} > docs/{name}.svg")


trees()
large_tables()
words_of_a_table()
refused_files()
pictures_of_docs()
end()
