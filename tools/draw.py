#!/usr/bin/env python3
"""Draws dumps of tables as SVG, side by side: the tree that each dump has, from the anchor down.

    python3 tools/draw.py [--words] DUMP.. > PICTURE.svg

A dump is what `tele_dump pack` writes; `-` is standard input. A node has its base, its count and limit, its status if it isn't open, its
keys, and a dot for each slot: full if it leads to a row, and else a ring. A leaf has its key and value. A change or rebuild that is in a slot
stands above what the slot reads as. Of a table with more than 200 rows the top levels are drawn, and below them how many keys there are;
of a node with more than 16 slots then the first and the last. With `--words` the words follow, with their places and fields.

The status is 1 if a file can't be read or is no dump of a tree, which is said on standard error.
"""
import struct
import sys
from dataclasses import dataclass, field
from pathlib import Path
from xml.sax.saxutils import escape

MOST_ROWS, MOST_SLOTS, MOST_WORDS = 200, 16, 1000
LETTER, LINE, GAP, LEVEL = 7.3, 16, 12, 34
WORD_WIDTH, WORDS_HEIGHT, WORDS_A_LINE = 72, 76, 12
LEAF, INNER, CHANGE, REBUILD = 1, 2, 3, 4
KINDS = {1: "put", 2: "remove", 3: "start of a rebuild", 4: "finish of a rebuild"}
DECISIONS = {0: "undecided", 1: "decided yes", 2: "decided no"}
FIELDS = {
    "fixed": ["next", "callers", "status", "slot"],
    "leaf": ["key", "value"],
    "change": ["decision", "kind", "node", "index", "from", "to", "owner", "key", "value"],
    "rebuild": ["target", "parent", "index", "root", "draw"],
}
COLOURS = {"fixed": "#e6e6e6", "leaf": "#d9ead3", "node": "#dce6f5", "change": "#fde2b8", "rebuild": "#f6d0d0", "unused": "#ffffff"}
STYLE = "text{font:12px monospace;text-anchor:middle}.s{font-size:10px;fill:#444}.b{font-weight:bold}"


class Flawed(Exception):
    """Why a file is no dump of a tree."""


@dataclass(eq=False)
class Row:
    """A row, or an empty or unset slot: its kind, base and words, and the rows below it."""

    kind: str
    base: int = 0
    words: list = field(default_factory=list)
    below: list = field(default_factory=list)
    keys: int = 0


# ---- reading a dump


class Table:
    """The words of a dump, and the rows that are reached from the anchor."""

    def __init__(self, data):
        if data[:8] != b"CISTDUMP" or len(data) < 24 or len(data) % 8:
            raise Flawed("it is no dump")
        self.size, *self.words = struct.unpack(f"<{len(data) // 8 - 1}Q", data[8:])
        if len(self.words) != self.words[0] or not 4 <= len(self.words) <= self.size:
            raise Flawed("its number of words is wrong")
        self.owners = ["fixed"] * 4 + [""] * (len(self.words) - 4)
        self.anchor = Row("anchor")
        self.rows = [self.anchor]
        for row in self.rows:
            row.below = [self.at(word, row) for word in self.slots(row)]
            self.rows += row.below
        for row in reversed(self.rows):
            row.keys = 1 if row.kind == "leaf" else sum(it.keys for it in row.below)

    def slots(self, row):
        """Returns the words that lead on from a row."""
        if row.kind == "anchor":
            return [self.words[3]]
        if row.kind == "node":
            return row.words[3 + row.words[2] :]
        if row.kind == "change":
            return [row.words[5 if row.words[0] == 1 else 4]]
        return [row.words[0] * 8 + INNER] if row.kind == "rebuild" else []

    def at(self, word, above):
        """Returns the row that a slot word names."""
        base, tag = divmod(word, 8)
        if word in (0, 7):
            return Row("unset" if word else "empty")
        if tag == INNER:
            (degree,) = self.taken(base + 2, 1)
            if degree < 2:
                raise Flawed(f"the row at {base} has {degree} slots")
            return Row("node", base, self.claimed("node", base, 2 * degree + 3))
        for own, kind in ((LEAF, "leaf"), (CHANGE, "change"), (REBUILD, "rebuild")):
            if tag == own and kind != above.kind:
                return Row(kind, base, self.claimed(kind, base, len(FIELDS[kind])))
        raise Flawed(f"the word {word} names no row")

    def taken(self, base, size):
        if base < 4 or base + size > len(self.words):
            raise Flawed(f"a row at {base} isn't within the words")
        return self.words[base : base + size]

    def claimed(self, kind, base, size):
        """Returns the words of a row, which are those of no other."""
        words = self.taken(base, size)
        if any(self.owners[base : base + size]):
            raise Flawed(f"the row at {base} meets another one")
        self.owners[base : base + size] = [kind] * size
        return words


# ---- laying out


@dataclass(eq=False)
class Box:
    """What is drawn of a row: its lines, its size and place, and the boxes below it by the slots from which they hang."""

    row: Row
    lines: list
    slots: list
    below: list = field(default_factory=list)
    width: float = 0
    span: float = 0
    x: float = 0
    y: float = 0

    def height(self):
        return LINE * (len(self.lines) + any(self.slots)) + 8


def lines_of(row):
    """Returns what is written in the box of a row."""
    if row.kind == "leaf":
        return [f"{row.words[0]}", f"{row.words[1]}"]
    if row.kind == "node":
        status, count, _, size = row.words[:4]
        said = {0: "", 1: ", marked"}.get(status, f", finished with {status // 4}")
        return [f"node {row.base}{said}", f"count {count} of {max(8, size // 4)}"]
    if row.kind == "change":
        key = f" {row.words[7]}" if row.words[1] in (1, 2) else ""
        return [f"change {row.base}", f"{KINDS.get(row.words[1], 'unknown')}{key}", DECISIONS.get(row.words[0], "unknown")]
    if row.kind == "rebuild":
        root = row.words[3]
        return [f"rebuild {row.base}", "no root yet" if root == 7 else f"root at {root // 8}", f"{row.words[4]} parts drawn"]
    return {"anchor": ["anchor"], "more": [f"{row.base} more", keys_said(row.keys)]}.get(row.kind, [])


def keys_said(number):
    return f"{number:,} key" + "s" * (number != 1)


def shown_below(row, is_whole):
    """Returns the rows to draw below a row, with the numbers of their slots."""
    below = [*enumerate(row.below)]
    if is_whole or len(below) <= MOST_SLOTS:
        return below
    first, last = below[: MOST_SLOTS // 2], below[-MOST_SLOTS // 2 + 1 :]
    left = below[len(first) : -len(last)]
    return [*first, (left[0][0], Row("more", base=len(left), keys=sum(it.keys for _, it in left))), *last]


def boxes_of(table):
    """Returns the boxes to draw, level by level: all, or the top levels with at most 200 of them."""
    is_whole = len(table.rows) <= MOST_ROWS
    levels, number = [[Box(table.anchor, lines_of(table.anchor), [""])]], 1
    while levels[-1]:
        level = []
        for box in levels[-1]:
            found = shown_below(box.row, is_whole)
            for _, row in found:
                box.below.append(Box(row, lines_of(row), slots_of(row, is_whole)))
            level += box.below
        number += len(level)
        if not is_whole and number > MOST_ROWS:
            for box in levels[-1]:
                box.below, box.slots = [], []
                box.lines = box.lines + [keys_said(box.row.keys)] * (box.row.kind == "node")
            break
        levels.append(level)
    return [it for level in levels for it in level]


def slots_of(row, is_whole):
    """Returns what stands after each slot that is shown of a row: the key, or nothing after the last."""
    if row.kind in ("change", "rebuild"):
        return [""]
    if row.kind != "node":
        return []
    degree = row.words[2]
    keys = [str(it) for it in row.words[4 : 3 + degree]] + [""]
    return [keys[at] if it.kind != "more" else "..." for at, it in shown_below(row, is_whole)]


def lay_out(boxes):
    """Gives each box its width and place. Boxes below one follow it in the list."""
    for box in reversed(boxes):
        letters = max([len(it) for it in box.lines], default=1)
        slots = sum(14 + LETTER * len(it) + (8 if it else 0) for it in box.slots)
        box.width = max(letters * LETTER, slots) + 12 if box.lines else 10
        below = sum(it.span for it in box.below) + GAP * (len(box.below) - 1)
        box.span = max(box.width, below)
    for box in boxes:
        below = sum(it.span for it in box.below) + GAP * (len(box.below) - 1)
        at = box.x - below / 2
        for it in box.below:
            it.x, it.y = at + it.span / 2, box.y + box.height() + LEVEL
            at += it.span + GAP


# ---- drawing


def text(x, y, said, kind=""):
    return f'<text x="{x:.1f}" y="{y:.1f}"{f" class={chr(34)}{kind}{chr(34)}" if kind else ""}>{escape(said)}</text>'


def drawn(box):
    """Returns the parts of a box, with a line from each slot to what is below it."""
    if box.row.kind in ("empty", "unset"):
        return [text(box.x, box.y + 4, "unset", "s")] if box.row.kind == "unset" else []
    left, height = box.x - box.width / 2, box.height()
    fill, round_ = COLOURS.get(box.row.kind, "#ffffff"), 8 if box.row.kind == "leaf" else 2
    parts = [f'<rect x="{left:.1f}" y="{box.y:.1f}" width="{box.width:.1f}" height="{height:.1f}" rx="{round_}" fill="{fill}" stroke="#555"/>']
    for number, line in enumerate(box.lines):
        kind = "b" if box.row.kind == "leaf" and not number else "" if box.row.kind == "leaf" else "s"
        parts.append(text(box.x, box.y + LINE * (number + 1) - 1, line, kind))
    return parts + drawn_slots(box, box.y + height)


def drawn_slots(box, y):
    """Returns the dots of a box's slots, the keys between them, and the lines down from them."""
    parts, widths = [], [14 + LETTER * len(it) + (8 if it else 0) for it in box.slots]
    at = box.x - sum(widths) / 2
    for number, (said, width) in enumerate(zip(box.slots, widths)):
        below = box.below[number] if number < len(box.below) else None
        is_row = below is not None and below.row.kind not in ("empty", "unset")
        x, at = at + 7, at + width
        if is_row:
            parts.append(f'<line x1="{x:.1f}" y1="{y:.1f}" x2="{below.x:.1f}" y2="{below.y:.1f}" stroke="#777"/>')
        parts.append(f'<circle cx="{x:.1f}" cy="{y:.1f}" r="3.5" fill="{"#333" if is_row else "#fff"}" stroke="#333"/>')
        if said:
            parts.append(text(x + 7 + (width - 14) / 2, y - 7, said))
    return parts


def words_of(table):
    """Returns for each word of a table its kind, and the name of its field."""
    named = [("fixed", it) for it in FIELDS["fixed"]] + [("unused", "")] * (len(table.words) - 4)
    for row in table.rows:
        if row.words:
            degree = row.words[2] if row.kind == "node" else 0
            inner = ["status", "count", "degree", "size", *[f"key {i + 1}" for i in range(degree - 1)], *[f"slot {i}" for i in range(degree)]]
            fields = inner if row.kind == "node" else FIELDS[row.kind]
            named[row.base : row.base + len(fields)] = [(row.kind, it) for it in fields]
    return named


def drawn_words(table, left, top):
    """Returns the words of a table in lines, each with its place above and its field below; a row that goes on in a line is named there again."""
    parts, begins, row = [], {2: "anchor", **{it.base: f"{it.kind} {it.base}" for it in table.rows if it.words}}, ""
    for place, (word, (kind, name)) in enumerate(zip(table.words, words_of(table))):
        down, across = divmod(place, WORDS_A_LINE)
        x, y = left + across * WORD_WIDTH, top + down * WORDS_HEIGHT
        parts.append(f'<rect x="{x:.1f}" y="{y:.1f}" width="{WORD_WIDTH}" height="22" fill="{COLOURS[kind]}" stroke="#555"/>')
        parts.append(text(x + WORD_WIDTH / 2, y - 4, str(place), "s"))
        parts.append(text(x + WORD_WIDTH / 2, y + 15, str(word)))
        parts.append(text(x + WORD_WIDTH / 2, y + 33, name, "s"))
        if place in begins:
            parts.append(f'<line x1="{x:.1f}" y1="{y - 2:.1f}" x2="{x:.1f}" y2="{y + 48:.1f}" stroke="#333" stroke-width="2.5"/>')
            parts.append(text(x + WORD_WIDTH / 2, y + 46, begins[place], "b"))
            row = begins[place]
        elif across == 0 and kind != "unused" and row:
            parts.append(text(x + WORD_WIDTH / 2, y + 46, f"({row})"))
    return parts


def picture(tables, has_words):
    """Returns the picture of some tables, by their titles."""
    parts, left, bottom = [], 20.0, 0.0
    for title, table in tables:
        said = f"{title}: {keys_said(table.anchor.keys)}, {len(table.words):,} of {table.size:,} words used"
        boxes = boxes_of(table)
        lay_out(boxes)
        strip = WORD_WIDTH * min(WORDS_A_LINE, len(table.words)) if has_words else 0
        width = max(boxes[0].span, LETTER * len(said), strip)
        for box in boxes:
            box.x, box.y = box.x + left + width / 2, box.y + 46
        parts += [text(left + width / 2, 24, said, "b"), *[it for box in boxes for it in drawn(box)]]
        bottom = max(bottom, max(it.y + it.height() for it in boxes))
        if has_words:
            parts += drawn_words(table, left + (width - strip) / 2, bottom + 40)
            bottom += 40 + WORDS_HEIGHT * -(-len(table.words) // WORDS_A_LINE)
        left += width + 40
    size = f'width="{left - 20:.0f}" height="{bottom + 20:.0f}"'
    head = f'<svg xmlns="http://www.w3.org/2000/svg" {size} viewBox="0 0 {left - 20:.0f} {bottom + 20:.0f}">'
    return "\n".join([head, f"<style>{STYLE}</style>", '<rect width="100%" height="100%" fill="#fff"/>', *parts, "</svg>"]) + "\n"


def main(words):
    has_words, paths = "--words" in words, [it for it in words if it != "--words"]
    tables = []
    for it in paths or ["-"]:
        try:
            table = Table(sys.stdin.buffer.read() if it == "-" else Path(it).read_bytes())
            if has_words and len(table.words) > MOST_WORDS:
                raise Flawed(f"it has more than {MOST_WORDS} words: draw it without --words")
        except (OSError, Flawed) as why:
            print(f"draw: {it}: {getattr(why, 'strerror', None) or why}", file=sys.stderr)
            return 1
        tables.append(("a table" if it == "-" else Path(it).stem.replace("_", " "), table))
    sys.stdout.write(picture(tables, has_words))
    return 0


if __name__ == "__main__":
    sys.exit(main(sys.argv[1:]))
