"""Dumps that tests read or draw."""

HIGH = 2**28


def dump_of(size, words):
    """The dump of a table of this many words that has these used words."""
    return b"CISTDUMP" + b"".join(word.to_bytes(8, "little") for word in (size, *words))


def twenty():
    """A row over 4 rows over 5 leaves each. Their keys are 0, 10, 20 and so on."""
    words = [107, 4, 0, 34, 0, 3, 4, 20, 50, 100, 150, 122, 226, 330, 434]
    for part in range(4):
        words += [3, 0, 5, 5]
        words += [(5 * part + j) * 10 for j in range(1, 5)]
        words += [(67 + (5 * part + j) * 2) * 8 + 1 for j in range(5)]
    for i in range(20):
        words += [10 * i, 1000 + i]
    return words


def chain(rows, last=None):
    """So many rows over two slots, each in the second slot of the one before. The last slot has this word, or leads to a leaf."""
    words = [4 + 9 * rows + 2, 0, 0, 34]
    for i in range(rows):
        base = 4 + 9 * i
        below = (base + 9) * 8 + 2 if i + 1 < rows else last or (base + 9) * 8 + 1
        words += [0, 0, 2, 2, i + 1, (base + 7) * 8 + 1, below, i, 2 * i]
    return words + [rows, 2 * rows]


def half_rebuilt(decision, *edits):
    """A rebuild without a root is in the anchor's slot. Its target at 8 is finished, and a change of its second leaf to the pair
    (9, 3) is in its second slot, decided so. These words are then put at these places."""
    words = [31, 2, 0, 140, 5, 7, 9, 1, 11, 8, 2, 2, 9, 33, 179, 9, 3, 8, 2, 0, 7, 0, decision, 1, 8, 1, 49, 121, 0, 9, 3]
    for at, word in edits:
        words[at] = word
    return dump_of(33, words)
