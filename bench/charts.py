#!/usr/bin/env python3
"""Draws the charts of docs/ from the figures of bench/tree.sh. It needs matplotlib.

    bench/tree.sh out/try_bench --peers --figures FIGURES
    python3 bench/charts.py FIGURES WHERE

WHERE says where and when the figures were measured; each chart says it below its title. The charts are docs/throughput.svg (calls a
second by threads) and docs/finds.svg (time of a find by keys). The same figures make the same bytes.
"""
import csv
import sys
from pathlib import Path

import matplotlib

matplotlib.use("svg")
# (else each run has other names inside)
matplotlib.rcParams["svg.hashsalt"] = "luskadorv"
matplotlib.rcParams["svg.fonttype"] = "none"
from matplotlib import pyplot

DOCS = Path(__file__).resolve().parent.parent / "docs"
NAMES = {
    "tree": "this tree",
    "before": "this tree, the version before",
    "map": "BTreeMap in an RwLock",
    "tbb": "TBB concurrent_map",
    "skip": "libcds SkipListMap",
    "avl": "libcds BronsonAVLTreeMap",
    "java": "Java ConcurrentSkipListMap",
}
STYLES = {
    "tree": dict(color="#b2182b", linewidth=2.6, marker="o"),
    "before": dict(color="#b2182b", linewidth=1.2, linestyle=":", marker="o"),
    "map": dict(color="#222222", linewidth=1.4, linestyle="--", marker="s"),
    "tbb": dict(color="#2166ac", linewidth=1.4, marker="^"),
    "skip": dict(color="#1b7837", linewidth=1.4, marker="v"),
    "avl": dict(color="#762a83", linewidth=1.4, marker="D"),
    "java": dict(color="#b8860b", linewidth=1.4, marker="P"),
}


def rows_of(path):
    """Returns the cells that bench/tree.sh wrote, with numbers as numbers."""
    with open(path, newline="") as file:
        rows = list(csv.DictReader(file, delimiter="\t"))
    return [{key: it if key in ("spread", "further", "program") else int(it) for key, it in row.items()} for row in rows]


def programs_of(rows):
    return [it for it in NAMES if any(row["program"] == it for row in rows)]


def draw(axes, rows, across, up):
    """Draws a line for each program: the function `up` of a row by its field `across`."""
    for program in programs_of(rows):
        points = sorted((row[across], up(row)) for row in rows if row["program"] == program)
        axes.plot(*zip(*points), label=NAMES[program], markersize=4.5, **STYLES[program])
    axes.grid(True, color="#dddddd", linewidth=0.6)
    for side in ("top", "right"):
        axes.spines[side].set_visible(False)


def finish(figure, axes, title, where, name):
    handles, labels = axes.get_legend_handles_labels()
    figure.legend(handles, labels, loc="lower center", ncol=3, frameon=False, fontsize=9)
    figure.suptitle(f"{title}\n", fontsize=12)
    figure.text(0.5, 0.915, where, ha="center", fontsize=8.5, color="#555555")
    figure.tight_layout(rect=(0, 0.11, 1, 0.97))
    figure.savefig(DOCS / name, metadata={"Date": None, "Creator": None})
    pyplot.close(figure)


def throughput(rows, where):
    mixes = [it for it in rows if (it["puts"], it["removes"], it["finds"]) == (1, 1, 2)]
    sizes = sorted({it["keys"] for it in mixes})
    figure, panels = pyplot.subplots(1, len(sizes), figsize=(9.6, 4.2))
    for axes, keys in zip(panels, sizes):
        of_size = [it for it in mixes if it["keys"] == keys]
        draw(axes, of_size, "threads", lambda it: it["calls"] / 1e6)
        axes.set_title(f"{keys:,} keys", fontsize=10)
        axes.set_xlabel("threads")
        axes.set_xticks(sorted({it["threads"] for it in of_size}))
        axes.set_ylim(bottom=0)
    panels[0].set_ylabel("million calls a second")
    finish(figure, panels[0], "A quarter puts, a quarter removes, half finds", where, "throughput.svg")


def finds(rows, where):
    alone = [it for it in rows if (it["puts"], it["removes"], it["further"], it["spread"], it["threads"]) == (0, 0, "", "uniform", 1)]
    figure, axes = pyplot.subplots(figsize=(7.2, 4.6))
    draw(axes, alone, "keys", lambda it: 1e9 / it["calls"])
    axes.set_xscale("log")
    axes.set_ylim(bottom=0)
    axes.set_xlabel("keys")
    axes.set_ylabel("nanoseconds a find")
    finish(figure, axes, "A find by one thread, uniform keys", where, "finds.svg")


def main(words):
    if len(words) != 2:
        sys.exit(__doc__)
    rows = rows_of(words[0])
    throughput(rows, words[1])
    finds(rows, words[1])


main(sys.argv[1:])
