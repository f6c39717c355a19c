#!/usr/bin/env python3
"""Prints how many checks `rt ci` may run side by side with one job each, for RT_JOBS: as many as there are processors, if memory is free
for all of them. If it isn't, nothing is printed: without RT_JOBS `rt ci` decides by the memory that each check is likely to take.
"""
import os
import sys

sys.dont_write_bytecode = True
import build

# The most memory that a check of this repository takes, in bytes, with some to spare: 2.6 GB in `tele`.
MEMORY_OF_A_CHECK = 2_700_000_000


def main():
    os.environ.pop("TELE_JOBS", None)
    number = build.processors()
    if build.memory() >= number * MEMORY_OF_A_CHECK:
        print(number)


if __name__ == "__main__":
    main()
