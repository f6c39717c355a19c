#!/bin/sh
# Makes libluskadorv.a, for programs in C, C++ and Rust: tools/library.py, which describes the options.
#
#     bash tools/library.sh [--wait | --no-proof] [FOLDER]
exec python3 "$(dirname -- "$0")/library.py" "$@"
