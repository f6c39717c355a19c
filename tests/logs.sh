#!/bin/bash
# Tests of log_check on small logs, lawful, unlawful and out of form (log_cases.py), and on logs of a million events with a
# stack of 256 KB: a chain of pair rows, also with an event too many, a rebuild of all of it up to its Root, puts of one caller
# beside many that each hold a row, such callers alone, many rebuilds, of one size and of many, builds that come too late, and
# the rebuild of a table with all parts of its root. Each may take 60 seconds. The last line is 'N passed, M failed'.
. "$(dirname -- "$0")/head.sh"
program=$here/crates/log_check/out/log_check

# The shape of the log to check and its size.
make_log() {
    name="$1 $2"
    python3 "$here/bench/logs.py" "$1" "$2" >"$all/log"
}

# What is said of the log.
check() {
    local said
    said=$(ulimit -s 256 && timeout 60 "$program" "$all/log" 2>&1)
    if [ "$said" = "$1" ]; then
        passed=$((passed + 1))
    else
        echo "$name: wanted '$1', and it said '$said'"
        failed=$((failed + 1))
    fi
}

# `rt ci` leaves the program; elsewhere it is built where a source is newer.
if [ ! -x "$program" ] || [ -n "$(find "$here"/crates/*/src -newer "$program" -print -quit)" ]; then
    (cd "$here/crates/log_check" && rt run -- --version) >"$all/built" 2>&1 || cat "$all/built"
fi
small=$(python3 "$here/tests/log_cases.py" "$program")
counts=$(sed -n '$s/^\([0-9]*\) passed, \([0-9]*\) failed$/\1 \2/p' <<<"$small")
counts=${counts:-0 1}
passed=$((passed + ${counts% *})) failed=$((failed + ${counts#* }))
sed '$d' <<<"$small"
# A first put takes 11 words and each other 18, the rebuild 14 and its root 603, and each caller's row 2. The word in the
# anchor's slot is 8 times the base of the first pair row, and 2 more, or of the rebuild, and 4 more.
make_log chain 143000
check "ok next 2573997 callers 1 anchor 138"
echo "Mark 0 17" >>"$all/log"
check "unlawful 1001000: Mark, line 1001002, as this is false: there is a cause to mark the row"
make_log root 90000
check "ok next 1620614 callers 1 anchor 12959980"
make_log crowd 111000
check "ok next 2219995 callers 111000 anchor 1776122"
make_log callers 500000
check "ok next 1000004 callers 500000 anchor 0"
# A rebuild of four pairs takes 44 words. With many sizes a put is followed by its rebuild, of 14 words, but for the last nine
# puts, and by a caller's rows, of 13.
make_log rebuilds 37000
check "ok next 1628033 callers 1 anchor 13024026"
make_log sizes 35700
check "ok next 1606371 callers 35701 anchor 5140780"
# A rebuild of two pairs takes 30 words, a put 18, the rebuild of all 14 and its root 35, as each row that comes too late.
make_log losses 21000
check "ok next 7984636 callers 210001 anchor 5076700"
echo "Lose 0 $(seq -s, 4 300003)" >>"$all/log"
check "unlawful 989807: Lose, line 989809, as this is false: the rows are a pair row that may be too low, or a build that comes too late"
# The tree of the pairs, its rebuild of 14 words, the shared root of 947, and the rows of its parts.
make_log parts 223000
check "ok next 3275384 callers 1 anchor 14885500"
# The puts of a chain, and of each of 25 rebuilds 14 words, its shared root and the rows of its parts.
make_log turns 30000
check "ok next 5247697 callers 1 anchor 4319980"
# As the chain, but for a table of two pairs in place of its first two puts: its row may jump only where its way is known.
make_log below 143000
check "ok next 2573979 callers 1 anchor 34"
# Each of 1,000 callers holds 211 rows, and 300 times a pair row, of 7 words, while a put takes 18.
make_log holders 1000
check "ok next 3674573 callers 1001 anchor 12540810"
finish
