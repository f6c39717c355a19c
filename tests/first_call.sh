#!/bin/bash
# Tests the first call of ./tele by the kit itself, which tests/launcher.sh has a stub for: in a fresh copy the README's lines are answered
# by an unproved build, while the proof goes on. The call is ended then. The last line is 'N passed, M failed'.
. "$(dirname -- "$0")/head.sh"
unset TELE_WAIT TELE_RT GLIBC_TUNABLES

mkdir "$all/copy" "$all/copy/crates"
cp -R "$here"/{tele,tools,crates.txt,HANDLES} "$all/copy"
(cd "$here" && tar -c crates/*/{src,specs,proofs}) | tar -x -C "$all/copy"

# Standard output ends with the answer, and so does `cat`.
printf 'P 10 5\nP 20 7\nP 10 6\nG 20\nI 0 99\nR 10\n' >"$all/lines"
answer=$(
    cd "$all/copy" && export TELE_BUILD=$all/build TELE_JOBS=1
    setsid ./tele <"$all/lines" 2>"$all/said" &
    echo $! >"$all/leader"
)
expect "the README's lines, by an unproved build" "$answer" "$(printf '%s\n' '1 -' '2 -' '3 5' '4 7' '5 2' '10 6' '20 7' '6 6')"
expect "the proof goes on" "$([ -e "$all/copy/out/tele" ] || kill -0 "$(cat "$all/leader")" 2>&1)" ""
kill -TERM "$(cat "$all/leader")"
while kill -0 "$(cat "$all/leader")" 2>/dev/null; do sleep 0.2; done
expect "no work of a check is kept" "$(find "$all/build" -name incremental)" ""
expect "nothing is left in its folder of unproved builds" "$(ls "$all/build" | grep '^unproved-')" ""

[ "$failed" = 0 ] || tail -n 5 "$all/said"
finish
