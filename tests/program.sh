#!/bin/bash
# Tests of the program `tele` in surroundings that fail it: closed and full streams, a pipe that breaks, words and lines of any
# kind, too little memory; each read, write and allocation refused in its turn. Each run ends with its status and a prefix of its
# text, and never by a signal. The last line is 'N passed, M failed'.
. "$(dirname -- "$0")/head.sh"
program=$here/crates/tele/out/tele

# Says whether the status is one of those that are wanted, and the text what a test of it says.
wanted() {
    local name=$1 statuses=$2 status=$3
    shift 3
    if [[ " $statuses " == *" $status "* ]] && "$@"; then
        passed=$((passed + 1))
    else
        echo "$name: status $status where $statuses is wanted, and its text begins $(head -c 200 "$all/out" | tr '\n' '/')"
        failed=$((failed + 1))
    fi
}

# The text is a prefix of this file's. / The text is this one.
is_prefix() { cmp -s "$all/out" <(head -c "$(stat -c %s "$all/out")" "$1"); }
is() { [ "$(cat "$all/out")" = "$1" ]; }

# `rt ci` leaves the program; elsewhere it is built where a source is newer.
if [ ! -x "$program" ] || [ -n "$(find "$here"/crates/*/src -newer "$program" -print -quit)" ]; then
    (cd "$here/crates/tele" && echo "P 5 7" | rt run) >"$all/built" 2>&1 || cat "$all/built"
fi

# 60,000 puts and gets, four rounds: what they are answered is worked out here.
awk 'BEGIN { for (i = 1; i <= 60000; i++) if (i % 2) print "P " i " " i + 1; else print "G " i - 1 }' >"$all/lines"
awk 'BEGIN { for (i = 1; i <= 60000; i++) print i, i % 2 ? "-" : i }' >"$all/replies"
small=(--words 4096)

"$program" "${small[@]}" <"$all/lines" >"$all/out"
wanted "ample" "0" $? cmp -s "$all/out" "$all/replies"
"$program" "${small[@]}" <&- >"$all/out"
wanted "standard input closed" "0 4" $? is ""
"$program" "${small[@]}" <"$all" >"$all/out"
wanted "standard input is a folder" "4" $? is ""
: >"$all/out"
"$program" "${small[@]}" <"$all/lines" >&-
wanted "standard output closed" "5" $? is ""
"$program" "${small[@]}" <"$all/lines" >/dev/full
wanted "standard output full" "5" $? is ""
for bytes in 0 1 4096 100000; do
    "$program" "${small[@]}" <"$all/lines" | head -c "$bytes" >"$all/out"
    wanted "a pipe that breaks at $bytes" "5" "${PIPESTATUS[0]}" is_prefix "$all/replies"
done
"$program" $'\xff' <"$all/lines" >"$all/out"
wanted "a word that isn't UTF-8" "1 2" $? true
"$program" $(yes x | head -n 100000) <"$all/lines" >"$all/out"
wanted "a hundred thousand words" "2" $? is "! usage"
# What the launcher rests on: no shorter form of `--words` is taken, and what it passes first changes nothing for other arguments.
for it in "--word 64" --word=64 "--w 64" -w64; do
    "$program" $it </dev/null >"$all/out"
    wanted "$it" "2" $? is "! usage"
done
for it in "" x --help --seed "--seed 5" "--seed --steal 1" "-- --seed" "--workers 0" "--workers 2 --steal=1" --generate=3; do
    "$program" $it <"$all/lines" >"$all/without"
    status=$?
    "$program" --words=4096 $it <"$all/lines" >"$all/out"
    wanted "--words=4096 $it" "$status" $? cmp -s "$all/out" "$all/without"
done
head -c 8000000 /dev/zero | tr '\0' 'P' | "$program" "${small[@]}" >"$all/out"
wanted "a line of eight million bytes" "3" $? is "! 1 long"
{ echo "P 1 2" && head -c 8000000 /dev/zero; } | "$program" "${small[@]}" >"$all/out"
wanted "bytes of zero after a line" "3" $? is $'1 -\n! 2 long'

# A reply comes out of a pipe before the next line is sent.
coproc pair { exec "$program" "${small[@]}"; }
running=$pair_PID
: >"$all/out"
for line in "I 0 9" "P 3 5"$'\n'"I 3 3" "I 4 9"; do
    echo "$line" >&"${pair[1]}"
    # as many lines of reply as there are lines, and one for the pair
    for ((n = 0; n < (${#line} > 6 ? 3 : 1); n++)); do
        read -r -t 20 reply <&"${pair[0]}" || reply=none
        echo "$reply" >>"$all/out"
    done
done
exec {pair[1]}>&-
wait "$running"
wanted "a reply before the next line" "0" $? is $'1 0\n2 -\n3 1\n3 5\n4 0'

# Bytes of any kind, from a fixed seed: pieces of them, and pieces that have the letters and digits of good lines.
python3 - "$all" <<'PY'
import random, sys
draw = random.Random(7)
for number in range(40):
    kinds = bytes(range(256)) if number % 2 else b"PGRIV 0123456789-\r\n#"
    with open(f"{sys.argv[1]}/bytes.{number}", "wb") as file:
        file.write(bytes(draw.choice(kinds) for _ in range(draw.randrange(4000))))
PY
has_form() { ! grep -qavE '^[0-9]+ (-|-?[0-9]+)$|^-?[0-9]+ -?[0-9]+$|^! [0-9]+ (letter|fields|number|long)$' "$all/out"; }
for file in "$all"/bytes.*; do
    "$program" "${small[@]}" <"$file" >"$all/out"
    wanted "${file##*/}" "0 3" $? has_form
done

# Limits on memory, in kB: too little to begin with, for a table, for the threads, and enough.
for limit in 8000 12000 16000 24000 32000 48000 64000 100000 200000 300000 400000 1000000; do
    (ulimit -v "$limit" && exec "$program" --words 16777216 <"$all/lines" >"$all/out") 2>"$all/said"
    status=$?
    # Where the system finds no room to start the program at all, it ends it, or its loader does with 127.
    [[ "$status" = 137 && ! -s "$all/out" ]] && continue
    [ "$status" = 127 ] && grep -q "error while loading" "$all/said" && continue
    wanted "at most $limit kB" "0 1 7" "$status" is_prefix "$all/replies"
done
(ulimit -s 256 && exec "$program" "${small[@]}" <"$all/lines" >"$all/out")
wanted "a stack of 256 kB" "0" $? cmp -s "$all/out" "$all/replies"

# Each call of a kind refused, one after another, by a library that precedes the C library: the statuses that are wanted, what else
# is asked of the text, and the arguments. How often each status came is left in `came`.
declare -A came
refusing() {
    local kind=$1 number=$2 statuses=$3 status
    shift 3
    REFUSE=$kind REFUSE_AT=$number LD_PRELOAD=$all/refuse.so "$program" "$@" <"$all/in" >"$all/out"
    status=$?
    came[$status]=$((${came[$status]:-0} + 1))
    wanted "$kind $number refused" "$statuses" "$status" is_prefix "$all/whole"
    [ "$status" != 0 ] || wanted "$kind $number refused, the whole text" "0" 0 cmp -s "$all/out" "$all/whole"
}
# Says whether this many bytes are written.
has() { wanted "$1, how much is written" "0" 0 [ "$(stat -c %s "$all/out")" = "$2" ]; }

cc -O1 -shared -fPIC -o "$all/refuse.so" "$here/tests/refuse.c" -ldl || failed=$((failed + 1))

# Four point lines on two lanes and an interval line: 28 bytes, and as many of replies.
printf '%s\n' "P 2 1" "P 3 1" "P 2 5" "G 2" "I 0 9" >"$all/in"
printf '%s\n' "1 -" "2 -" "3 1" "4 5" "5 2" "2 5" "3 1" >"$all/whole"
export PIECES=1
for number in {1..30}; do
    refusing read "$number" "$([ "$number" = 30 ] && echo 0 || echo 4)" --workers 2
    has "read $number refused" $((number > 28 ? 28 : 0))
    refusing write "$number" "$([ "$number" -gt 28 ] && echo 0 || echo 5)" --workers 2
    has "write $number refused" $((number > 28 ? 28 : number - 1))
done
unset PIECES
refusing write 1 5 --generate 2 --seed 0
came=()
for number in {1..60}; do
    refusing memory "$number" "0 1 7" --workers 2
done
# Each of the first words, of what the run takes, of the threads, which it can do without; and the last numbers are of no call.
wanted "each allocation" "0 1" $((${came[1]:-0} >= 4 && ${came[7]:-0} >= 20 && ${came[0]:-0} >= 10 ? 0 : 2)) true

# Each round goes out by one write.
printf '%s\n' "P 2 1" "I 0 9" "P 3 1" "I 0 9" >"$all/in"
printf '%s\n' "1 -" "2 1" "2 1" "3 -" "4 2" "2 1" "3 1" >"$all/whole"
for number in 1 2 3; do
    refusing write "$number" "$([ "$number" = 3 ] && echo 0 || echo 5)" --workers 2
    has "round $number refused" $((number == 3 ? 28 : 12 * number - 12))
done

# Trees that run full: forty puts in rounds of ten, on first trees of 64 words.
awk 'BEGIN { for (i = 1; i <= 40; i++) { print "P " i * 7 % 41 " " i; if (i % 10 == 0) print "I 0 1" } }' >"$all/in"
"$program" --words 64 --workers 3 <"$all/in" >"$all/whole"
came=()
for number in {1..400}; do
    refusing memory "$number" "0 1 7" --words 64 --workers 3
done
wanted "each allocation of full trees" "0" $((${came[7]:-0} >= 100 && ${came[0]:-0} >= 10 ? 0 : 2)) true

finish
