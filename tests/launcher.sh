#!/bin/bash
# Tests of ./tele and tools/build.py, over a small repository whose `rt` is a stub. The last line is 'N passed, M failed'.
. "$(dirname -- "$0")/head.sh"
unset TELE_JOBS TELE_BUILD TELE_RT TELE_WAIT CDPATH GLIBC_TUNABLES

# A stub in the place of `rt`: it notes each call, and a program prints what its crates' files said when it was made.
write_kit() {
    mkdir -p "$1/bin"
    echo one >"$1/KIT-ID"
    cat >"$1/bin/rt" <<'STUB'
#!/bin/bash
name=${PWD##*/}
note() { echo "$1 $name" >>"$STUB_LOG"; }

# Writes the program: it prints what the files of its crates said, its arguments and its input.
write_program() {
    {
        echo '#!/bin/bash'
        echo 'case " $* " in *" --help "*) echo "! usage"; exit 2 ;; esac'
        echo "echo '$(cat ../low/src/* ../left/src/* src/main.rt 2>/dev/null | tr '\n' ' ')${1:-}'"
        echo '[ -z "${PROGRAM_TELLS:-}" ] || echo "heap:$GLIBC_TUNABLES"'
        echo '[ -z "${PROGRAM_DIES:-}" ] || kill -9 $$'
        echo 'echo "words:$*"; cat || exit 4; exit "${PROGRAM_STATUS:-0}"'
    } >"$2"
    chmod +x "$2"
}

if [ "$1" = try ]; then
    note tried
    ! grep -qs broken ../*/src/* || exit 1
    [ -z "${STUB_TRY_SLEEPS:-}" ] || { trap 'kill $!; exit 143' TERM; sleep "$STUB_TRY_SLEEPS" & wait; }
    if [ -n "${STUB_TRY_LACKS:-}" ]; then
        echo "checked: no-answer: more than 1048576 bytes of standard output" >&2
        note try-ends
        echo "run=none proved=no" >&2
        exit 6
    fi
    write_program "${STUB_TRY_SAYS:-}" ./unproved
    shift 2
    PROGRAM_DIES='' PROGRAM_STATUS=${STUB_TRY_STATUS:-${PROGRAM_STATUS:-0}} ./unproved "$@"
    status=$?
    note try-ends
    echo "run=ended status=$status runners=1 races=unchecked proved=no" >&2
    exit $status
fi

note "$1-begins"
if grep -qs broken src/*; then
    echo "note: nothing of this matters"
    echo "src/lib.rt:1:1: error[mismatched-types]: expected \`bool\`, found \`usize\`"
    exit 1
fi
case $1 in
lib)
    if [ "$name" = "${STUB_FAILS:-}" ]; then echo "src/lib.rt:2:2: error[no-proof]: nothing proves this"; exit 1; fi
    if [ "$name" = "${STUB_KILLS:-}" ] && [ ! -e out/killed ]; then mkdir -p out; touch out/killed; exit 137; fi
    echo "checked $name::first, 1 of 2"
    if [ ! -e out/incremental/first ]; then
        mkdir -p out/incremental
        touch out/incremental/first
        note first
        [ "$name" != "${STUB_SLOW:-}" ] || sleep "${STUB_SLEEPS:-4}"
        # The unproved builds come first.
        if [ "$name" = "${STUB_HELD:-}" ]; then
            for _ in $(seq 600); do [ ! -e "$STUB_LOG.seen" ] || break; sleep 0.1; done
        fi
        if [ "$name" = "${STUB_SECOND:-}" ]; then
            for _ in $(seq 600); do [ "$(grep -c try-ends "$STUB_LOG")" -lt "${STUB_TRIES:-1}" ] || break; sleep 0.1; done
        fi
    fi
    if [ -n "${STUB_MEET:-}" ] && [ "$name" != low ]; then
        touch "$STUB_LOG.$name"
        for _ in $(seq 300); do
            [ -e "$STUB_LOG.left" ] && [ -e "$STUB_LOG.right" ] && note met && break
            sleep 0.1
        done
    fi
    echo "checked $name::second, 2 of 2"
    mkdir -p "out/rlib/$name.rlib"
    cat src/* | sha256sum >out/rlib/stamp
    cp out/rlib/stamp "out/rlib/$name.rlib/format"
    ;;
run)
    for it in ../*/; do
        it=${it%/}
        [ "$it" = "../$name" ] || [ "$(cut -c1-64 "$it/out/rlib/stamp")" = "$(cat "$it"/src/* | sha256sum | cut -c1-64)" ] || exit 9
    done
    mkdir -p out
    write_program "" "out/$name"
    echo "rt: running out/$name; to give it other input, run that file yourself" >&2
    shift
    while [ $# -gt 0 ] && [ "$1" != -- ]; do shift; done
    "out/$name" "${@:2}"
    status=$?
    note run-ends
    exit $status
    ;;
esac
note "$1-ends"
STUB
    chmod +x "$1/bin/rt"
}

# A fresh copy of the launcher, with five crates, of which the program stands on three; `aside` is one that it doesn't stand on.
fresh() {
    dir=$(mktemp -d "$all/case.XXXXXX")
    top=$dir/repository
    mkdir -p "$top/tools"
    cp "$here/tele" "$top"
    cp "$here/tools/build.py" "$here/tools/first_call.py" "$here/tools/kept.py" "$here/tools/once.py" "$top/tools"
    printf '# crates\nlow:\nleft may_wait=2: low\nright: low\naside: low\ntele: left right\n' >"$top/crates.txt"
    for it in low left right aside; do
        mkdir -p "$top/crates/$it/src" "$top/crates/$it/specs"
        echo "$it-1" >"$top/crates/$it/src/lib.rt"
        echo "-- $it" >"$top/crates/$it/specs/Lib.antt"
    done
    mkdir -p "$top/crates/tele/src"
    echo main-1 >"$top/crates/tele/src/main.rt"
    echo read >"$top/README.md"
    write_kit "$dir/kit"
    export TELE_RT=$dir/kit/bin/rt TELE_BUILD=$dir/build STUB_LOG=$dir/calls
    : >"$STUB_LOG"
}

# Runs the launcher on one line, and keeps what it wrote and its status.
run() {
    out=$(echo input | "${command:-$top/tele}" "$@" 2>"$dir/err")
    status=$?
    err=$(cat "$dir/err")
}
calls() { grep -c "$1" "$STUB_LOG"; }
wait_for() { for _ in $(seq 1200); do grep -qs "$1" "$2" && return; sleep 0.05; done; }
# What the launcher passes if its caller says nothing of it.
preset=--words=3145728
answer="low-1 left-1 main-1 
words:$preset
input"

fresh
run
expect "a first call answers, and nothing else is on its output" "$out" "$answer"
has "it says how many crates there are" "$err" "4 crates"
has "it says that this is done once" "$err" "once"
has "it says where the log lies" "$err" "log: $dir/build/logs"
has "it names what is proved and how far it is" "$err" "of 4 crates; proving"
expect "what the program doesn't stand on isn't built" "$(calls aside)" 0
run a 'b c'
expect "words are handed on" "$out" "${answer/$preset/$preset a b c}"
expect "nothing is said where the program is built" "$err" ""
expect "nothing is called then" "$(calls lib-begins)" 3
export PROGRAM_STATUS=3
run
expect "the status is the program's" "$status" 3
unset PROGRAM_STATUS

echo other >"$top/README.md"
echo "aside-2" >"$top/crates/aside/src/lib.rt"
echo '# a comment' >>"$top/crates.txt"
touch "$top/crates/low/src/lib.rt"
mkdir -p "$top/crates/low/out"
run
expect "a README, another crate, a comment and a touched file build nothing" "$err$(calls begins)" "4"
: >"$STUB_LOG"
echo left-2 >"$top/crates/left/src/lib.rt"
touch -d '2001-01-01' "$top/crates/left/src/lib.rt"
run
has "a file that changed, older than the program, is seen" "$out" "left-2"
expect "what doesn't stand on it is left as it is" "$(grep begins "$STUB_LOG" | tr '\n' ' ')" \
    "lib-begins left run-begins tele "
echo extra >"$top/crates/low/src/more.rt"
run
has "a new file is seen" "$out" "low-1 extra"
rm "$top/crates/low/src/more.rt"
run
expect "a file that went is seen" "$out" "${answer/left-1/left-2}"
sed -i 's/may_wait=2/may_wait=3/' "$top/crates.txt"
: >"$STUB_LOG"
run
expect "a crate's line of crates.txt is seen" "$(calls lib-begins)" 1
echo two >"$dir/kit/KIT-ID"
: >"$STUB_LOG"
run
expect "another kit builds all anew" "$(calls lib-begins)" 3
TELE_RT=$dir/none run
expect "a built program runs without the kit" "$err$out" "${answer/left-1/left-2}"
run
expect "and with it again" "$err$out" "${answer/left-1/left-2}"

# The size of a round's first table: passed unless the caller says it.
fresh
run --words 64
expect "a first call hands on --words, and passes nothing beside it" "$out" "${answer/$preset/--words 64}"
run --seed 5
expect "it is passed before other arguments" "$out" "${answer/$preset/$preset --seed 5}"
run --seed 5 --words=64
expect "--words=.. is seen" "$out" "${answer/$preset/--seed 5 --words=64}"
run --words
expect "and --words without a number" "$out" "${answer/$preset/--words}"
has "docs/LINES.md says which number that is" "$(cat "$here/docs/LINES.md")" "${preset#*=}"
has "and README does" "$(tr -d , <"$here/README.md")" "${preset#*=}"

fresh
TELE_RT=none-such run
expect "without the kit nothing is written" "$out" ""
expect "without the kit the status is none of the program's" "$status" 125
has "without the kit it says what is missing" "$err" 'no command `rt` on the path'

fresh
TELE_JOBS=4 STUB_MEET=yes run
expect "crates that don't stand on one another are proved side by side" "$(calls met)" 2

fresh
STUB_SLOW=left "$top/tele" <<<input >"$dir/first" 2>/dev/null &
wait_for 'first left' "$STUB_LOG"
echo left-2 >"$top/crates/left/src/lib.rt"
wait
run
expect "a file that is edited during a build: the call that builds answers for what it read" "$(cat "$dir/first")" "$answer"
has "the next call builds again" "$out" "left-2"

fresh
STUB_SLOW=low "$top/tele" <<<input >"$dir/first" 2>/dev/null &
wait_for 'first low' "$STUB_LOG"
run
wait
has "a second call waits and says so" "$err" "waiting"
expect "both answer" "$(cat "$dir/first")$out" "$answer$answer"
expect "one of them builds" "$(calls lib-begins)" 3

fresh
mkdir -p "$dir/elsewhere/crates/tele"
ln -s "$top/tele" "$dir/elsewhere/by-link"
ln -s by-link "$dir/elsewhere/by-two"
out=$(cd "$dir/elsewhere" && echo input | ./by-two 2>/dev/null)
expect "it is found behind links" "$out" "$answer"
expect "nothing is built beside a link" "$(ls "$dir/elsewhere")" $'by-link\nby-two\ncrates'
out=$(cd "$dir" && echo input | CDPATH=$dir/elsewhere:. PATH=$top:$PATH tele 2>&1)
expect "it is found on the path, whatever CDPATH says" "$out" "$answer"
out=$(cd "$dir" && echo input | CDPATH=$dir/elsewhere:. sh repository/tele 2>&1)
expect "and from any folder" "$out" "$answer"
out=$(cd "$top/crates" && echo left-3 >left/src/lib.rt && echo input | CDPATH=$dir/elsewhere ../tele 2>/dev/null)
has "and builds there" "$out" "left-3"

fresh
echo broken >"$top/crates/right/src/lib.rt"
run
expect "a build that fails writes nothing" "$out" ""
expect "its status is none of the program's" "$status" 125
has "it says which crate" "$err" "right failed"
has "it says the cause" "$err" "src/lib.rt:1:1: error[mismatched-types]"
has "it says where the whole log lies" "$err" "$dir/build/logs/right.log"
expect "in a few lines" "$(($(grep -n failed "$dir/err" | cut -d: -f1) + 4 > $(wc -l <"$dir/err")))" 1
: >"$STUB_LOG"
echo right-2 >"$top/crates/right/src/lib.rt"
run
expect "mended, it goes on where it was" "$out$(calls 'lib-begins low')" "${answer}0"
echo broken >"$top/crates/left/src/lib.rt"
run
expect "where it can't be built anew, the program of before isn't run" "$out$status" 125

fresh
STUB_SLOW=left "$top/tele" <<<input >"$dir/first" 2>"$dir/err" &
pid=$!
wait_for 'first left' "$STUB_LOG"
kill -TERM "$pid"
wait "$pid"
expect "an interrupted build has the status of its signal" "$?" 143
has "it says that it stopped" "$(cat "$dir/err")" "stopped"
: >"$STUB_LOG"
run
expect "the next call goes on from there" "$out$(calls 'lib-begins low')$(calls 'first left')" "${answer}00"

fresh
STUB_KILLS=left run
expect "a check that is killed is tried once more, alone" "$out$(calls 'lib-begins left')" "${answer}2"

fresh
run
export PROGRAM_TELLS=1
has "the program is told to keep its heap" "$(cd "$dir" && "$top/tele" <<<input)" "heap:glibc.malloc.mmap_max=0:"
has "but for the setting of its caller" "$(GLIBC_TUNABLES=own=1 "$top/tele" <<<input)" $'heap:own=1\n'
has "were it an empty one" "$(GLIBC_TUNABLES='' "$top/tele" <<<input)" $'heap:\n'
unset PROGRAM_TELLS

# The first minute: an unproved build answers while the proof goes on.
begin() { "$top/tele" "$@" <&0 >"$dir/first" 2>"$dir/err" & pid=$!; }
end() { wait "$pid"; status=$?; out=$(cat "$dir/first") err=$(cat "$dir/err"); }
left() { ls "$dir/build" | grep -c '^unproved-'; }

fresh
STUB_HELD=low "$top/tele" 2>"$dir/err" <<<input | { cat >"$dir/first"; cat "$STUB_LOG" >"$dir/seen"; touch "$STUB_LOG.seen"; }
expect "an unproved build answers" "$(cat "$dir/first")" "$answer"
expect "standard output is closed before the proof ends" "$(grep -c 'lib-ends' "$dir/seen")" 0
err=$(cat "$dir/err")
expect "it is said first that the answer is unproved" "$(head -n 1 "$dir/err" | grep -c 'an unproved build answers first')" 1
has "at the end the proved program has answered" "$err" "the proved program gives the same answer"
expect "its answer isn't written" "$(cat "$dir/first")" "$answer"
expect "nothing is left of the unproved build" "$(left)" 0
: >"$STUB_LOG"
run
expect "the next call runs the proved program" "$out$(cat "$STUB_LOG")" "$answer"

# what the unproved build and the proved one do, the status, what is written, what is said
while IFS='|' read -r name settings wanted text said; do
    fresh
    out=$(echo input | env $settings "$top/tele" 2>"$dir/err")
    expect "$name: the status" "$?" "$wanted"
    expect "$name: the answer" "$out" "${text:+$answer}"
    has "$name: what is said" "$(cat "$dir/err")" "$said"
    has "$name: the proof went on" "$(cat "$STUB_LOG")" "lib-begins low"
done <<'CASES'
both end with a status of its own|STUB_SECOND=low PROGRAM_STATUS=3|3|yes|gives the same answer
the unproved build ends with another status|STUB_SECOND=low STUB_TRY_STATUS=3|125|yes|answers otherwise (status 0, unproved 3)
memory was lacking in the unproved build|STUB_SECOND=low STUB_TRY_STATUS=7|0|yes|has no answer
the unproved build has no answer|STUB_TRY_LACKS=yes|0|yes|has no answer
the proved program has no memory|STUB_SECOND=low STUB_TRY_STATUS=0 PROGRAM_STATUS=7|125|yes|THE ANSWER IS UNCHECKED: the proved program ended with status 7
the proved program is killed|STUB_SECOND=low PROGRAM_DIES=yes|125|yes|THE ANSWER IS UNCHECKED: the proved program was ended by signal 9
the proof is faster|STUB_TRY_SLEEPS=600|0|yes|proved and built
the proof fails after the answer|STUB_SECOND=low STUB_FAILS=left|125|yes|left failed
the proof fails before the answer|STUB_FAILS=left STUB_TRY_SLEEPS=600|125||left failed
CASES

fresh
STUB_SECOND=low STUB_TRY_SAYS=wrong run
expect "an answer that was wrong: the status" "$status" 125
has "it is the one that was given" "$out" "wrong"
has "it is said" "$err" "THE ANSWER WAS WRONG"
expect "the proved answer is kept" "$(cat "$dir/build/logs/answer.proved")" "$answer"

fresh
STUB_SLOW=low TELE_WAIT=1 begin <<<input
wait_for 'first low' "$STUB_LOG"
expect "with TELE_WAIT nothing is written before the proof" "$(cat "$dir/first")" ""
end
expect "then the proved program answers" "$out$(calls tried)" "${answer}0"

fresh
{ echo input; sleep 7; echo more; } | "$top/tele" >"$dir/first" 2>"$dir/err"
expect "an input that doesn't end waits for the proof, and is given whole" "$(cat "$dir/first")$(calls tried)" "$answer"$'\nmore0'
has "which is said" "$(cat "$dir/err")" "did not end within"

head -c 67108865 /dev/zero | tr '\0' x >"$all/large"
wanted=$({ printf 'low-1 left-1 main-1 \nwords:%s\n' "$preset"; cat "$all/large"; } | cksum)
fresh
expect "a larger input, from a pipe, waits for the proof" "$(cat "$all/large" | "$top/tele" 2>"$dir/err" | cksum)$(calls tried)" "${wanted}0"
has "which is said" "$(cat "$dir/err")" "larger than 64 MiB"
fresh
expect "and from a file" "$("$top/tele" <"$all/large" 2>"$dir/err" | cksum)$(calls tried)" "${wanted}0"
rm "$all/large"

# Where an input can't be kept whole in a file: a limit, and a full file system.
apart() { unshare -rm sh -c "$@"; }
head -c 3000000 /dev/zero | tr '\0' x >"$all/large"
wanted=$({ printf 'low-1 left-1 main-1 \nwords:%s\n' "$preset"; cat "$all/large"; } | cksum)
fresh
out=$( (ulimit -f 2500 && cat "$all/large" | "$top/tele" 2>"$dir/err") | cksum)
expect "a limit on files: the input is given whole" "$out" "$wanted"
has "by the proved program" "$(cat "$dir/err")" "the proved program will answer"
fresh
mkdir "$dir/full"
if apart 'mount -t tmpfs -o size=2m tmpfs "$1"' - "$dir/full"; then
    small='mount -t tmpfs -o size=2m tmpfs "$1" && exec "$2"'
    out=$(cat "$all/large" | TELE_BUILD=$dir/full/build apart "$small" - "$dir/full" "$top/tele" 2>"$dir/err" | cksum)
    expect "a full file system: the input is given whole" "$out" "$wanted"
else
    echo "not tried: a full file system, since none can be mounted here"
fi
rm "$all/large"

# Calls it with a socket for standard input: these bytes come, and after that many seconds the connection is reset.
reset_after() {
    python3 - "$top/tele" "$@" >"$dir/first" 2>"$dir/err" <<'PY'
import socket, struct, subprocess, sys, time
program, seconds, lines = sys.argv[1:]
with socket.create_server(("127.0.0.1", 0)) as server:
    mine = socket.create_connection(server.getsockname())
    its, _ = server.accept()
called = subprocess.Popen([program], stdin=its)
its.close()
mine.sendall(lines.encode())
time.sleep(float(seconds))
mine.setsockopt(socket.SOL_SOCKET, socket.SO_LINGER, struct.pack("ii", 1, 0))
mine.close()
sys.exit(called.wait())
PY
    status=$? out=$(cat "$dir/first")
}
# what resets, after how many seconds, what came before
while IFS='|' read -r name seconds lines; do
    fresh
    reset_after "$seconds" "$lines"
    expect "$name: the program finds that its input failed" "$status" 4
    expect "$name: it has what came" "$out" "${answer/$'\n'input/${lines:+$'\n'}$lines}"
done <<'CASES'
a connection that is reset while its input is kept|1|two lines
a connection that is reset at once|0|
a connection that is reset when its input is handed on|7|two lines
CASES

# The same of what can't be read at all.
fresh
"$top/tele" </ >"$dir/first" 2>"$dir/err"
expect "a folder for standard input: the program finds that its input failed" "$?$(cat "$dir/first")$(calls tried)" "4${answer%
input}0"
"$top/tele" </ >"$dir/first" 2>"$dir/err"
expect "and once it is built" "$?$(cat "$dir/first" "$dir/err")" "4${answer%input}cat: -: Is a directory"
fresh
"$top/tele" 0>"$dir/written" >"$dir/first" 2>"$dir/err"
expect "a file that is open for writing only" "$?$(cat "$dir/first")$(calls tried)" "4${answer%
input}0"

# An input that doesn't end: a pipe that this script keeps open.
fresh
pipe=$dir/pipe
mkfifo "$pipe"
exec 7<>"$pipe"
echo input >&7
begin <"$pipe" 7>&-
wait_for input "$dir/first"
kill -9 $(pgrep -P "$pid" -f first_call)
exec 7>&-
end
expect "what hands on the rest of an input is killed: that is no end of the input" "$out$status" "${answer}4"
fresh
exec 7<>"$pipe"
echo input >&7
STUB_TRY_LACKS=yes "$top/tele" --help <"$pipe" 2>"$dir/err" 7>&- | timeout 600 cat >"$dir/first"
expect "a program that reads no further lets its output end" "${PIPESTATUS[*]}$(cat "$dir/first")" "2 0! usage"
for _ in $(seq 600); do pgrep -f "$top/tools/first_call.py" >"$dir/left" || break; sleep 0.05; done
expect "and leaves the rest of its input to others" "$(cat "$dir/left")" ""
exec 7>&-

fresh
STUB_TRY_SLEEPS=600 STUB_SLOW=low begin <<<input
wait_for tried "$STUB_LOG"
kill -INT "$pid"
kill -TERM "$pid"
end
expect "interrupted before the answer: nothing is written, and nothing left" "$((status > 128))$out$(left)" 10
fresh
STUB_SLOW=left STUB_SLEEPS=60 begin <<<input
wait_for input "$dir/first"
wait_for 'first left' "$STUB_LOG"
kill -TERM "$pid"
end
expect "interrupted after the answer: the answer was given" "$out$status" "${answer}143"
: >"$STUB_LOG"
run
expect "and what was proved is kept" "$out$(calls 'lib-begins low')" "${answer}0"
fresh
sleep 30 | "$top/tele" >"$dir/first" 2>"$dir/err" &
pid=$!
sleep 1
kill -TERM "$pid"
end
expect "interrupted while the input comes" "$out$status$(left)" 1430

fresh
STUB_SECOND=low STUB_TRIES=2 begin <<<input
wait_for input "$dir/first"
"$top/tele" <<<input >"$dir/second" 2>"$dir/err.second"
expect "a second call needn't wait for the first to answer" "$(cat "$dir/second")$(calls tried)" "${answer}2"
end
has "and waits for its proof" "$(cat "$dir/err.second")" "the proved program gives the same answer"
expect "one of both builds" "$(calls lib-begins)" 3

fresh
STUB_SECOND=low "$top/tele" <<<input 2>"$dir/err" | true
expect "a reader that goes away: the status of a write that failed" "${PIPESTATUS[0]}" 5
has "the proof goes on" "$(cat "$dir/err")" "gives the same answer"
fresh
"$top/tele" <&- >"$dir/first" 2>&-
expect "without standard input the program is the one that finds it so" "$(head -n 2 "$dir/first")$(calls tried)" "${answer%
input}0"
fresh
"$top/tele" <<<input 2>"$dir/err" >&-
expect "without standard output nothing is tried" "$(calls tried)" 0
fresh
expect "without standard error the answer is as it is" "$("$top/tele" <<<input 2>&-)" "$answer"

# Arguments that are refused, on a terminal and elsewhere.
on_terminal() { python3 -c 'import pty, sys; sys.exit(pty.spawn(sys.argv[1:]) >> 8)' "$@" </dev/null | tr -d '\r'; }
hint='docs/LINES.md describes the options'
fresh
out=$(on_terminal "$top/tele" --help) status=${PIPESTATUS[0]}
has "on a terminal, before the proof: what the program writes" "$out" $'! usage\n'
has "where the options are described" "$out" "$hint"
out=$(on_terminal "$top/tele" --help)
expect "on a terminal, after it" "$out" $'! usage\ntele: '"$hint"
run --help
expect "elsewhere only what the program writes" "$out$err$status" "! usage2"
expect "on a terminal, with arguments that aren't refused" "$(on_terminal sh -c "echo input | '$top/tele' a")" "${answer/$preset/$preset a}"

# Each program of this repository, over the stub.
fresh
rm -r "$top/crates"
cp "$here/crates.txt" "$top"
programs=
for it in $(sed 's/#.*//; s/[ :].*//' "$here/crates.txt"); do
    mkdir -p "$top/crates/$it/src"
    file=$(cd "$here/crates/$it/src" && ls main.rt lib.rt 2>/dev/null | head -n 1)
    echo "$it" >"$top/crates/$it/src/$file"
    [ "$file" != main.rt ] || programs+=" $it"
done
has "the program is one of them" "$programs " " tele "
for it in $programs; do
    python3 "$top/tools/build.py" "$it" 2>"$dir/err" </dev/null
    expect "tools/build.py $it" "$?$("$top/out/$it" </dev/null | sed 2q\;d)" 0words:
done

# What can't be is said before anything is proved.
refused() {
    expect "$1: the status is none of the program's" "$status" 125
    expect "$1: nothing is proved, and nothing written" "$(cat "$STUB_LOG")$out" ""
    has "$1: it says why" "$err" "$2"
}
fresh
touch "$top/out"
run
refused "out is a file" "nothing can be written into $top/out"
fresh
mkdir -p "$top/out/tele"
run
refused "out/tele is a folder" "$top/out/tele is a folder"
fresh
mkdir "$top/out"
if apart 'mount -t tmpfs -o ro tmpfs "$1"' - "$top/out"; then
    out=$(echo input | apart 'mount -t tmpfs -o ro tmpfs "$1" && exec "$2"' - "$top/out" "$top/tele" 2>"$dir/err") status=$? err=$(cat "$dir/err")
    refused "out is read-only" "nothing can be written into $top/out: Read-only file system"
    run
    touch "$top/crates/low/src/lib.rt"
    bound='mount --bind "$1" "$1" && mount -o remount,bind,ro "$1" && exec "$2"'
    expect "a built program in a read-only folder" "$(echo input | apart "$bound" - "$top/out" "$top/tele" 2>&1)" "$answer"
else
    echo "not tried: a read-only folder, since none can be mounted here"
fi
fresh
mkdir -m 777 "$dir/build"
run
refused "a folder to build in that others can write" "other users can write into $dir/build"
chmod 755 "$dir/build"
mkdir -m 755 "$dir/build/logs"
before=$(umask)
umask 000
run
umask "$before"
expect "one that others can read: what is said and answered is the caller's" "$out$(stat -c %a "$dir/build/logs" "$dir"/build/logs/*.log | sort -u | tr '\n' ' ')" "${answer}600 700 "
expect "nothing in it can be written by others" "$(find "$dir/build" -perm /022 ! -type l)" ""
expect "the program is for all who can read the repository" "$(stat -c %a "$top/out/tele" "$top/out/tele.from" | tr '\n' ' ')" "755 644 "
fresh
mkdir "$dir/elsewhere"
ln -s elsewhere "$dir/build"
run
refused "a link to a folder to build in" "$dir/build is a link"
fresh
mkdir "$dir/build"
if chown 1 "$dir/build" 2>/dev/null; then
    run
    refused "another user's folder to build in" "$dir/build belongs to another user"
fi

# Two containers that share a folder don't know the numbers of each other's processes.
fresh
mkdir -p "$dir/build/unproved-held" "$dir/build/unproved-left"
touch "$dir/build/unproved-left/lock"
exec 8>"$dir/build/unproved-held/lock"
flock 8
run
expect "of the folders of other calls, those without a call are removed" "$out$(cd "$dir/build" && echo unproved-*/)" "${answer}unproved-held/"
exec 8>&-
echo left-2 >"$top/crates/left/src/lib.rt"
run
expect "and later the other" "$(left)" 0

# What the surroundings say of Python, and a folder with a name of any kind.
fresh
PYTHONSAFEPATH=1 PYTHONINSPECT=1 PYTHONPATH=$dir run
expect "settings of Python don't reach it" "$out$status" "${answer}0"
fresh
mkdir "$dir/bin"
printf '#!/bin/sh\nexit 1\n' >"$dir/bin/python3"
chmod +x "$dir/bin/python3"
PATH=$dir/bin:$PATH run
refused "a Python that doesn't run it" "python3 can't run tools/first_call.py"
fresh
mv "$top" "$dir/named "$'\n'
top=$dir/$'named \n'
run
expect "a folder whose name ends in a newline" "$out$status" "${answer}0"
run
expect "and once it is built" "$out$status$(calls tried)" "${answer}01"

fresh
chmod -w "$top"
if [ ! -w "$top" ]; then
    run
    expect "where nothing can be written the status is none of the program's" "$status" 125
fi
chmod +w "$top"

finish
