#!/bin/bash
# Tests of how checks are run: `./check CRATE` (tools/check_some.py), how many checks run side by side in `./check` (tools/gate_jobs.py), and
# how many jobs tools/build.py gives to each. All over a small repository whose `rt` is a stub. The last line is 'N passed, M failed'.
. "$(dirname -- "$0")/head.sh"
unset RT_JOBS TELE_JOBS TELE_BUILD TELE_RT
export STUB_LOG=$all/log STUB_FAILS=

# A stub in the place of `rt`: it notes each call, and fails those that STUB_FAILS names.
mkdir -p "$all/kit/bin"
cat >"$all/kit/bin/rt" <<'STUB'
#!/bin/bash
name=${PWD##*/}
echo "$name: $*${RT_JOBS:+ RT_JOBS=$RT_JOBS}" >>"$STUB_LOG"
case $1 in
must-fail)
    for it in crates/"$2"/must-fail/*.edit; do
        case " $STUB_FAILS " in
        *" ${it##*/} "*) echo "rt: must-fail $2/${it##*/}: NOT REFUSED: the crate is still proved with this edit" && status=1 ;;
        *) echo "rt: must-fail $2/${it##*/}: refused, as it must be: src/lib.rt:1:1" ;;
        esac
    done
    exit "${status:-0}"
    ;;
run)
    mkdir -p out && printf '#!/bin/sh\n' >"out/$name" && chmod +x "out/$name"
    echo "rt: running out/$name; what it writes follows"
    ;;
ci) echo "3 passed, 0 failed" ;;
esac
case " $STUB_FAILS " in *" $1-$name "*) echo "src/lib.rt:1:1: error[no-proof]: no proof of this" && exit 1 ;; esac
exit 0
STUB
chmod +x "$all/kit/bin/rt"
PATH=$all/kit/bin:$PATH

# A repository of four crates, of which one has tests and two have edits.
top=$all/top
mkdir -p "$top/tools" "$top/crates"/{low,left,right,top}/{src,must-fail}
cp "$here/check" "$top"
cp "$here"/tools/{build,once,check_some,gate_jobs}.py "$top/tools"
printf 'top: left right\nlow:\nleft: low\nright: low\n' >"$top/crates.txt"
for it in low left right; do echo '//! It.' >"$top/crates/$it/src/lib.rt"; done
echo 'fn main() {}' >"$top/crates/top/src/main.rt"
printf '#[test]\nfn is_it() {}\n' >>"$top/crates/left/src/lib.rt"
touch "$top/crates/left/must-fail/"{says_no,says_yes}.edit "$top/crates/top/must-fail/stays.edit"

# Runs ./check with these arguments, from another folder.
check() {
    : >"$STUB_LOG"
    out=$(cd "$all" && "$top/check" "$@" 2>"$all/err")
    status=$? err=$(cat "$all/err") calls=$(cat "$STUB_LOG")
}

check --plan left
expect 'a plan runs nothing' "$calls$status" 0
expect 'it says what there is to do' "$err" 'check: left, and 1 that stand on it; 1 have tests, and 2 have 3 edits
check: 5 of the 5 steps never ran here to their end: how long they take isn'\''t known'
check left
expect 'a crate and what stands on it: proofs, tests, edits' "$calls" 'left: check --jobs 1
top: check --jobs 1
left: test --jobs 1
top: must-fail left
top: must-fail top'
expect 'all are counted' "$out$status" '6 passed, 0 failed0'
check --plan left
has 'the next time it says what they took' "$err" 'check: 5 of the 5 steps took '
python3 - "$top/out/check_some.json" <<'PYTHON'
import json, sys
known = json.load(open(sys.argv[1]))
known["check left"], known["check top"] = [400.0, 900.0], [200.0, 300.0]
json.dump(known, open(sys.argv[1], "w"))
PYTHON
check --plan low
has 'steps that never ran are told apart' "$err" "check: 5 of the 7 steps took 10 min when they last ran, and 20 min of a processor
check: 2 of the 7 steps never ran here"
check left
has 'and what each is likely to take' "$err" 'check: 1 of 5, rt check of left, about 7 min'
check low
expect 'the lowest first' "$(grep -c check <<<"$calls")$(head -n 1 <<<"$calls")$(grep check <<<"$calls" | tail -n 1)" '4low: check --jobs 1top: check --jobs 1'
check right left
expect 'of two crates, what stands on both is proved once' "$(grep check <<<"$calls")" 'left: check --jobs 1
right: check --jobs 1
top: check --jobs 1'

STUB_FAILS=check-left check low
expect 'a crate that is not proved: what does not stand on it goes on' "$(grep -v must <<<"$calls")" 'low: check --jobs 1
left: check --jobs 1
right: check --jobs 1'
expect 'its tests and edits and what stands on it are passed over' "$(grep -c must <<<"$calls")$status$(tail -n 1 <<<"$out")" '012 passed, 1 failed'
has 'which is said' "$err" "left isn't proved: the 1 crates that stand on it are passed over"
has 'with the cause' "$out" 'FAILED: rt check of left
  src/lib.rt:1:1: error[no-proof]: no proof of this'
STUB_FAILS=test-left check left
expect 'a test that fails' "$status$(tail -n 1 <<<"$out")" '15 passed, 1 failed'
STUB_FAILS=says_no.edit check left
expect 'an edit that is not refused' "$status$(tail -n 1 <<<"$out")" '15 passed, 1 failed'
has 'it is named' "$out" 'must-fail left/says_no.edit: NOT REFUSED'
rm "$top/out/check_some.json"
STUB_FAILS=check-left check left
check --plan left
has 'what failed leaves no figure' "$err" 'check: 5 of the 5 steps never ran here'
echo broken >"$top/out/check_some.json"
check left
expect 'figures that cannot be read' "$status$(tail -n 1 <<<"$out")" '06 passed, 0 failed'
check nowhere
expect 'a crate that is not there' "$status$err$calls" "2check: crates.txt has no crate nowhere"
check --all left
expect 'a wrong option' "$status$err$calls" '2check: the arguments are --plan and names of crates'

# The whole check, over parts that all pass, on machines with these processors and this memory.
gate=$all/gate
mkdir -p "$gate"/{tools,tests}
cp "$here/check" "$gate"
cp "$here/tools/gate_jobs.py" "$gate/tools"
printf 'import os\nprocessors = lambda: int(os.environ["PROCESSORS"])\nmemory = lambda: int(os.environ["FREE"]) * 10**9\n' >"$gate/tools/build.py"
for it in $(sed -n 's/^part \(bash\|python3\) \([^ ]*\).*/\2/p' "$here/check"); do
    case $it in *.sh) echo 'echo "2 passed, 0 failed"' ;; *) echo 'print("2 passed, 0 failed")' ;; esac >"$gate/$it"
done

# the processors, the memory in GB, RT_JOBS of the caller, what `rt ci` gets, what is said
while IFS='|' read -r processors free own wanted said; do
    : >"$STUB_LOG"
    err=$(RT_JOBS=$own PROCESSORS=$processors FREE=$free "$gate/check" 2>&1 >"$all/out")
    expect "rt ci on $processors processors and $free GB" "$(cat "$STUB_LOG")" "gate: ci$wanted"
    expect "what is said of it" "$(grep -c "$said" <<<"$err")" 1
done <<'CASES'
4|11|| RT_JOBS=4|rt ci runs 4 checks side by side, with one job each
2|6|| RT_JOBS=2|rt ci runs 2 checks side by side, with one job each
4|10|||rt ci runs as many checks side by side as it finds memory for
4|11|3| RT_JOBS=3|1 of [0-9]*, rt ci
CASES
parts=$(grep -c '^part ' "$here/check")
expect 'all parts ran and were counted' "$(tail -n 1 "$all/out")" "$((3 + 2 * (parts - 1))) passed, 0 failed"
has 'and numbered' "$err" "check: $parts of $parts, "

# How many jobs each check of a first call has.
builds() {
    : >"$STUB_LOG"
    rm -rf "$all/build" "$top/out/top" "$top/out/top.from"
    TELE_BUILD=$all/build TELE_JOBS=$1 python3 "$top/tools/build.py" top 2>"$all/err" </dev/null || cat "$all/err"
    calls=$(sed 's/ -- --help//' "$STUB_LOG" | sort)
}

builds 4
expect 'one job a check, and four for the lowest crate, beside which nothing can run' "$calls" 'left: lib --jobs 1
low: lib --jobs 4
right: lib --jobs 1
top: run --jobs 1'
builds 3
expect 'never two or three' "$(grep low <<<"$calls")" 'low: lib --jobs 1'
builds 8
expect 'nor more than four' "$(grep low <<<"$calls")" 'low: lib --jobs 4'
mkdir -p "$top/crates/other/src"
echo '//! It.' >"$top/crates/other/src/lib.rt"
printf 'low:\nother:\nleft: low\nright: low\ntop: left right other\n' >"$top/crates.txt"
builds 4
expect 'where another crate is ready, one' "$(grep -c 'jobs 1' <<<"$calls")" 5

finish
