#!/bin/bash
# Tests of tools/library.py over a small repository with a stub of `rt`: which library is made, and how a proved one replaces an
# unproved build. The last line is 'N passed, M failed'.
. "$(dirname -- "$0")/head.sh"
unset TELE_JOBS TELE_BUILD TELE_RT LUSKADORV_WAIT CC

for it in cc ld objcopy ar nm; do
    command -v "$it" >/dev/null && continue
    echo "skipped: the library over a stub of rt ($it isn't there)"
    finish
done

# A kit whose `rt try` hands a module to its clang, whose clang turns a module's entries into C functions, and whose `rt lib` leaves
# the library of what the crate's file says.
kit=$all/kit
mkdir -p "$kit/bin" "$kit/c" "$kit/toolchain/bin"
echo one >"$kit/KIT-ID"
cat >"$kit/bin/rt" <<'STUB'
#!/bin/bash
echo "$1" >>"$STUB_LOG"
here=$(dirname -- "$(readlink -f -- "$0")")
case $1 in
try)
    [ -z "${STUB_TRY_FAILS:-}" ] || exit 6
    grep -q 'ist_one(alloc, &mut one, 0);' src/main.rt || exit 7
    echo 'a module' >given.bc
    "$here/../toolchain/bin/clang" -O0 -march=this -c given.bc -fsanitize=address
    exit 2 ;;
lib)
    while [ -n "${STUB_HELD:-}" ] && [ ! -e "$STUB_HELD" ]; do sleep 0.1; done
    [ -z "${STUB_LIB_FAILS:-}" ] || { echo "src/lib.rt:1:1: error[no-proof]: nothing proves this"; exit 1; }
    mkdir -p out
    printf 'extern void rattle_alloc(void);\nint ist_one(void) { rattle_alloc(); return 1; }\nvoid open_numbered(void) {} void reopen_numbered(void) {}\n' | cc -fPIC -x c -c - -o out/one.o
    ar rcsD out/libist_c.a out/one.o ;;
esac
STUB
cat >"$kit/toolchain/bin/clang" <<'STUB'
#!/bin/bash
for last; do case $last in *.ll) text=$last ;; esac; done
case " $* " in
*" -emit-llvm "*) echo 'define internal noundef i32 @"ist_c::calls::ist_one"(ptr noundef %a0, i64 noundef %a1) #0 {' >"$text" ;;
*) grep -q '^define i32 @ist_one(ptr noundef %a0, i64 noundef %a1) #0 {$' "$text" || exit 1
   case " $* " in *" -march=this "*" -fPIC -O3 "*) ;; *) exit 1 ;; esac
   while [ "$1" != -o ]; do shift; done
   echo 'int ist_one(void) { return 2; } void open_numbered(void) {} void reopen_numbered(void) {}' | cc -fPIC -x c -c - -o "$2" ;;
esac
STUB
chmod +x "$kit/bin/rt" "$kit/toolchain/bin/clang"
echo 'void rattle_alloc(void) {}' | cc -fPIC -x c -c - -o "$all/heap.o"
ar rcsD "$kit/c/liblibc_c.a" "$all/heap.o"
PATH=$kit/bin:$PATH
export STUB_LOG=$all/log

# A new repository, in a folder whose name has a space.
fresh() {
    number=$((${number:-0} + 1))
    top="$all/clone $number"
    export TELE_BUILD=$all/build$number
    mkdir -p "$top/tools" "$top/crates/ist_c/src" "$top/bindings"
    cp "$here"/tools/{library.sh,library.py,unproved.py,build.py,once.py} "$top/tools"
    cp -r "$here/crates/ist_c/include" "$top/crates/ist_c"
    cp -r "$here/bindings/c" "$top/bindings"
    echo 'ist_c staticlib:' >"$top/crates.txt"
    echo 'mod calls;' >"$top/crates/ist_c/src/lib.rt"
    echo 'pub extern "C" fn ist_one(alloc: Global, pass: &mut Handle, key: u64) -> u32' >"$top/crates/ist_c/src/calls.rt"
    archive=$top/out/libluskadorv.a
    : >"$STUB_LOG"
}
run() {
    out=$(cd / && bash "$top/tools/library.sh" "$@" 2>"$all/err")
    status=$?
    err=$(cat "$all/err")
}
calls() { grep -c "^$1\$" "$STUB_LOG"; }
# What the archive is: `unproved` or `proved`, and what its function returns.
kind() {
    local name=proved
    [ ! -L "$1" ] || name=unproved
    [ "$(nm "$1" | grep -c ' R ist_unproved$')" = "$([ $name = unproved ] && echo 1 || echo 0)" ] || name="mislabelled $name"
    printf 'int ist_one(void);\nint main(void) { return ist_one(); }\n' | cc -x c - -x none "$1" -o "$all/one" && "$all/one" 2>/dev/null
    echo "$name $?"
}
wait_for() {
    for _ in $(seq 600); do [ "$(kind "$2")" != "$1" ] || return 0; sleep 0.1; done
    echo "waited in vain for $1" >&2
}

fresh
STUB_HELD=$all/go run
expect "the first call: its status and its output" "$status $out" "0 $archive"
expect "it makes an unproved build" "$(kind "$archive")" "unproved 2"
has "and says so" "$err" "is an unproved build"
has "and that the proof goes on" "$err" "the proof goes on in the background"
expect "a program with it says so" "$("$all/one" 2>&1)" "$(strings "$archive" | grep '^luskadorv: ')"
expect "only its own names are global" "$(nm -g --defined-only "$archive" | awk 'NF == 3 { print $3 }' | sort | xargs)" "ist_one ist_open ist_reopen ist_unproved ist_version"
inode=$(stat -c %i "$top/out/libluskadorv-unproved.a")
STUB_HELD=$all/go run "$top/out"
expect "the next call compiles nothing again" "$(calls try)" 1
expect "but makes the archive" "$status $([ "$inode" = "$(stat -c %i "$top/out/libluskadorv-unproved.a")" ] && echo same || echo new)" "0 new"
touch "$all/go"
wait_for "proved 1" "$archive"
expect "the proved library replaces it" "$(kind "$archive")" "proved 1"
expect "nothing else is left there" "$(ls -A "$top/out")" libluskadorv.a
expect "it was proved once" "$(calls lib)" 1
run "$all/elsewhere of $number"
expect "it is taken for another folder" "$status $(kind "$all/elsewhere of $number/libluskadorv.a") $(calls lib)" "0 proved 1 1"
has "without a word" "[$err]" "[]"
echo '// changed' >>"$top/crates/ist_c/src/calls.rt"
run --no-proof
expect "after an edit there is an unproved build again" "$status $(kind "$archive") $(calls lib)" "0 unproved 2 1"
run --wait
expect "which a call that waits replaces" "$status $(kind "$archive") $(calls lib)" "0 proved 1 2"

fresh
STUB_HELD=$all/never run
proof=$(sed -n 's/.*`kill \([0-9]*\)` stops it.*/\1/p' "$all/err")
for _ in $(seq 600); do [ "$(calls lib)" = 0 ] || break; sleep 0.1; done
kill "$proof"
for _ in $(seq 600); do kill -0 "$proof" 2>/dev/null || break; sleep 0.1; done
has "a proof that is stopped says so" "$(cat "$TELE_BUILD/logs/library.log")" "stopped; the next call goes on from here"
expect "and leaves what was there" "$(kind "$archive")" "unproved 2"
run --wait
expect "a later call proves" "$status $(kind "$archive") $(calls lib)" "0 proved 1 2"

fresh
LUSKADORV_WAIT=1 run
expect "a call that waits makes no unproved build" "$status $(kind "$archive") $(calls try)" "0 proved 1 0"

fresh
STUB_LIB_FAILS=yes run --wait
expect "a proof that fails: the status" "$status" 125
expect "and no archive is made" "$(ls -A "$top/out" 2>/dev/null)" ""
has "it says why" "$err" "error[no-proof]"
run --no-proof
STUB_LIB_FAILS=yes run --wait
expect "an archive that was there is kept" "$status $(kind "$archive")" "125 unproved 2"

fresh
STUB_TRY_FAILS=yes run
expect "without an unproved build the call waits for the proof" "$status $(kind "$archive")" "0 proved 1"
has "and says why" "$err" 'made no module'
fresh
STUB_TRY_FAILS=yes run --no-proof
expect "or fails, if it may not" "$status $(ls -A "$top/out" 2>/dev/null)" "125 "
fresh
sed -i 's/key: u64/key: Unknown/' "$top/crates/ist_c/src/calls.rt"
run --no-proof
has "a parameter that is not known" "$status $err" "ist_one has a parameter that no unproved build knows"

fresh
(cd "$top/crates/ist_c" && rt lib)
: >"$STUB_LOG"
run
expect "the library that rt left is taken" "$status $(kind "$archive") $(calls try) $(calls lib)" "0 proved 1 0 0"
PYTHONSAFEPATH=1 run
expect "where Python looks for modules doesn't matter" "$status $out" "0 $archive"
run --unknown
expect "an unknown option" "$status" 2

finish
