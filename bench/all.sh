#!/bin/bash
# Takes all figures of docs/PERFORMANCE.md and of README's tables in one go, on a machine that does nothing else. It takes some 25 minutes, and
# first proves and builds what isn't built.
#
#     bench/all.sh [--plan] OUT
#
# Each part writes OUT/NAME.md, and what it says on standard error into OUT/NAME.log; a part that fails is named, and the others go on.
# OUT/machine.md says where and when. With --plan the commands are printed and nothing is run.
set -u
plan='' && [ "${1:-}" = --plan ] && plan=1 && shift
[ $# = 1 ] || { sed -n 's,^#     ,usage: ,p' "$0" >&2 && exit 2; }
top=$(cd -P -- "$(dirname -- "$0")/.." && pwd)
cd -- "$top" || exit
[ -n "$plan" ] || mkdir -p -- "$1"
out=$(realpath -m -- "$1") failed=0

# Runs a command, whose output is the part with this name.
part() {
    local name=$1
    shift
    if [ -n "$plan" ]; then
        printf '%s: %s\n' "$name" "$*"
    elif ! "$@" >"$out/$name.md" 2>"$out/$name.log"; then
        printf 'failed: %s (%s)\n' "$name" "$out/$name.log"
        failed=$((failed + 1))
    fi
}

machine() {
    date -u '+%Y-%m-%d %H:%M UTC' && rt version && git log -1 --format=%h && uptime && lscpu | grep -E '^(Model name|CPU\(s\)|L2|L3)'
}

# A log of a million events in each of four shapes: seconds on the clock, own and system, and memory in KiB.
logs() {
    local shape
    python3 tools/build.py log_check || return
    for shape in 'turns 30000' 'chain 143000' 'root 90000' 'callers 500000'; do
        # shellcheck disable=SC2086
        python3 bench/logs.py $shape >"$out/a.log-of-events" || return
        printf '%s: ' "$shape"
        (ulimit -s 256 && python3 -c 'import resource, subprocess, sys, time
start = time.monotonic()
code = subprocess.run(sys.argv[1:], stdout=subprocess.DEVNULL).returncode
used = resource.getrusage(resource.RUSAGE_CHILDREN)
print(f"{time.monotonic() - start:.2f}; {used.ru_utime:.2f}, {used.ru_stime:.2f}; {used.ru_maxrss}")
sys.exit(code)' out/log_check "$out/a.log-of-events") || return
    done
    rm -f "$out/a.log-of-events"
}

# A benchmark of the Cargo package, with real-time priority if it may have that.
rust() {
    local first=()
    chrt -f 40 true 2>/dev/null && first=(chrt -f 40)
    "${first[@]}" env -C bindings/rust cargo bench --offline --bench "$1" -- "${@:2}"
}

part machine machine
part built python3 tools/build.py try_bench
part library bash tools/library.sh --wait
part tree bash bench/tree.sh out/try_bench --peers --figures "$out/figures"
part charts python3 bench/charts.py "$out/figures" "$(date -u +%Y-%m-%d)"
part lines python3 bench/lines.py --turns 5
part workers python3 bench/lines.py --turns 5 --options '--words 1048576' --options '--words 1048576 --workers 1'
part lanes python3 bench/lanes.py --options '--words 1048576' 300000
for given in '1000 1000000 0' '1000000 1000000 0' '1000000 300000 100'; do
    # shellcheck disable=SC2086
    part "calls-${given// /-}" rust calls $given
done
for given in '1000 4 25 25' '100000 4 25 25' '1000000 4 25 25' '1000000 4 5 5'; do
    # shellcheck disable=SC2086
    part "service-${given// /-}" rust service $given 3 1
done
part logs logs
[ -n "$plan" ] || printf '%s failed\n' "$failed"
exit "$((failed > 0))"
