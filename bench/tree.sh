#!/bin/bash
# Measures try_bench beside the same calls on a BTreeMap under a lock, alternately, and prints tables in Markdown. A cell has millions of
# calls a second of all threads together, and processor nanoseconds a call, each the median of the turns.
#
#     bench/tree.sh PROGRAM [--beside OLD] [--peers] [--only TABLE] [--turns N] [--seed SEED] [--figures FILE]
#
# PROGRAM is the built program: `python3 tools/build.py try_bench` makes out/try_bench. The other programs are built here.
#
#     --beside OLD      another version of the program, which has turns too. It has no cell where it doesn't know an option
#     --peers           ordered maps of other libraries have turns too, as far as g++ and javac find them here: bench/peers
#     --only TABLE      finds, puts, mixes, conditional or reads, and not all five
#     --turns N         turns of each program in each row (3)
#     --seed SEED       what all calls are drawn from (1)
#     --figures FILE    each cell is written there too, for bench/charts.py
#
# With the right to do so, each turn runs with real-time priority.
set -u
usage() {
    sed -n '5s,^# *,usage: ,p' "$0" >&2
    exit 2
}
[ $# -gt 0 ] && [ -x "$1" ] || usage
program=$(readlink -f -- "$1") old='' peers='' only='' turns=3 seed=1 figures=/dev/null
shift
while [ $# -gt 0 ]; do
    case $1 in
    --peers) peers=1 && shift && continue ;;
    --beside | --only | --turns | --seed | --figures) [ $# -gt 1 ] || usage ;;&
    --beside) old=$(readlink -f -- "$2") && [ -x "$old" ] || usage ;;
    --only) only=$2 ;;
    --turns) turns=$2 ;;
    --seed) seed=$2 ;;
    --figures) figures=$(realpath -- "$2") ;;
    *) usage ;;
    esac
    shift 2
done
# Both as `./tele` runs the program: the heap is kept, in huge pages.
export GLIBC_TUNABLES=${GLIBC_TUNABLES-glibc.malloc.mmap_max=0:glibc.malloc.trim_threshold=8589934592:glibc.malloc.hugetlb=1}
here=$(cd -P -- "$(dirname -- "$0")" && pwd)
all=$(mktemp -d "${TMPDIR:-/tmp}/tree.XXXXXX")
trap 'rm -rf "$all"' EXIT
priority=()
chrt -f 50 true 2>/dev/null && priority=(chrt -f 50)
printf 'spread\tkeys\tspan\tthreads\tputs\tremoves\tfinds\tfurther\tprogram\tcalls\tns\n' >"$figures"

# The programs by their columns, each with its command.
columns=(tree)
declare -A command=([tree]="$program")
add() {
    columns+=("$1")
    command[$1]=$2
}
[ -z "$old" ] || add before "$old"
rustc -O --edition 2021 -o "$all/map" "$here/tree.rs" || exit
add map "$all/map"
if [ -n "$peers" ]; then
    for library in tbb cds; do
        names=tbb && [ $library = tbb ] || names='skip avl'
        g++ -O2 -std=c++17 -DHAS_${library^^} -o "$all/$library" "$here/peers/peers.cpp" -l$library -lpthread 2>/dev/null || continue
        for name in $names; do add $name "$all/$library --map $name"; done
    done
    javac -d "$all" "$here/peers/SkipList.java" 2>/dev/null && add java "java -Xmx8g -cp $all SkipList"
fi

# Runs the command with these options, and prints its calls a second and its processor nanoseconds a call.
turn() {
    "${priority[@]}" "$@" --seed "$seed" 2>/dev/null | sed -n 's/^\([0-9]*\) processor ns a call, \([0-9]*\) calls a second.*/\2 \1/p'
}

# Prints the median of a column of a file of numbers.
median() {
    cut -d' ' -f"$2" "$1" | sort -n | awk '{ it[NR] = $1 } END { print it[int((NR + 1) / 2)] }'
}

# One row: what it is, then spread, keys at the opening, keys that are drawn, threads, calls of each, shares of puts, removes and finds,
# words of the tree, and further options.
row() {
    local words=(--spread "$2" --keys "$3" --span "$4" --threads "$5" --calls "$6" --puts "$7" --removes "$8" --finds "$9" "${@:11}")
    local size=${10} further=${*:11} line="| $1 | $3 | $5 |" it number
    for ((number = 0; number < turns; number++)); do
        for it in "${columns[@]}"; do
            local given=("${words[@]}")
            case $it in tree | before) given+=(--words "$size") ;; esac
            # (a command may have words of its own)
            turn ${command[$it]} "${given[@]}" >>"$all/said.$it"
        done
    done
    for it in "${columns[@]}"; do
        if [ -s "$all/said.$it" ]; then
            local calls ns
            calls=$(median "$all/said.$it" 1) ns=$(median "$all/said.$it" 2)
            line+=$(awk -v calls="$calls" -v ns="$ns" 'BEGIN { printf " %.3g, %d |", calls / 1e6, ns }')
            printf '%s\t' "$2" "$3" "$4" "$5" "$7" "$8" "$9" "$further" "$it" "$calls" >>"$figures"
            echo "$ns" >>"$figures"
        else
            line+=' |'
        fi
        rm -f "$all/said.$it"
    done
    echo "$line"
}

# Whether the table is asked for; if so, its head is written.
table() {
    [ -z "$only" ] || [ "$only" = "$1" ] || return
    echo
    echo "| $1 | keys | threads |$(printf ' %s |' "${columns[@]}")"
    echo "|---|---|---|$(printf -- '---|%.0s' "${columns[@]}")"
}

if table finds; then
    for spread in uniform rising clustered; do
        for keys in 1000 10000 100000 1000000; do
            row "$spread" $spread $keys $keys 1 1000000 0 0 1 33554432
        done
    done
fi
if table puts; then
    for keys in 1000 100000 1000000; do
        row "of $keys keys, none there at first" uniform 0 $keys 1 500000 1 0 0 134217728
    done
fi
if table mixes; then
    for keys in 1000 100000 1000000; do
        for threads in 1 2 4; do
            row 'puts, removes, finds: 1, 1, 2' uniform $keys $((2 * keys)) $threads $((1000000 / threads)) 1 1 2 134217728
        done
        row 'puts, finds: 1, 9' uniform $keys $keys 4 1000000 1 0 9 134217728
    done
fi
# Other libraries are asked neither for conditional puts nor for ordered reads.
columns=(tree)
[ -z "$old" ] || columns+=(before)
columns+=(map)
if table conditional; then
    for keys in 1000 100000 1000000; do
        for threads in 1 4; do
            row 'conditional puts' uniform $keys $keys $threads $((1000000 / threads)) 1 0 0 134217728 --expects 1
        done
    done
fi
if table reads; then
    for keys in 10000 1000000; do
        # as many numbers as lie from one key to the next, in the mean: 2^64 / keys
        gap=$((9223372036854775807 / keys * 2))
        row 'the next pair' uniform $keys $keys 1 2000000 0 0 1 33554432 --width 1
        row '100 pairs' uniform $keys $keys 1 200000 0 0 1 33554432 --width $((100 * gap))
    done
    row '10,000 pairs' uniform 1000000 1000000 1 4000 0 0 1 33554432 --width $((10000 * gap))
    row '10,000 pairs, grown' uniform 1000000 1000000 1 4000 0 0 1 134217728 --width $((10000 * gap)) --grown 1
fi
