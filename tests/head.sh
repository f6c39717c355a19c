# The head of each test script in this folder, which sources it: `here` is the repository, `all` a folder that is removed at the end,
# and `passed` and `failed` count the cases.
set -u
here=$(cd -P -- "$(dirname -- "${BASH_SOURCE[0]}")/.." && pwd)
all=$(mktemp -d "${TMPDIR:-/tmp}/$(basename -- "$0" .sh).XXXXXX")
trap 'rm -rf "$all"' EXIT
passed=0 failed=0

# Counts a case, in which the second text is to be the third.
expect() {
    if [ "$2" = "$3" ]; then
        passed=$((passed + 1))
    else
        failed=$((failed + 1))
        printf 'FAILED: %s\n--- found\n%s\n--- wanted\n%s\n' "$1" "$2" "$3"
    fi
}

# Counts a case, in which the second text is to have the third within it.
has() { case $2 in *"$3"*) passed=$((passed + 1)) ;; *) expect "$1" "$2" "..$3.." ;; esac; }

# Says how many cases passed and failed, as the last line of a script, and ends it.
finish() {
    echo "$passed passed, $failed failed"
    [ "$failed" = 0 ]
    exit
}
