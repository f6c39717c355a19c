#!/bin/bash
# Tests of tools/citations.py: what it takes, and what it must refuse. The last line is 'N passed, M failed'.
. "$(dirname -- "$0")/head.sh"

mkdir -p "$all"/{docs,crates/{low,high}/{src,specs,proofs,must-fail}}
printf 'low:\nhigh: low clap\n' >"$all/crates.txt"
printf '/// What it does.\npub fn go(x: u64)\n    requires small { x < 9 }\n    ensures value { result ≡ x }\n{\n}\n\npub fn stay()\n    ensures still { Stays }\n{}\n' \
    >"$all/crates/low/src/lib.rt"
printf 'pub struct Thing;\n' >"$all/crates/high/src/lib.rt"
touch "$all"/crates/low/must-fail/{goes_on,goes_back}.edit
printf -- '-- it stays\nabbrev pub Stays : Type 0\n' >"$all/crates/low/specs/Staying.antt"
printf 'pub stays_on : Stays\n' >"$all/crates/low/proofs/StayLemmas.antt"

# Writes the documents with one line more in README and docs/PROOFS.md, these rows of the map, and this drawing.
write() {
    printf '| claim | clause |\n|---|---|\n%s\n' "$1" >"$all/README.md"
    printf 'Nothing.\n' >"$all/CONTRIBUTING.md"
    printf '%s\n' "$2" >"$all/docs/PROOFS.md"
    printf '## What a put line passes\n\n%s\n\n## The rooms\n\n| crate | job |\n|---|---|\n%s\n' "${4:-$drawn}" "$3" >"$all/docs/ARCHITECTURE.md"
}

rows='| `low` | low |
| `high` | high |'
drawn='    high    (clap)
    low'

# Whether it says so of the line of README, the line of docs/PROOFS.md, the rows of the map and the drawing.
says() {
    write "$3" "$4" "${5:-$rows}" "${6:-}"
    found=$(python3 "$here/tools/citations.py" "$all")
    status=$?
    case $2$status$found in
    "0"*"$2 faults" | [1-9]1*"$2 faults") passed=$((passed + 1)) ;;
    *)
        failed=$((failed + 1))
        printf 'FAILED: %s\n%s\n' "$1" "$found"
        ;;
    esac
}

good='| it gives | `low::go`, `value` |'
says 'a clause that is there' 0 "$good" ''
says 'two clauses, and one of another function' 0 '| it gives | `low::go`, `value`, `small`; `stay`, `still` |' ''
says 'a clause that is gone' 1 '| it gives | `low::go`, `values` |' ''
says 'a clause of another function' 1 '| it gives | `low::go`, `value`; `stay`, `vale` |' ''
says 'a function that is gone' 1 '| it gives | `low::goes` |' ''
says 'a clause without its crate' 2 '| it gives | `go`, `value` |' ''
says 'in prose, an item and its clause' 0 "$good" 'See `low::go`, `value`, and `high::Thing`.'
says 'in prose, an item that is gone' 1 "$good" 'See `high::Things`.'
says 'a lemma and a definition in their files' 0 "$good" 'By `stays_on` in `StayLemmas`, of `Stays` in `Staying.antt`.'
says 'a lemma that is gone' 1 "$good" 'By `stays_off` in `StayLemmas`.'
says 'a file of lemmas that is gone' 1 "$good" 'By `stays_on` in `LeaveLemmas`.'
says 'a path that is gone' 1 "$good" 'In `crates/low/src/main.rt`.'
says 'an edit that is there' 0 "$good" 'Refused: `low`, edits `goes_on` and `goes_back`.'
says 'an edit that is gone' 1 "$good" 'Refused: `low`, edits `goes_on`, `goes_off`.'
says 'an edit of another crate' 1 "$good" 'Refused: `low`, edit `goes_on`; `high`, edit `goes_back`.'
says 'a crate of the kit beside one of this repository' 0 "$good" 'By `low::go`, `value`, and `clap`, `value`.'
says 'a crate without a row in the map' 1 "$good" '' '| `low` | low |'
says 'a crate with two rows in the map' 1 "$good" '' "$rows
| \`low\` | low |"
says 'a map in another order' 1 "$good" '' '| `high` | high |
| `low` | low |'
says 'a crate that is drawn below what it uses' 1 "$good" '' '' '    low
    high'
says 'a function on a way' 0 "$good" '    go    crates/low/src/lib.rt    it goes'
says 'a function on a way that is gone' 1 "$good" '    goes    crates/low/src/lib.rt    it goes'
printf 'pub fn pass(x: u64)\n    ensures value { result ≡ x }\n{\n    go(x)\n}\n\npub fn hand(x: u64) -> Result<u64, u64> {\n    match low::go(x) {\n        Ok(y) => Ok(y),\n        Err(y) => Err(y),\n    }\n}\n\npub fn more(x: u64) -> u64 {\n    go(x + 1)\n}\n' \
    >>"$all/crates/low/src/lib.rt"
says 'a function on a way that changes what it hands on' 0 "$good" '    more    crates/low/src/lib.rt    it goes on'
says 'a function on a way that only forwards' 1 "$good" '    pass    crates/low/src/lib.rt    it passes'
says 'one that forwards case by case' 1 "$good" '    hand    crates/low/src/lib.rt    it hands on'

printf '| claim | clause |\n|---|---|\n| it gives | `go`, `value` |\n\nSee `high::Thing`.\n' >"$all/crates/low/README.md"
says 'the README of a crate, with a clause of its own' 0 "$good" ''
printf '| claim | clause |\n|---|---|\n| it gives | `go`, `values` |\n' >"$all/crates/low/README.md"
says 'the README of a crate, with a clause that is gone' 1 "$good" ''
printf 'See `high::Things`.\n' >"$all/crates/low/README.md"
says 'the README of a crate, with an item of another that is gone' 1 "$good" ''
printf 'It goes so:\n\n    go      src/lib.rt    it goes\n' >"$all/crates/low/README.md"
says 'the README of a crate, with a way' 0 "$good" ''
printf 'It goes so:\n\n    goes    src/lib.rt    it goes\n' >"$all/crates/low/README.md"
says 'the README of a crate, with a way through a function that is gone' 1 "$good" ''
rm "$all/crates/low/README.md"
printf 'See `low::go`, `values`.\n' >"$all/docs/OTHER.md"
says 'any other page, with a clause that is gone' 1 "$good" ''
rm "$all/docs/OTHER.md"

mkdir "$all/crates/high/specs/inner"
printf -- '-- it goes\nabbrev pub Goes : Type 0\n' >"$all/crates/high/specs/inner/Going.antt"
says 'two definitions with names of their own' 0 "$good" ''
printf -- '-- it stays otherwise\npub record Stays : Type 0 where\n' >>"$all/crates/high/specs/inner/Going.antt"
says 'two definitions of one name' 1 "$good" ''
printf -- '-- it goes\nabbrev pub Goes : Type 0\n' >"$all/crates/high/specs/inner/Going.antt"
printf -- '-- it goes on\nrecord Goes : Type 0 where\n' >>"$all/crates/low/proofs/StayLemmas.antt"
says 'a record of lemmas with the name of a definition' 1 "$good" ''

finish
