#!/bin/bash
# Tests of tools/lemmas.py: what it takes, and what it must refuse. The last line is 'N passed, M failed'.
. "$(dirname -- "$0")/head.sh"

mkdir -p "$all"/crates/{low,high}/{src,specs,proofs/go}
printf 'fn go() {}\n' >"$all/crates/low/src/lib.rt"
use_low='use Rattle.low.proofs.OneLemmas.{one, two}'
go=$all/crates/high/proofs/go/Answers.antt

# Writes the lemmas of low, those of high, and the proof of a function.
write() {
    printf -- '-- numbers\nuse Rattle.std.proofs.Common.{refl}\n\n%b\n' "$1" >"$all/crates/low/proofs/OneLemmas.antt"
    printf -- '-- others\n%b\n' "$2" >"$all/crates/high/proofs/OtherLemmas.antt"
    printf '%b\n' "$3" >"$go"
}

# Whether it finds this many faults in what is written, and says so of this name.
finds() {
    write "$4" "$5" "$6"
    found=$(python3 "$here/tools/lemmas.py" "$all")
    status=$?
    case $2$status$found in
    00*" 0 failed" | [1-9]1*"$3"*" $2 failed") passed=$((passed + 1)) ;;
    *)
        failed=$((failed + 1))
        printf 'FAILED: %s\n%s\n' "$1" "$found"
        ;;
    esac
}

one='-- one\npub one : (n : ℕ) → n ≤ n\none n = le_refl n'
two='\n\n-- two\npub two : (n : ℕ)\n    → n ≤ n + 2\ntwo n = omega arith'
both="$use_low\ngo = (one, two)"
finds 'two lemmas that are named' 0 '' "$one$two" '' "$both"
finds 'a lemma that nothing names' 1 two "$one$two" '' "$use_low\ngo = one"
finds 'a lemma that only a lemma which nothing names names' 2 one "$one\n\ntwo : (n : ℕ) → n ≤ n + 2\ntwo n = one n" '' 'go = refl'
finds 'a lemma that only a needed lemma names' 0 '' "$one\n\npub two : (n : ℕ) → n ≤ n + 2\ntwo n = one n" '' "$use_low\ngo = two"
finds 'a lemma that only itself names' 1 two "$one\n\ntwo : (n : ℕ) → n ≤ n + 2\ntwo n = two n" '' "$use_low\ngo = one"
finds 'a lemma by its own name elsewhere' 0 '' "$one" '' 'use Rattle.low.proofs.OneLemmas.{one as first}\ngo = first'
finds 'a lemma by its module' 0 '' "$one" '' 'use Rattle.low.proofs.OneLemmas as low\ngo = low.one'
finds 'a lemma that another file hands on' 0 '' "$one" 'pub use Rattle.low.proofs.OneLemmas.{one}' \
    'use Rattle.high.proofs.OtherLemmas.{one}\ngo = one'
finds 'a statement that is in two files' 1 again "$one" 'pub again : (m : ℕ) → m ≤ m\nagain m = one m' \
    "$use_low\nuse Rattle.high.proofs.OtherLemmas.{again}\ngo = (one, again)"
finds 'the same with its variable in braces' 1 again "$one" 'pub again : {m : ℕ} → m ≤ m\nagain = refl' \
    "$use_low\nuse Rattle.high.proofs.OtherLemmas.{again}\ngo = (one, again)"
finds 'a statement in one module, and another one in two' 0 '' \
    'module _ (n : ℕ) where\n  pub one : n ≤ n\n  one = refl\n\nmodule _ (n m : ℕ) where\n  pub two : n ≤ n\n  two = refl' '' "$both"
finds 'a statement in two modules alike' 1 two \
    'module _ (n : ℕ) where\n  pub one : n ≤ n\n  one = refl\n\nmodule _ (k : ℕ) where\n  pub two : k ≤ k\n  two = refl' '' "$both"
local='\n  where\n    at : (m : ℕ) → m ≤ m\n    at m = le_refl m'
finds 'a lemma in a where that another file states' 1 at "$one" "pub two : (n : ℕ) → n ≤ n + 2\ntwo n = at n$local" \
    "$use_low\nuse Rattle.high.proofs.OtherLemmas.{two as second}\ngo = (one, second)"
finds 'two lemmas alike, each in a where' 1 at "pub one : (n : ℕ) → n ≤ n + 1\none n = at n$local\n\npub two : (n : ℕ) → n ≤ n + 2\ntwo n = at n$local" \
    '' "$both"
local='\n  where\n    at : n ≤ n\n    at = le_refl n'
finds 'two lemmas in a where that name a variable of what they serve' 0 '' \
    "pub one : (n : ℕ) → n ≤ n + 1\none n = at$local\n\npub two : (n : ℕ) → n ≤ n + 2\ntwo n = at$local" '' "$both"
finds 'two definitions of one type' 0 '' 'pub one : ℕ → ℕ\none n = n\n\npub two : ℕ → ℕ\ntwo n = 2' '' "$both"
printf '#[tactic(auto, using(crate::proofs::OneLemmas::one))]\nfn go() {}\n' >"$all/crates/low/src/lib.rt"
finds 'a lemma that a tactic uses' 0 '' "$one" '' 'go = refl'

finish
