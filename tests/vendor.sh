#!/bin/bash
# Tests of tools/vendor.py: the tree is taken into a new repository, where a small program over it is proved and run; and what it must
# refuse. The last line is 'N passed, M failed'.
. "$(dirname -- "$0")/head.sh"

# Whether the last command ended with this status and its last line is this one.
ends() {
    if [ "$status" = "$2" ] && [ "$(tail -n 1 <<<"$said")" = "$3" ]; then
        passed=$((passed + 1))
    else
        failed=$((failed + 1))
        printf 'FAILED: %s: status %s\n%s\n' "$1" "$status" "$(tail -n 5 <<<"$said")"
    fi
}

vendor() {
    said=$(python3 "$here/tools/vendor.py" "$@" 2>&1)
    status=$?
}

# A repository with a program of its own, which puts a pair into a tree and finds it.
top=$all/other
mkdir -p "$top/crates/mine/src" && git init -q "$top"
echo 'Handles allowed: Threads, Wait.' >"$top/HANDLES"
printf '# mine\nmine: ist_tree' >"$top/crates.txt"
echo 'found Some(7)' >"$top/crates/mine/stdout"
cat >"$top/crates/mine/src/main.rt" <<'PROGRAM'
//! Puts a pair into a tree, and finds it.
#![tactic(auto)]

use ist_tree::{OpenFault, Tree};
use std::alloc::Global;
use std::io;

fn put_and_find(alloc: Global) -> Result<Option<u64>, OpenFault> {
    let (tree, mut maker) = Tree::open(alloc, 1000, &[])?;
    let mut pass = tree.pass(&mut maker);
    match tree.put(&mut pass, 5, 7) {
        Ok(_) => Ok(tree.find(&mut pass, 5)),
        Err(_) => Ok(None),
    }
}

fn main(rt: HostRuntime) -> io::Result<()> {
    match put_and_find(rt.alloc()) {
        Ok(found) => println!(rt; "found {found:?}"),
        Err(fault) => println!(rt; "refused: {fault:?}"),
    }
}
PROGRAM

vendor ist_tree "$top"
count=$(($(wc -l <"$top/crates.txt") - 2))
ends 'into a new repository' 0 "$count crates copied, 0 were there"
vendor ist_tree "$top"
ends 'once more' 0 "0 crates copied, $count were there"
vendor ist_live "$top"
ends 'a crate above it' 0 "1 crates copied, $count were there"

# (without `ist_live`, which the program doesn't use)
rm -rf "$top/crates/ist_live" && sed -i '/^ist_live:/d' "$top/crates.txt"
said=$(cd "$top" && rt ci 2>&1)
status=$?
said=$(grep -E '^[0-9]+ passed, ' <<<"$said" | sed 's/^[0-9]* passed/all passed/')
ends 'rt ci of the new repository' 0 'all passed, 0 failed'
said=$(cd "$top/crates/mine" && rt run 2>/dev/null)
status=$?
ends 'rt run of the program' 0 'found Some(7)'

vendor none "$top"
ends 'a crate that is not there' 1 'vendor: crates.txt has no crate none'
vendor ist_tree "$here"
ends 'into the same repository' 1 "vendor: $here is no folder of another repository"
vendor ist_tree
ends 'no folder' 2 'now, 1 if something stands in the way, and 2 if the arguments are wrong.'
echo 'Handles allowed: Threads.' >"$top/HANDLES"
said=$(python3 "$here/tools/vendor.py" ist_tree "$top" 2>&1 | grep HANDLES)
status=$?
ends 'handles that are missing' 0 "$top/HANDLES must allow Wait"
sed -i 's/^ist_core:.*/ist_core: memchr/' "$top/crates.txt"
vendor ist_math "$top"
ends 'another line' 1 "vendor: $top/crates.txt has another line for ist_core: ist_core: memchr"
echo more >>"$top/crates/ist_core/README.md"
rm -rf "$top/crates/ist_math"
vendor ist_math "$top"
ends 'another crate' 1 "vendor: $top/crates.txt has another line for ist_core: ist_core: memchr"
[ ! -e "$top/crates/ist_math" ] && status=0 || status=1
said=''
ends 'nothing is copied then' 0 ''

finish
