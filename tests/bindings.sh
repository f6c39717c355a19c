#!/bin/bash
# Tests of the tree from C, C++ and Rust: the library that tools/library.sh makes, the three lists of its functions, its memory, the programs of
# bindings/c and bindings/cpp, by themselves, under valgrind and with sanitizers, what tools/install.sh installs, and the package of
# bindings/rust. What can't be run because a command isn't there is named as skipped, and isn't counted. The last line is
# 'N passed, M failed'.
#
# `rt ci` proves the library and leaves no archive of it. Where `rt lib` in crates/ist_c or tools/library.sh made the proved one of these
# very sources, that is tested; else an unproved build, which a line says.
. "$(dirname -- "$0")/head.sh"

# Runs a command, which must succeed.
well() {
    local name=$1
    shift
    if "$@" >"$all/said" 2>&1; then
        passed=$((passed + 1))
    else
        failed=$((failed + 1))
        printf 'FAILED: %s\n%s\n' "$name" "$(tail -n 20 "$all/said")"
    fi
}

# Whether these commands are there.
there() {
    local name=$1 command
    shift
    for command; do
        command -v "$command" >/dev/null && continue
        echo "skipped: $name ($command isn't there)"
        return 1
    done
}

# The same list of names in two files.
same() {
    well "$1" diff "$2" "$3"
}

# (a path that has a space)
made="$all/the library" include=$here/crates/ist_c/include

# The functions with the types of their parameters, the structs and the statuses: as the crate exports them (ist_handles has its
# structs and statuses), and as C and Rust declare them. bindings/c/library.c has `ist_version`, and calls two exports under other names.
exports() {
    python3 "$here/tests/exports.py" "$@"
}
lists() {
    exports rattle "$here"/crates/ist_c/src/*.rt "$here"/crates/ist_handles/src/*.rt "$here"/crates/ist_core/src/pairs.rt >"$all/rattle"
    exports c "$include/ist.h" "$here/bindings/c/library.c" | grep -v -e '^ist_version(' -e '^ist_open(' -e '^ist_reopen(' >"$all/inner"
    exports c "$include/ist.h" | grep -v '^ist_version() -> u32$' >"$all/c"
    exports rust "$here/bindings/rust/src/ffi.rs" >"$all/rust"
    well 'there are exports' grep -q '^ist_find(' "$all/rattle"
    same 'ist.h and library.c declare the exports' "$all/rattle" "$all/inner"
    same 'ffi.rs declares what ist.h does' "$all/c" "$all/rust"
    well 'only ffi.rs and shared.rs have unsafe blocks' sh -c "! grep -rl 'unsafe [{i]' '$here/bindings/rust/src' | grep -v -e /ffi.rs -e /shared.rs"
}

# Whether the library is an unproved build.
is_unproved() {
    [ -L "$made/libluskadorv.a" ]
}

# The archive and the names in it.
archive() {
    well 'the library is made' bash "$here/tools/library.sh" --no-proof "$made"
    [ "$failed" = 0 ] || finish
    ! is_unproved || echo 'the library is an unproved build'
    there 'the names in the library' nm || return
    nm --defined-only -g "$made/libluskadorv.a" 2>/dev/null | awk 'NF == 3 { print $3 }' | grep -v '^ist_unproved$' | sort >"$all/defined"
    { sed -n 's/^\(ist_[a-z_]*\)(.*/\1/p' "$all/c" && echo ist_version; } | sort >"$all/names"
    same 'the library defines what ist.h declares and no other name' "$all/names" "$all/defined"
    nm "$made/libluskadorv.a" 2>/dev/null | grep -c ' R ist_unproved$' >"$all/marks"
    is_unproved && echo 1 >"$all/wanted" || echo 0 >"$all/wanted"
    same 'an unproved library has its symbol' "$all/wanted" "$all/marks"
}

# The version, which several files have.
version() {
    number=$(sed -n 's/^version = "\(.*\)"/\1/p' "$here/bindings/rust/Cargo.toml")
    well 'header and package have one version' grep -qx "#define IST_VERSION \"$number\"" "$include/ist.h"
    if grep -q '^## [0-9]' "$here/CHANGELOG.md"; then
        well 'and so has the last release of the changelog' sh -c "grep -m 1 '^## [0-9]' '$here/CHANGELOG.md' | grep -q '^## $number\\b'"
    fi
    IFS=. read -r major minor patch <<<"$number"
    well 'as text and as a number' grep -qx "#define IST_VERSION_NUMBER $((10000 * major + 100 * minor + patch))" "$include/ist.h"
}

flags=(-O2 -Wall -Wextra -Wpedantic -Werror "-I$include")
linked=("-L$made" -lluskadorv -lpthread)

# Whether programs can be compiled with this sanitizer and run. A sanitizer sees the program and not the library, so it tests what
# the program and the header do with their own memory.
sanitizes() {
    printf 'int main(void) { return 0; }\n' >"$all/none.c"
    if ! { cc "-fsanitize=$2" "$all/none.c" -o "$all/none" && "$all/none"; } >"$all/said" 2>&1; then
        echo "skipped: $1 (cc can't build or run programs with -fsanitize=$2 here)"
        return 1
    fi
}

programs_in_c() {
    there 'the program in C' cc || return
    well 'threads.c is compiled' cc "${flags[@]}" "$here/bindings/c/threads.c" "${linked[@]}" -o "$all/threads"
    well 'threads.c runs' "$all/threads"
    grep -c '^luskadorv: .* unproved' "$all/said" >"$all/marks"
    same 'an unproved library says what it is' "$all/wanted" "$all/marks"
    if there 'the program in C under valgrind' valgrind; then
        well 'threads.c runs under valgrind' valgrind -q --error-exitcode=99 --leak-check=full "$all/threads" 200
    fi
    if sanitizes 'the program in C under ThreadSanitizer' thread; then
        well 'threads.c is compiled with ThreadSanitizer' \
            cc -fsanitize=thread -g "${flags[@]}" "$here/bindings/c/threads.c" "${linked[@]}" -o "$all/sanitized"
        well 'threads.c runs with ThreadSanitizer' env TSAN_OPTIONS=halt_on_error=1 "$all/sanitized" 500
    fi
    printf '%s\n' '#include "ist.h"' 'void rattle_alloc(void) {} void rattle_realloc(void) {} void rattle_dealloc(void) {}' \
        'int main(void) { ist_owner owner = {0}; return ist_open(3, NULL, 0, &owner) != IST_SMALL; }' >"$all/other.c"
    well 'a program that has the names of the heap itself is compiled' cc "-I$include" "$all/other.c" "${linked[@]}" -o "$all/other"
    well 'and runs' "$all/other"
}

programs_in_cpp() {
    there 'the programs in C++' c++ || return
    printf '#include "ist.h"\nint main() { ist_owner owner = {}; return ist_close(&owner) == IST_MISUSE ? 0 : 1; }\n' >"$all/plain.cpp"
    well 'a program in C++ over ist.h is compiled' c++ "${flags[@]}" "$all/plain.cpp" "${linked[@]}" -o "$all/plain"
    well 'a program in C++ over ist.h runs' "$all/plain"
    local options
    for options in '' -fsanitize=address,undefined -fsanitize=thread; do
        [ -z "$options" ] || sanitizes "threads.cpp with $options" "${options#*=}" || continue
        well "threads.cpp is compiled $options" c++ -std=c++17 -g $options "${flags[@]}" "$here/bindings/cpp/threads.cpp" "${linked[@]}" -o "$all/threads-cpp"
        well "threads.cpp runs $options" "$all/threads-cpp" 200
    done
}

# The memory of tables, by itself.
pools() {
    there 'the pools of memory' cc || return
    local options
    for options in '' -fsanitize=address,undefined -fsanitize=thread; do
        [ -z "$options" ] || sanitizes "the pools with $options" "${options#*=}" || continue
        well "pools.c is compiled $options" cc -g $options "${flags[@]}" -Wl,--wrap=malloc,--wrap=realloc,--wrap=free "$here/tests/pools.c" -lpthread -o "$all/pools"
        well "blocks of pools keep what is written $options" "$all/pools" 3000
    done
}

# What tools/install.sh installs, as a package that is unpacked, and programs that know it by pkg-config alone.
installs() {
    local may=()
    ! is_unproved || may=(--unproved)
    if is_unproved; then
        well 'an unproved library is not installed' sh -c "! LUSKADORV_LIB='$made' bash '$here/tools/install.sh' '$all/none'"
    fi
    well 'a relative prefix is refused' sh -c "! LUSKADORV_LIB='$made' bash '$here/tools/install.sh' --unproved usr"
    well 'the library is installed' env "LUSKADORV_LIB=$made" "DESTDIR=$all/package" bash "$here/tools/install.sh" "${may[@]}" "$all/usr"
    well 'below DESTDIR alone' [ ! -e "$all/usr" ]
    mv "$all/package$all/usr" "$all/usr"
    (cd "$all/usr" && find . ! -type d | sort) >"$all/installed"
    printf './%s\n' include/luskadorv/ist.h include/luskadorv/ist.hpp lib/libluskadorv.a lib/libluskadorv.so lib/libluskadorv.so.${number%%.*} \
        "lib/libluskadorv.so.$number" lib/pkgconfig/luskadorv.pc share/licenses/luskadorv/LICENSE-APACHE share/licenses/luskadorv/LICENSE-MIT >"$all/paths"
    same 'these files are installed' "$all/paths" "$all/installed"
    nm -D --defined-only "$all/usr/lib/libluskadorv.so" | awk '{ print $3 }' | grep -v '^ist_unproved$' | sort >"$all/defined"
    same 'the shared library defines the exports and no other name' "$all/names" "$all/defined"
    there 'programs that are compiled by pkg-config' pkg-config || return
    export PKG_CONFIG_PATH="$all/usr/lib/pkgconfig"
    well 'pkg-config knows the version' pkg-config "--exact-version=$number" luskadorv
    ! there 'threads.c by pkg-config' cc || by_pkg_config cc "$here/bindings/c/threads.c"
    ! there 'threads.cpp by pkg-config' c++ || by_pkg_config c++ "$here/bindings/cpp/threads.cpp"
    unset PKG_CONFIG_PATH
}

by_pkg_config() {
    local name=${2##*/}
    well "$name is compiled by pkg-config" "$1" "$2" $(pkg-config --cflags --libs luskadorv) -o "$all/shared"
    well "$name asks for the shared library" sh -c "readelf -d '$all/shared' | grep -q 'libluskadorv.so.${number%%.*}\\]'"
    well "$name runs with the shared library" env "LD_LIBRARY_PATH=$all/usr/lib" "$all/shared" 200
    if ! "$1" -static "$all/none.c" -o "$all/none" >"$all/said" 2>&1; then
        echo "skipped: $name by pkg-config --static ($1 can't link static programs here)"
        return
    fi
    well "$name is compiled by pkg-config --static" "$1" -static "$2" $(pkg-config --static --cflags --libs luskadorv) -o "$all/static"
    well "$name runs with the static library" "$all/static" 200
}

# With optimization, and with the checks that debug builds have.
in_rust() {
    env CARGO_TARGET_DIR="$all/target" CARGO_PROFILE_RELEASE_DEBUG_ASSERTIONS=true \
        cargo "$1" --offline --quiet --manifest-path "$all/rust-package/Cargo.toml" "${@:2}"
}

package_in_rust() {
    there 'the package in Rust' cargo cc || return
    local it
    cp -rL "$here/bindings/rust" "$all/rust-package"
    export LUSKADORV_LIB="$all/nowhere"
    well 'without the library the package is checked' in_rust check --all-targets
    well 'and documented' in_rust doc
    well 'and packaged' in_rust package --allow-dirty
    in_rust package --allow-dirty --list 2>/dev/null | grep -E '^(README|LICENSE|examples/)' >"$all/packaged"
    (cd "$here/bindings/rust" && ls README.md LICENSE-* examples/*.rs | sort) >"$all/paths"
    same 'the package has its README, licenses and examples' "$all/paths" "$all/packaged"
    for it in LICENSE-APACHE LICENSE-MIT; do
        same "$it of the package is that of the repository" "$here/$it" "$here/bindings/rust/$it"
    done
    in_rust build --examples >"$all/linking" 2>&1
    well 'what is linked without it says what to do' grep -q 'Make-it-by-tools/library.sh' "$all/linking"
    LUSKADORV_LIB=$all/$(printf 'not-utf8-\377')
    cp -rL "$made" "$LUSKADORV_LIB"
    well 'a path of any bytes is taken' in_rust build --examples
    LUSKADORV_LIB=$made
    well 'the package in Rust passes its tests' in_rust test --release
    for it in "$here"/bindings/rust/examples/*.rs; do
        it=$(basename "$it" .rs)
        well "the example $it runs" in_rust run --release --example "$it"
    done
    well 'the measurement of maps in Rust runs' in_rust bench --bench maps -- 200 1
    well 'the measurement of calls in Rust runs' in_rust bench --bench calls -- 100 200 10
    well 'the measurement of a service in Rust runs' in_rust bench --bench service -- 1000 2 25 25 1
}

lists
archive
version
programs_in_c
pools
programs_in_cpp
installs
package_in_rust
finish
