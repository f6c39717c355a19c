#!/bin/sh
# Installs the library for C and C++: headers, static and shared library, luskadorv.pc for pkg-config, and both licenses.
#
#     bash tools/install.sh [--unproved] [PREFIX]
#
# PREFIX is /usr/local if none is named. Packagers set DESTDIR, which goes before all paths and into no file, and LIBDIR if libraries
# aren't in PREFIX/lib. The archive is the one in out/, or in the folder LUSKADORV_LIB, that tools/library.sh made. It must be proved:
# an unproved one is installed only with --unproved. The status is 0 if all was installed.
set -eu
top=$(cd -P -- "$(dirname -- "$0")/.." && pwd)
may_be_unproved=
[ "${1:-}" != --unproved ] || { may_be_unproved=1 && shift; }
prefix=${1:-/usr/local}
libdir=${LIBDIR:-$prefix/lib}
archive=${LUSKADORV_LIB:-$top/out}/libluskadorv.a
include=$top/crates/ist_c/include
version=$(sed -n 's/^#define IST_VERSION "\(.*\)"/\1/p' "$include/ist.h")
soname=libluskadorv.so.${version%%.*}
description='A proved lock-free ordered map from 64-bit keys to 64-bit values'

stop() {
    echo "install: $1" >&2
    exit 1
}

case $prefix in
-*) stop "there is no option $prefix" ;;
/*) ;;
*) stop "PREFIX must be an absolute path: $prefix" ;;
esac
[ -e "$archive" ] || stop "$archive isn't there: \`bash tools/library.sh --wait\` proves and makes it"
if nm "$archive" | grep -q ' ist_unproved$'; then
    [ -n "$may_be_unproved" ] || stop "$archive is an unproved build: \`bash tools/library.sh --wait\` makes the proved one, and --unproved installs this"
    description="$description (unproved build)"
fi

part=$(mktemp -d)
trap 'rm -rf "$part"' EXIT
echo '{ global: ist_*; local: *; };' >"$part/exports"
"${CC:-cc}" -shared -Wl,-soname,"$soname" -Wl,-z,defs -Wl,--version-script="$part/exports" -o "$part/shared" \
    -Wl,--whole-archive "$archive" -Wl,--no-whole-archive
cat >"$part/luskadorv.pc" <<PC
prefix=$prefix
libdir=$libdir
includedir=\${prefix}/include/luskadorv

Name: luskadorv
Description: $description
Version: $version
Libs: -L\${libdir} -lluskadorv
Cflags: -I\${includedir}
PC

to=${DESTDIR:-}
install -d "$to$libdir/pkgconfig" "$to$prefix/include/luskadorv" "$to$prefix/share/licenses/luskadorv"
install -m 644 "$include"/* "$to$prefix/include/luskadorv"
install -m 644 "$archive" "$to$libdir/libluskadorv.a"
install -m 755 "$part/shared" "$to$libdir/libluskadorv.so.$version"
ln -sf "libluskadorv.so.$version" "$to$libdir/$soname"
ln -sf "$soname" "$to$libdir/libluskadorv.so"
install -m 644 "$part/luskadorv.pc" "$to$libdir/pkgconfig"
install -m 644 "$top/LICENSE-MIT" "$top/LICENSE-APACHE" "$to$prefix/share/licenses/luskadorv"
