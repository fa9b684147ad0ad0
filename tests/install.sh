#!/bin/sh
# Installs the library, which must be current, into folders of the test's own, and uses what lies there as a host
# does. The mask is the strictest, a path has a blank in it, and the rt that is found first only fails. See README.md.
set -eu
cd "$(dirname "$0")/.."
. tests/tools.sh
need c
command -v pkg-config >/dev/null || install_packages pkg-config
unset PREFIX LIBDIR INCLUDEDIR DESTDIR MAKEFLAGS MFLAGS
umask 077
work=$(TMPDIR=/tmp mktemp -d) # a PREFIX has no blank, and TMPDIR may have one
trap 'rm -rf "$work"' EXIT
trap 'exit 1' HUP INT TERM

bad() { echo "install: FAILED: $*" >&2; exit 1; }
mkdir "$work/bin"
printf '#!/bin/sh\necho "install: rt was called" >&2\nexit 1\n' >"$work/bin/rt"
chmod 755 "$work/bin/rt"
run() { PATH="$work/bin:$PATH" make -s "$@" || bad "make $*"; }
# holds FOLDER WHAT: all below the folder, with the modes, must be what the file said has
holds() { (cd "$1" && find . -mindepth 1 -printf '%m %P\n' | LC_ALL=C sort -k 2) | diff - "$work/said" >&2 || bad "this is not what $2 should leave"; }
pkg() { PKG_CONFIG_LIBDIR=$1/pkgconfig; export PKG_CONFIG_LIBDIR; shift; pkg-config "$@" sign; }

# As it comes, behind a DESTDIR. What lay there stays as it was, and what is made anyone can read.
stage="$work/a stage"
mkdir -p "$stage/usr/local/include"
echo other >"$stage/usr/local/include/other.h"
cat >"$work/said" <<'END'
700 usr
700 usr/local
700 usr/local/include
600 usr/local/include/other.h
644 usr/local/include/sign.h
755 usr/local/lib
644 usr/local/lib/libsign.a
755 usr/local/lib/pkgconfig
644 usr/local/lib/pkgconfig/sign.pc
END
run install DESTDIR="$stage"
holds "$stage" install
cmp include/sign.h "$stage/usr/local/include/sign.h"
cmp target/staticlib/libsign.a "$stage/usr/local/lib/libsign.a"
[ "$(pkg "$stage/usr/local/lib" --variable=prefix)" = /usr/local ] || bad "the prefix of sign.pc"
run uninstall DESTDIR="$stage"
sed -i '/^644/d' "$work/said"
holds "$stage" uninstall

# Where Debian has its libraries.
stage="$work/stage 2"
libdir=/usr/lib/x86_64-linux-gnu
cat >"$work/said" <<'END'
755 usr
755 usr/include
755 usr/include/vfd
644 usr/include/vfd/sign.h
755 usr/lib
755 usr/lib/x86_64-linux-gnu
644 usr/lib/x86_64-linux-gnu/libsign.a
755 usr/lib/x86_64-linux-gnu/pkgconfig
644 usr/lib/x86_64-linux-gnu/pkgconfig/sign.pc
END
run install DESTDIR="$stage" PREFIX=/usr LIBDIR=$libdir INCLUDEDIR=/usr/include/vfd
holds "$stage" "install with LIBDIR"
[ "$(pkg "$stage$libdir" --variable=libdir)" = $libdir ] || bad "the libdir of sign.pc"
[ "$(pkg "$stage$libdir" --variable=includedir)" = /usr/include/vfd ] || bad "the includedir of sign.pc"
run uninstall DESTDIR="$stage" PREFIX=/usr LIBDIR=$libdir INCLUDEDIR=/usr/include/vfd
[ -z "$(find "$stage" -type f)" ] || bad "uninstall leaves a file"

# A host by pkg-config, in C and, where there is a compiler for it, in C++. It says the header's version.
run install PREFIX="$work/here"
cat >"$work/host.c" <<'END'
#include <stdio.h>
#include <sign.h>
static uint8_t block[SIGN_BLOCK];
int main(void) {
    printf("%d.%d\n", SIGN_VERSION_MAJOR, SIGN_VERSION_MINOR);
    return (int)sign_power_up(0, block, sizeof block);
}
END
static= # under qemu there is no loader
[ -z "$RUN" ] || static=-static
for make in "$CC -std=c11" "${CROSS}g++ -std=c++11 -x c++"; do
    command -v "${make%% *}" >/dev/null || continue
    # shellcheck disable=SC2046
    $make -Wall -Wextra -pedantic -Werror "$work/host.c" -x none $static $(pkg "$work/here/lib" --cflags --libs) -o "$work/host"
    said=$($RUN "$work/host") || bad "the host built by $make"
    [ "$said" = "$(pkg "$work/here/lib" --modversion)" ] || bad "sign.pc has another version than the header, $said"
    echo "install: a host built by ${make%% *} runs with version $said"
done
run uninstall PREFIX="$work/here"
[ -z "$(find "$work/here" -type f)" ] || bad "uninstall leaves a file"

if make -s install DESTDIR="$work/" PREFIX=relative 2>/dev/null; then bad "a relative PREFIX is not refused"; fi
make -s help >"$work/help"
for target in lib show tell demo test install uninstall clean $(sed -n 's/^\.PHONY://p' Makefile); do
    grep -q "^make $target .*[a-z]" "$work/help" || bad "make help does not name $target"
done
echo "install: files, modes, pkg-config, uninstall and help are right"
