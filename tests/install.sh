#!/usr/bin/env bash
# Installs the library into a fresh folder under target/ and uses it from there as a host would: by pkg-config, from C
# and C++, shared and static. Compares what the shared library exports with the header, and sees that all is removed
# again. Fails at the first difference. Usage: install.sh
set -euo pipefail
cd "$(dirname "$0")/.."
# Options of a make that runs this are not meant for the ones below.
unset MAKEFLAGS MAKELEVEL MFLAGS PREFIX DESTDIR LIBDIR INCLUDEDIR LDFLAGS

for tool in make cc c++ pkg-config nm readelf; do
    command -v "$tool" >/dev/null || { echo "install.sh: $tool is missing" >&2; exit 1; }
done

# It goes at the end: an installation has symbolic links, and `rt ci` refuses a folder that has one below it.
place=$PWD/target/install
trap 'rm -rf "$place"' EXIT
rm -rf "$place"
mkdir -p "$place"
lib=$place/usr/lib
version=$(sed -n 's/^#define SINEWHOPA_VERSION_M[AI][JN]OR //p' include/sinewhopa.h | paste -sd.)

# Compares two texts: same NAME WANTED GOT
same() {
    if [ "$2" != "$3" ]; then
        echo "DIFFERENT: $1; wanted, then got:"
        printf '%s\n' "$2" '--' "$3"
        exit 1
    fi
    echo "as expected: $1"
}

# The files and links below a folder.
listed() { (cd "$1" && find . ! -type d | LC_ALL=C sort); }

files="./include/sinewhopa.h
./lib/libsinewhopa.a
./lib/libsinewhopa.so
./lib/libsinewhopa.so.${version%.*}
./lib/libsinewhopa.so.$version
./lib/pkgconfig/sinewhopa.pc"

make -s install PREFIX="$place/usr"
same 'what is installed' "$files" "$(listed "$place/usr")"
cmp include/sinewhopa.h "$place/usr/include/sinewhopa.h"
cmp target/staticlib/libsinewhopa.a "$lib/libsinewhopa.a"
same 'the link for programs' "$lib/libsinewhopa.so.$version" "$(readlink -f "$lib/libsinewhopa.so.${version%.*}")"
same 'the link for the linker' "$lib/libsinewhopa.so.$version" "$(readlink -f "$lib/libsinewhopa.so")"

# An entry of the dynamic section of a file: entry FILE NAME
entry() { readelf -dW "$1" | sed -n "s/.*($2).*\[\(.*\)\]/\1/p"; }

# The libraries of this name that a program needs.
needed() { entry "$1" NEEDED | grep sinewhopa || true; }

shared=$lib/libsinewhopa.so.$version
same 'the soname' "libsinewhopa.so.${version%.*}" "$(entry "$shared" SONAME)"
declared=$(sed -n 's/^[a-z0-9_]* \(sinewhopa_[a-z0-9_]*\)(.*/\1/p' include/sinewhopa.h | LC_ALL=C sort)
exported=$(nm -D --defined-only "$shared" | sed 's/.* //' | LC_ALL=C sort)
same 'exported is what the header declares' "$declared" "$exported"
proved=$(nm -g --defined-only "$lib/libsinewhopa.a" | sed -n 's/.* T //p' | LC_ALL=C sort)
same 'exported is what the archive has for C' "$proved" "$exported"
asked=$(nm -D --undefined-only "$shared" | sed 's/.* //; s/@.*//')
other=$(grep -vxE 'mem(cpy|move|set|cmp)|bcmp' <<<"$asked" || true)
same 'asked of the C library: to copy, fill and compare' '' "$other"

export PKG_CONFIG_PATH=$lib/pkgconfig
same 'the version of pkg-config' "$version" "$(pkg-config --modversion sinewhopa)"
strict=(-Wall -Wextra -Werror -pedantic)
read -ra flags <<<"$(pkg-config --cflags --libs sinewhopa)"
read -ra cflags <<<"$(pkg-config --cflags sinewhopa)"
cc -std=c11 "${strict[@]}" tests/installed.c "${flags[@]}" -o "$place/shared"
c++ -std=c++11 "${strict[@]}" -x c++ tests/installed.c -x none "${flags[@]}" -o "$place/shared_cpp"
archive=$(pkg-config --variable=libdir sinewhopa)/libsinewhopa.a
cc -std=c11 "${strict[@]}" "${cflags[@]}" tests/installed.c "$archive" -o "$place/static"

told="compiled with $version, linked $version
$(cat examples/A/stdout examples/A/stdout)
event 1: done; number 16: a minute below the current one"
for program in shared shared_cpp; do
    same "$program needs the soname" "libsinewhopa.so.${version%.*}" "$(needed "$place/$program")"
    said=$(LD_LIBRARY_PATH=$lib "$place/$program") || said+=" (and fails)"
    same "$program" "$told" "$said"
done
same 'static needs no library' '' "$(needed "$place/static")"
said=$("$place/static") || said+=" (and fails)"
same 'static' "$told" "$said"

make -s uninstall PREFIX="$place/usr"
same 'what is left after uninstall' '' "$(listed "$place/usr")"

# For a package: files below DESTDIR, which no installed file names.
make -s install PREFIX=/usr DESTDIR="$place/package"
same 'what is installed for a package' "$files" "$(listed "$place/package/usr")"
same 'its paths' "-I/usr/include -L/usr/lib -lsinewhopa" "$(
    PKG_CONFIG_ALLOW_SYSTEM_CFLAGS=1 PKG_CONFIG_ALLOW_SYSTEM_LIBS=1 PKG_CONFIG_PATH=$place/package/usr/lib/pkgconfig \
        pkg-config --cflags --libs sinewhopa | sed 's/ *$//')"
same 'a path that is not full' 2 "$(make -s install PREFIX=usr >/dev/null 2>&1 || echo $?)"
