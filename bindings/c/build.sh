#!/usr/bin/env bash
# Installs the C library in a directory: lib/libjiponuwha.a, lib/libjiponuwha.so.1, include/jiponuwha.h,
# include/jiponuwha_amiga.h, two files in lib/pkgconfig/, and lib/cmake/jiponuwha/jiponuwha-config.cmake. It also installs
# the source for jiponuwha_amiga.h, share/jiponuwha/amiga.c.
#
#   bindings/c/build.sh PREFIX                   installs the proved library if that is current, and otherwise one without proof,
#                                                which it first compiles if necessary, in two or three minutes
#   bindings/c/build.sh --prove PREFIX           proves and builds the library first if it is not up to date
#   bindings/c/build.sh --built PREFIX           installs the proved library that is already built, and fails if there is none
#   bindings/c/build.sh --from ARCHIVE PREFIX    installs a library over this libadf_c.a
#
# `jip_version` says whether a library is proved. The script needs the Rattle kit, a C compiler (CC, or cc), `ar` and `objcopy`.
# CFLAGS are passed to the compiler too.
set -euo pipefail
say() { printf 'build.sh: %s\n' "$*" >&2; }

usage() { say 'usage: bindings/c/build.sh [--prove | --built | --from ARCHIVE] PREFIX' && exit 2; }

here=$(cd "$(dirname "$0")" && pwd)
top=$(cd "$here/../.." && pwd)
built=$top/crates/adf_c/out/libadf_c.a
mode=current
case ${1-} in
--prove | --built)
    mode=${1#--}
    shift
    ;;
--from)
    mode=from
    built=${2-}
    shift 2 || usage
    ;;
-*) usage ;;
esac
[ $# = 1 ] || usage
prefix=$1
cc=${CC:-cc}
soname=libjiponuwha.so.1
room=$(mktemp -d)
trap 'rm -rf "$room"' EXIT

for tool in ar objcopy; do
    command -v "$tool" >/dev/null || { say "'$tool' is not on the path (Debian: binutils)"; exit 2; }
done
command -v "$cc" >/dev/null || { say "there is no C compiler '$cc' (Debian: gcc)"; exit 2; }
rt=$(command -v rt) || { say "the Rattle kit's command 'rt' is not on the path"; exit 2; }

# Proves the library, and records that it is current.
prove() {
    local sum
    sum=$("$top/tools/sources" --library state src specs proofs)
    # The output of the gate is used as it is.
    if [ -x "$top/tools/gate_libraries" ]; then "$top/tools/gate_libraries"; fi
    (cd "$top/crates/adf_c" && rt lib </dev/null >"$room/said" 2>&1) || { cat "$room/said" >&2; exit 2; }
    "$top/tools/sources" --library made "$built" "$sum" src specs proofs || { say 'the sources changed meanwhile'; exit 2; }
}

case $mode in
prove) prove ;;
current) built=$("$top/tools/program" --library) || exit 2 ;;
esac
[ -f "$built" ] || { say "there is no $built"; exit 2; }
flags=()
# (the name of the only member of a library without proof)
if [ "$(ar t "$built")" = not_proved.o ]; then flags=(-DJIP_NOT_PROVED); fi

# version_of LEVEL: prints the MAJOR, MINOR or PATCH number of the header's version.
version_of() { sed -nE "s/^#define JIP_VERSION_$1 ([0-9]+)$/\1/p" "$here/jiponuwha.h"; }

# Compiles the C files, for the static and the shared library.
# shellcheck disable=SC2086 # the flags are words
for source in "$here"/src/*.c; do
    object=$room/jiponuwha_$(basename "$source" .c).o
    "$cc" -std=c11 -O2 -fPIC -Wall -Wextra -Wpedantic -Wconversion -I "$here" "${flags[@]}" ${CFLAGS:-} -c "$source" -o "$object"
done

# The library uses malloc and free through an object file of the kit, which is added to the archive.
kit=$(dirname "$(dirname "$(readlink -f "$rt")")")
cp "$built" "$room/libjiponuwha.a"
(cd "$room" && ar x "$kit/c/liblibc_c.a")

# Functions start at multiples of 32 bytes. So a loop has the same place in the lines of the processor's caches, and takes the
# same time, in the shared library and in every program with the static one.
for file in "$room"/*.o "$room/libjiponuwha.a"; do objcopy -D --set-section-alignment '.text*=32' "$file"; done
(cd "$room" && ar rs libjiponuwha.a ./*.o 2>/dev/null)

# shellcheck disable=SC2086 # the flags are words
"$cc" -shared -o "$room/$soname" -Wl,-soname,"$soname" -Wl,--version-script="$here/jiponuwha.map" -Wl,-z,defs -Wl,-z,text \
    -Wl,-z,relro -Wl,-z,now -Wl,--gc-sections ${CFLAGS:-} "$room"/*.o "$room/libjiponuwha.a"

mkdir -p "$prefix/lib/pkgconfig" "$prefix/lib/cmake/jiponuwha" "$prefix/include"
prefix=$(cd "$prefix" && pwd)
cp "$room/libjiponuwha.a" "$prefix/lib/"
# The rename keeps the old file intact for programs that are running with it.
install -m 755 "$room/$soname" "$prefix/lib/$soname.new"
mv "$prefix/lib/$soname.new" "$prefix/lib/$soname"
cp "$here/jiponuwha.h" "$prefix/include/"
cp "$here/jiponuwha_amiga.h" "$prefix/include/"
mkdir -p "$prefix/share/jiponuwha"
cp "$here/src/amiga.c" "$prefix/share/jiponuwha/"
cp "$here/jiponuwha-config.cmake" "$prefix/lib/cmake/jiponuwha/"
# (a `"` or a `#` in a value of a pkg-config file has a backslash before it)
quoted=${prefix//\"/\\\"}
quoted=${quoted//\#/\\\#}
for file in jiponuwha jiponuwha-shared; do
    text=$(<"$here/$file.pc.in")
    text=${text//@PREFIX@/"$quoted"}
    text=${text//@VERSION@/"$(version_of MAJOR).$(version_of MINOR).$(version_of PATCH)"}
    printf '%s\n' "$text" >"$prefix/lib/pkgconfig/$file.pc"
done
