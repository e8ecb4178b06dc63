#!/usr/bin/env bash
# Builds the program that mounts images.
#
#   bindings/fuse/build.sh [TO [PREFIX]]
#
# TO is the file to write, by default bindings/fuse/out/adf_mount. PREFIX is a directory in which bindings/c/build.sh has
# installed the C library. Without PREFIX this script installs it first, the proved one if that is current. The script needs a C
# compiler (CC, or cc) and libfuse 3 (Debian: libfuse3-dev and fuse3).
set -euo pipefail
here=$(cd "$(dirname "$0")" && pwd)
to=${1:-$here/out/adf_mount}
prefix=${2:-$here/out/library}

say() { printf 'build.sh: %s\n' "$*" >&2; }

command -v "${CC:-cc}" >/dev/null || { say "there is no C compiler '${CC:-cc}'"; exit 2; }
pkg-config --exists fuse3 || { say "libfuse 3 is not there (Debian: libfuse3-dev, pkgconf)"; exit 2; }
[ $# -gt 1 ] || "$here/../c/build.sh" "$prefix"
mkdir -p "$(dirname "$to")"
# shellcheck disable=SC2046 # the flags are split into arguments
"${CC:-cc}" -std=c11 -O2 -D_GNU_SOURCE -D_FILE_OFFSET_BITS=64 -Wall -Wextra -Wpedantic -Werror ${CFLAGS:-} \
    -I "$prefix/include" $(pkg-config --cflags fuse3) -o "$to" "$here"/*.c "$prefix/lib/libjiponuwha.a" $(pkg-config --libs fuse3)
