#!/usr/bin/env bash
# Builds the three programs of this folder.
#
#   examples/amiga/build.sh PREFIX OUT
#
# PREFIX has the library for C, as bindings/c/build.sh installs it. OUT gets `task` and `commands` for the Amiga, and the shared object
# `jipamiga-linux-x86-64.so` for FS-UAE; if PREFIX is `-`, only the programs for the Amiga. It needs a C compiler (CC, or cc), python3,
# and Debian's gcc-m68k-linux-gnu.
set -euo pipefail
[ $# = 2 ] || { echo 'usage: build.sh PREFIX OUT' >&2; exit 2; }
prefix=$1 out=$2
here=$(cd "$(dirname "$0")" && pwd)
mkdir -p "$out"
room=$(mktemp -d)
trap 'rm -rf "$room"' EXIT

[ "$prefix" = - ] || "${CC:-cc}" -std=c11 -O2 -Wall -Wextra -Wpedantic -shared -fPIC -I "$prefix/include" -o "$out/jipamiga-linux-$(uname -m | tr _ -).so" \
    "$here/host.c" "$prefix/lib/libjiponuwha.a"

# One hunk of code without relocations: its own texts and functions are found from the program counter.
for name in task commands; do
    m68k-linux-gnu-gcc -std=gnu11 -m68020 -Os -mpcrel -Wall -Wextra -ffreestanding -fno-builtin -fno-jump-tables -fomit-frame-pointer \
        -fno-pic -fno-stack-protector -fno-tree-loop-distribute-patterns -fno-asynchronous-unwind-tables --param=min-pagesize=0 \
        -c "$here/$name.c" -o "$room/$name.o"
    m68k-linux-gnu-ld -T "$here/flat.ld" --no-warn-rwx-segments -o "$room/$name.elf" "$room/$name.o"
    m68k-linux-gnu-objcopy -O binary "$room/$name.elf" "$room/$name.bin"
    python3 "$here/hunk.py" "$room/$name.bin" "$out/$name"
done
