# What the benchmarks share; they read it in. It gives them `here`, their own directory, and `room`, one for files that goes
# when they end.
set -e
here=$(cd "$(dirname "$0")" && pwd)
room=$(mktemp -d)
trap 'rm -rf "$room"' EXIT

# As `adf_serve` at the top starts the program: memory of a large image comes in huge pages, where the system gives them.
export GLIBC_TUNABLES="${GLIBC_TUNABLES-glibc.malloc.hugetlb=1}"

# The program of a crate.
program() { echo "$here/../crates/$1/out/$1"; }

# Builds the program of a crate, and runs it once with these words and no input. Where BUILT is set, the program that an
# earlier build or the gate has left is taken as it is.
build() {
    crate=$1
    shift
    if [ -n "$BUILT" ] && [ -x "$(program "$crate")" ]; then return; fi
    (cd "$here/../crates/$crate" && rt run -- "$@" < /dev/null > "$room/log" 2>&1) || { cat "$room/log" >&2; exit 1; }
}

# Builds tools of this directory into the room.
tools() {
    for tool; do
        rustc --edition 2021 -O -o "$room/$tool" "$here/$tool.rs"
    done
}

# Builds programs of this directory into the room, over the library for C in the folder LIBRARY, or over one that is made.
over_library() {
    library=${LIBRARY:-$room/library}
    if [ -z "$LIBRARY" ]; then
        # (a library without proof takes longer for everything)
        "$here/../bindings/c/build.sh" "$([ -n "$BUILT" ] && echo --built || echo --prove)" "$library" > "$room/log" 2>&1 || { cat "$room/log" >&2; exit 1; }
    fi
    for tool; do
        "${CC:-cc}" -O2 -std=c11 -Wall -Wextra -Wpedantic -Werror -I "$library/include" -o "$room/$tool" "$here/$tool.c" \
            -L "$library/lib" -ljiponuwha
    done
}
