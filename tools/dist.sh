#!/usr/bin/env bash
# Packs the built files for machines of this type: the program, the C library with its header and examples, the Python package,
# the mount, manual pages, completions, the guides, how to install them, the notices of the linked code, the commit with its gate
# result, and the checksums of the files.
#
#   tools/dist.sh [TO]              into one archive, by default out/jiponuwha-COMMIT-KIND.tar.gz
#   tools/dist.sh --debian [TO]     into Debian packages, in the directory TO, by default out/debian, with INSTALL.md beside them
#
# The script builds only the mount, where libfuse 3 is installed, and packs only a proved program and a proved library, so run
# `./prove` or `./test` first. GATE is a file with the output of `./test`, by default out/test.log. LIBRARY is another directory with the library, as
# bindings/c/build.sh makes it. PROGRAM is another program. SOURCE_DATE_EPOCH is the time of the files, by default that of the
# commit. The same commit gives the same bytes.
set -euo pipefail
top=$(cd "$(dirname "$0")/.." && pwd)
room=$(mktemp -d)
trap 'rm -rf "$room"' EXIT
program=${PROGRAM:-$top/crates/adf_serve/out/adf_serve}
archive=$top/crates/adf_c/out/libadf_c.a
gate=${GATE:-$top/out/test.log}
rt=$(command -v rt) || { echo "dist.sh: the Rattle kit's command 'rt' is not on the path" >&2; exit 2; }
commit=$(git -C "$top" rev-parse --short=12 HEAD)
kind=$(uname -s | tr '[:upper:]' '[:lower:]')-$(uname -m)
name=jiponuwha-$commit-$kind
debian=false
if [ "${1:-}" = --debian ]; then
    debian=true
    shift
    to=$(realpath -m "${1:-$top/out/debian}")
else
    to=$(realpath -m "${1:-$top/out/$name.tar.gz}")
fi
dist=$room/$name
export SOURCE_DATE_EPOCH="${SOURCE_DATE_EPOCH:-$(git -C "$top" log -1 --format=%ct)}"

# need FILE WHAT: fails if the file does not exist.
need() { [ -e "$1" ] || { echo "dist.sh: there is no $1; $2" >&2; exit 2; }; }

# is_current FILE OPTION..: fails if a built file is not proved, or not of the present sources.
is_current() {
    local file=$1
    shift
    "$top/tools/sources" "$@" current "$file" src specs proofs ||
        { echo "dist.sh: $file is not proved, or is not of these sources; ./prove makes it" >&2; exit 2; }
}

# The library, with a pkg-config file that works wherever the archive is unpacked. tools/wheel refuses one that is not proved.
library() {
    mkdir -p "$dist/lib" "$dist/include"
    if [ -n "${LIBRARY:-}" ]; then
        cp -r "$LIBRARY/lib/." "$dist/lib/"
        cp -r "$LIBRARY/include/." "$dist/include/"
        mkdir -p "$dist/share"
        [ ! -d "$LIBRARY/share/jiponuwha" ] || cp -r "$LIBRARY/share/jiponuwha" "$dist/share/"
    else
        "$top/bindings/c/build.sh" --built "$dist"
    fi
    # shellcheck disable=SC2016 # pkg-config reads the name
    sed -i 's|^prefix=.*|prefix=${pcfiledir}/../..|' "$dist"/lib/pkgconfig/*.pc
}

# The Python package, as a wheel with the library in it.
package() { "$top/tools/wheel" "$dist" "$dist/share/jiponuwha" >/dev/null; }

# The mount with its page and completions, if the machine has libfuse 3.
mount() {
    if pkg-config --exists fuse3; then
        "$top/bindings/fuse/build.sh" "$dist/bin/adf_mount" "$dist"
    else
        rm "$dist/share/man/man1/adf_mount.1.gz" "$dist"/share/*/*/{adf_mount,_adf_mount,adf_mount.fish}
        echo 'dist.sh: without adf_mount, since libfuse 3 is not there (Debian: libfuse3-dev, pkgconf)' >&2
    fi
}

pages() {
    local page
    mkdir -p "$dist/share/man/man1" "$dist/share/doc/jiponuwha/examples/c"
    cp "$top"/examples/c/*.c "$dist/share/doc/jiponuwha/examples/c/"
    for page in "$top"/docs/*.1; do gzip -9n <"$page" >"$dist/share/man/man1/${page##*/}.gz"; done
    "$top/tools/guides.py" "$dist/share/doc/jiponuwha"
    cp "$top/docs/package/INSTALL.md" "$dist/"
}

completions() {
    "$top/tools/completions/make" "$room/completions"
    mkdir -p "$dist/share/bash-completion/completions" "$dist/share/zsh/site-functions" "$dist/share/fish/vendor_completions.d"
    cp "$room/completions/bash/"* "$dist/share/bash-completion/completions/"
    cp "$room/completions/zsh/"* "$dist/share/zsh/site-functions/"
    cp "$room/completions/fish/"* "$dist/share/fish/vendor_completions.d/"
}

build_file() {
    echo "commit $(git -C "$top" rev-parse HEAD)"
    [ -z "$(git -C "$top" status --porcelain --untracked-files=no)" ] || echo 'with changes that are in no commit'
    echo "kit $("$rt" version)"
    echo "machine $kind"
    if [ -f "$gate" ]; then echo "gate $(tail -n 1 "$gate")"; else echo 'gate not told'; fi
}

need "$program" './prove makes it'
is_current "$program"
[ -n "${LIBRARY:-}" ] || { need "$archive" './prove makes it' && is_current "$archive" --library; }
mkdir -p "$dist/bin" "$(dirname "$to")"
install -m 755 "$program" "$dist/bin/adf_serve"
library
package
pages
completions
mount
"$top/tools/notices.py" "$dist/share/doc/jiponuwha"
build_file >"$dist/BUILD"
(cd "$dist" && find . -type f -printf '%P\n' | sort | tee "$room/files" | xargs -d '\n' sha256sum >"$room/sums")
cp "$room/sums" "$dist/SHA256SUMS"
if $debian; then
    "$top/tools/debian" "$dist" "$to"
    cp "$dist/INSTALL.md" "$to/"
else
    tar -C "$room" --sort=name --owner=0 --group=0 --numeric-owner --mtime="@$SOURCE_DATE_EPOCH" -cf - "$name" | gzip -9n >"$to"
    echo "$to"
fi
