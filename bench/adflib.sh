# The driver over ADFlib as `peer` in the room, for the benchmarks that read this in behind setup.sh. ADFlib is built from
# Debian's source of `unadf`, by a list of packages of its own.
build_peer() {
    mkdir -p "$room/apt/lists/partial" "$room/adflib"
    . /etc/os-release
    echo "deb-src http://deb.debian.org/debian $VERSION_CODENAME main" > "$room/apt/sources"
    set -- -o "Dir::Etc::sourcelist=$room/apt/sources" -o Dir::Etc::sourceparts=/dev/null -o "Dir::State::lists=$room/apt/lists"
    apt-get "$@" update
    (cd "$room/adflib" && apt-get "$@" source unadf && make -C unadf-*/Lib)
    cc -O2 -std=c11 -w -I "$(echo "$room"/adflib/unadf-*/Lib)" -I "$(echo "$room"/adflib/unadf-*/Lib/Generic)" \
        -o "$room/peer" "$here/adflib_peer.c" "$(echo "$room"/adflib/unadf-*/Lib/libadf.a)"
}
build_peer > "$room/log" 2>&1 || { cat "$room/log" >&2; exit 1; }
