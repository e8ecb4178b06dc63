#!/bin/sh
# Prints one table of files that go out of an image of a high-density floppy and into one: `adf_serve extract` beside `unadf`
# where the machine has it, and `adf_serve add` beside ADFlib in process (built from Debian's source of `unadf`, which is
# fetched). 1,000 files of 500 bytes stand in ten directories. All is done in memory, below /dev/shm. Each time is the best of
# 5 runs, with the start of the program; each run begins with an empty directory or a blank image. It needs the machine's
# rustc and cc, `apt-get`, and dpkg-source of Debian's dpkg-dev.
TMPDIR=/dev/shm
export TMPDIR
. "$(dirname "$0")/setup.sh"
runs=5
serve=$(program adf_serve)
tools best_of
build adf_serve
. "$here/adflib.sh"

# ADFlib takes a name that begins with /dev/ for a drive, so the names are those from the room.
cd "$room"
mkdir in
for dir in 0 1 2 3 4 5 6 7 8 9; do
    mkdir "in/d$dir"
    for n in $(seq 100); do
        head -c 500 /dev/zero | tr '\0' "$dir" > "in/d$dir/file$n"
    done
done

# What a run begins with: an empty directory, and the blank image.
start() {
    rm -rf out
    mkdir out
    cp blank.adf image.adf
}

# The least microseconds of a command, with its start.
best() {
    for run in $(seq $runs); do
        start
        "$room/best_of" 1 "$@" 2> /dev/null
    done | sort -n | head -1
}

# Runs a command; where it fails, what it says is shown.
run() { "$@" > written 2>&1 || { cat written >&2; exit 1; }; }

# That a command writes the files out as they went in.
expect_files() {
    start
    run "$@"
    diff -r in out || { echo "'$*' has written others" >&2; exit 1; }
}

# That the files are in the image, by the words of this program.
expect_image() {
    start
    run "$@"
    [ "$("$serve" check image.adf)" = ok ] || { echo "'$*' left an image that is not accepted" >&2; exit 1; }
    "$serve" extract --to out image.adf
    diff -r in out || { echo "'$*' has put in others" >&2; exit 1; }
}

row() { printf '%-4s %-22s %10s %10s %10s\n' "$@"; }

echo "Microseconds, best of $runs, with the start of the program."
echo
row kind what adf_serve unadf ADFlib
for kind in ofs ffs; do
    "$serve" blank $([ $kind = ffs ] && echo --ffs) --hd Bench blank.adf
    expect_image "$serve" add image.adf in/*
    cp image.adf full.adf
    expect_image "$room/peer" add image.adf in
    expect_files "$serve" extract --to out full.adf
    unadf=-
    if command -v unadf > /dev/null; then
        expect_files unadf full.adf -d out
        unadf=$(best unadf full.adf -d out)
    fi
    row $kind '1,000 files out' "$(best "$serve" extract --to out full.adf)" "$unadf" -
    row $kind '1,000 files in' "$(best "$serve" add image.adf in/*)" - \
        "$(best "$room/peer" add image.adf in)"
done
