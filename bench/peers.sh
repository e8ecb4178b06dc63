#!/bin/sh
# Prints one table of the program and of the library for C (bench/library_volume.c) beside ADFlib in process (built from
# Debian's source of `unadf`, which is fetched), `unadf` where the machine has it, and two limits: `cat` of the image's file, and
# a program that reads it and adds up each block, the least that a check can do (`bench/summed.rs`). The rows are full images
# that are listed, checked and read, files that are made in ten directories and in the root, and one file of 819,200 bytes, in
# both kinds. The argument is the size of the full images in blocks, 1,760 if there is none. Each time is the best of 5 runs.
# It needs the machine's rustc and cc, `apt-get`, and dpkg-source of Debian's dpkg-dev; LIBRARY names a folder with the library
# as bindings/c/build.sh makes it, if it is not to be made.
. "$(dirname "$0")/setup.sh"
runs=5
blocks=${1:-1760}
serve=$(program adf_serve)
tools full_image best_of summed
build adf_serve
over_library library_volume
volume=$room/library_volume
. "$here/adflib.sh"

# Microseconds, with the start of the command.
best() { "$room/best_of" $runs "$@" 2> /dev/null; }

# The least of each figure that a command tells on standard error in a line that begins with this word, in some runs.
least() {
    word=$1
    shift
    for run in $(seq $runs); do "$@" 2>&1 > /dev/null | grep "^$word "; done |
        awk '{ for (i = 2; i <= NF; i++) if (NR == 1 || $i < best[i]) best[i] = $i }
            END { for (i = 2; i <= NF; i++) printf "%d ", best[i] }'
}

row() { printf '%-4s %-34s %10s %10s %10s %10s %10s %10s\n' "$@"; }

# The figure before the first, and what the second took behind the first.
first() { echo "$1"; }
second() { echo "$(($2 - $1))"; }

echo "Microseconds, best of $runs; full images of $blocks blocks with the start of the program, changes in a volume's memory"
echo "(the library) or image file (ADFlib) without it."
echo
row kind what adf_serve library ADFlib unadf cat summed
for kind in ofs ffs; do
    file=$room/$kind.adf
    "$room/full_image" $kind "$blocks" "$file" > "$room/written"
    for told in "$("$volume" read "$file" 2> /dev/null)" "$("$room/peer" read "$file" 2> /dev/null)"; do
        [ "$told" = "$(cat "$room/written")" ] || { echo "$file: '$told' were read" >&2; exit 1; }
    done
    unadf=-
    if command -v unadf > /dev/null; then unadf=$(best unadf -lr "$file"); fi
    cat=$(best cat "$file")
    summed=$(best "$room/summed" "$file")
    row $kind list "$(best "$serve" list "$file")" - "$(best "$room/peer" list "$file")" "$unadf" "$cat" "$summed"
    row $kind check "$(best "$serve" check "$file")" - - - "$cat" "$summed"
    row $kind 'read of all files' - "$(best "$volume" read "$file")" "$(best "$room/peer" read "$file")" - "$cat" "$summed"
    for dirs in 10 0; do
        where=$([ $dirs = 0 ] && echo 'in the root' || echo 'in ten directories')
        row $kind "1,000 files made $where" - "$(first $(least small "$volume" changes $kind 1000 $dirs))" \
            "$(first $(least small "$room/peer" changes "$room/new" $kind 1000 $dirs))" - - -
    done
    ours=$(least large "$volume" changes $kind 20 2)
    theirs=$(least large "$room/peer" changes "$room/new" $kind 20 2)
    row $kind '819,200 bytes in one call' - "$(first $ours)" "$(first $theirs)" - - -
    row $kind '819,200 bytes in calls of 512' - "$(second $ours)" "$(second $theirs)" - - -
done
