#!/bin/sh
# Prints how long a directory takes to fill with files of no bytes: `adf_serve add` beside ADFlib in process (built from Debian's
# source of `unadf`, which is fetched). In one row all names fall into one hash slot, in the other into all slots alike. The image
# has 101,602 blocks, and all is done in memory, below /dev/shm. Each time is the best of 3 runs, with the start of the program.
# It needs the machine's rustc, cc and python3, `apt-get`, and dpkg-source of Debian's dpkg-dev.
TMPDIR=/dev/shm
export TMPDIR
. "$(dirname "$0")/setup.sh"
runs=3
serve=$(program adf_serve)
tools best_of
build adf_serve
. "$here/adflib.sh"

# ADFlib takes a name that begins with /dev/ for a drive, so the names are those from the room.
cd "$room"

# Makes a directory with the first files of a generator of names in tests/harmful.py.
draw() {
    mkdir "$1"
    PYTHONDONTWRITEBYTECODE=1 PYTHONPATH="$here/../tests" python3 - "$1" "$2" "$3" << 'END'
import itertools
import sys
import harmful
into, names, count = sys.argv[1], getattr(harmful, sys.argv[2]), int(sys.argv[3])
for name in itertools.islice(names(), count):
    open(into + "/" + name.decode(), "wb").close()
END
}

# The least milliseconds of a command over a blank image, with its start.
best() {
    for run in $(seq $runs); do
        cp blank.adf image.adf
        "$room/best_of" 1 "$@" 2> /dev/null
    done | sort -n | head -1 | awk '{ printf "%.1f", $1 / 1000 }'
}

row() { printf '%-12s %6s %12s %12s\n' "$@"; }

"$serve" blank --ffs --blocks 101602 Bench blank.adf
echo "Milliseconds, best of $runs, with the start of the program."
echo
row names files adf_serve ADFlib
for count in 5000 10000 20000; do
    for names in names_of_one_chain long_names; do
        draw in $names $count
        row "$([ $names = long_names ] && echo 'all slots' || echo 'one slot')" $count \
            "$(best "$serve" add image.adf in)" "$(best "$room/peer" add image.adf in)"
        rm -rf in
    done
done
