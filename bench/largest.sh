#!/bin/sh
# Prints how long changes of a volume of 101,602 blocks take, in memory and without the start of the program, in both kinds:
# a file of 50,000,000 bytes (47,000,000 in OFS) that is written in one call and in calls of 512 bytes, and 50,000 files of
# 100 bytes, in 500 directories one after another, until the volume is nearly full. A C program does it with packets, by the
# library for C (bench/library_volume.c). Each time is the best of 5 runs. It needs the machine's cc; LIBRARY names a folder with
# the library as bindings/c/build.sh makes it, if it is not to be made.
. "$(dirname "$0")/setup.sh"
runs=5
over_library library_volume

for kind in ofs ffs; do
    bytes=$([ $kind = ofs ] && echo 47000000 || echo 50000000)
    : > "$room/figures"
    for run in $(seq $runs); do
        "$room/library_volume" largest $kind $bytes 500 2>> "$room/figures" > "$room/told"
        grep -q "^$bytes bytes; 500 directories; 100526 blocks in use$" "$room/told" || { cat "$room/told" >&2; exit 1; }
    done
    awk -v kind=$kind -v bytes=$bytes '
        function least(what, micros) { if (!(what in best) || micros < best[what]) best[what] = micros }
        $1 == "file" { least("once", $2); least("pieces", $3); before = 0 }
        $1 == "filled" { least($2, $3 - before); before = $3; if (!($2 in seen)) { seen[$2] = 1; order[++parts] = $2 } }
        END {
            printf "%s: one file: %.0f MB a second in one call, %.0f in calls of 512 bytes, ratio %.2f\n", kind, bytes / best["once"], bytes / best["pieces"], best["once"] / best["pieces"]
            printf "%s: microseconds for each small file, by tenths:", kind
            for (i = 1; i <= parts; i++) printf " %.2f", best[order[i]] / 5000
            print ""
        }' "$room/figures"
done
