#!/bin/sh
# Prints how long changes of a volume take, in memory and without the start of the program: files of 100 bytes that are made,
# read and removed, in ten directories and in the root alone, and a file of 819,200 bytes that is written in one call and in
# calls of 512 bytes, read and removed. A C program does it with packets, by the library for C (bench/library_volume.c), so that
# a file is opened, written and closed by three packets. Each time is the best of 5 runs. It needs the machine's cc; LIBRARY
# names a folder with the library as bindings/c/build.sh makes it, if it is not to be made.
. "$(dirname "$0")/setup.sh"
runs=5
over_library library_volume

for counts in "1000 10" "500 0" "1000 0" "2000 0" "4000 0" "8000 0"; do
    for run in $(seq $runs); do
        "$room/library_volume" changes ffs $counts 2>&1 > "$room/told" | sed "s/^/$counts /" >> "$room/figures"
        grep -q " 819200 bytes; 6 blocks left in use$" "$room/told" || { cat "$room/told" >&2; exit 1; }
    done
done

# The figures of a run: the files, the directories, which files, and the microseconds at the end of each step.
awk 'function least(what, micros) { if (!(what in best) || micros < best[what]) best[what] = micros }
    $3 == "small" {
        counts = $1 " " $2
        if (!(counts in files)) { files[counts] = $1; dirs[counts] = $2; order[++rows] = counts }
        least(counts " made", $4); least(counts " read", $5 - $4); least(counts " removed", $6 - $5)
    }
    $3 == "large" { least("once", $4); least("pieces", $5 - $4); least("read", $6 - $5); least("removed", $7 - $6) }
    END {
        print "microseconds for each file of 100 bytes"
        print "files directories   made   read removed"
        for (i = 1; i <= rows; i++) {
            c = order[i]
            printf "%5d %11d %6.1f %6.1f %7.1f\n", files[c], dirs[c], best[c " made"] / files[c], best[c " read"] / files[c], best[c " removed"] / files[c]
        }
        print ""
        print "a file of 819,200 bytes, in millions of bytes a second"
        printf "written in one call %.1f, in calls of 512 bytes %.1f, read %.1f; two of them removed in %d microseconds\n", 819200 / best["once"], 819200 / best["pieces"], 819200 / best["read"], best["removed"]
    }' "$room/figures"
