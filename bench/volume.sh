#!/bin/sh
# Prints how long it takes to check, to list and to read a full image, beside `cat` of its file, a read of it whole into
# memory and, where the machine has it, `unadf -lr`. A C program reads all files, by the library for C
# (bench/library_volume.c). The arguments are sizes in blocks: 1,760, 16,000 and 101,602 if there are none. A second table has
# directories with many entries: 1,000 files in the root of a high-density floppy, and 20,000 and 100,000 in that of the largest
# image. Each time is the best of 21 runs. It needs the machine's rustc and cc beside the kit; LIBRARY names a folder with the
# library as bindings/c/build.sh makes it, if it is not to be made.
. "$(dirname "$0")/setup.sh"
runs=21
serve=$(program adf_serve)
tools full_image best_of whole
build adf_serve
over_library library_volume

# Microseconds, with the start of the command.
best() { "$room/best_of" $runs "$@"; }

expect() { [ "$1" = "$2" ] || { echo "$file: '$1' where '$2' is expected" >&2; exit 1; }; }

for blocks in ${*:-1760 16000 101602}; do
    for kind in ofs ffs; do
        file=$room/$kind-$blocks.adf
        written=$("$room/full_image" "$kind" "$blocks" "$file")
        expect "$("$serve" check "$file")" ok
        for run in $(seq $runs); do
            expect "$("$room/library_volume" memory "$file" 2>> "$room/inside-$kind-$blocks")" "$written"
        done
        cat=$(best cat "$file")
        whole=$(best "$room/whole" "$file")
        check=$(best "$serve" check "$file")
        list=$(best "$serve" list "$file")
        read=$(best "$room/library_volume" read "$file" 2> /dev/null)
        unadf=-
        if command -v unadf > /dev/null; then unadf=$(best unadf -lr "$file" 2> /dev/null); fi
        inside=$(awk 'function least(what, micros) { if (!(what in best) || micros < best[what]) best[what] = micros }
            $1 == "memory" { least("copy", $2); least("open", $3); least("read", $4 - $3) }
            END { print best["copy"], best["open"], best["read"] }' "$room/inside-$kind-$blocks")
        echo "$blocks $kind $cat $whole $check $list $read $unadf $inside" >> "$room/table"
        rm "$file"
    done
done

small=$room/small.adf
"$room/full_image" ffs 16 "$small" > /dev/null
echo "Milliseconds, with the start of the program. For an image of 16 blocks that is $(best cat "$small") microseconds of cat,"
echo "and $(best "$serve" check "$small") of adf_serve check. How many times those of cat;"
echo "and in memory, the nanoseconds for each block of a copy, of an open (a copy and the check), and of the reading of all files."
echo
awk 'BEGIN { print "blocks kind     cat   whole   check    list    read   unadf   whole check  list  read    copy   open   read" }
    function ms(micros) { return micros == "-" ? "-" : sprintf("%.2f", micros / 1000) }
    {
        printf "%6d %4s %7s %7s %7s %7s %7s %7s", $1, $2, ms($3), ms($4), ms($5), ms($6), ms($7), ms($8)
        printf "  %6.1f %5.1f %5.1f %5.1f", $4 / $3, $5 / $3, $6 / $3, $7 / $3
        printf "  %6.0f %6.0f %6.0f\n", 1000 * $9 / $1, 1000 * $10 / $1, 1000 * $11 / $1
        if ($1 == 1760) floppy = floppy sprintf(" %s ms (%s)", ms($5), $2)
    }
    END { if (floppy) print "\nadf_serve check of a double-density floppy, with its start:" floppy }' "$room/table"

echo
echo "Directories with many entries, in the same way."
echo
echo "blocks entries     cat   check    list   unadf  list to check"
for counts in "3520 1000" "101602 20000" "101602 100000"; do
    set -- $counts
    file=$room/entries.adf
    "$room/full_image" ffs "$1" "$file" "$2" > /dev/null
    [ "$("$serve" list "$file" | wc -l)" = $(($2 + 1)) ] || { echo "$2 entries are not listed" >&2; exit 1; }
    unadf=
    if command -v unadf > /dev/null && [ "$2" = 1000 ]; then unadf=$(best unadf -lr "$file" 2> /dev/null); fi
    echo "$counts $(best cat "$file") $(best "$serve" check "$file") $(best "$serve" list "$file") $unadf"
done | awk '{ unadf = NF == 6 ? sprintf("%.2f", $6 / 1000) : "-"
    printf "%6d %7d %7.2f %7.2f %7.2f %7s  %13.2f\n", $1, $2, $3 / 1000, $4 / 1000, $5 / 1000, unadf, $5 / $4 }'
