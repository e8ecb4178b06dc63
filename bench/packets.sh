#!/bin/sh
# Prints how many packets a second are served on one thread: rounds of LOCATE_OBJECT, EXAMINE_OBJECT, EXAMINE_NEXT, WRITE and
# READ of 512 bytes, SEEK and FREE_LOCK, by the handler alone and as steps of a port, each with its Put, Serve and Take. It
# says how that changes with the locks that are held meanwhile, and with the entries of the directory. Each time is the best
# of 5 runs, which has both. Packets and steps are made as it goes, each when the one before it is done.
. "$(dirname "$0")/setup.sh"
runs=5
rounds=20000
bench=$(program bench)
build bench packets

"$bench" packets 1 2> "$room/figures" | grep '^bytes'
echo "locks entries  handler alone  as steps of a port  ratio  (packets a second)"
for counts in "0 10" "10 10" "100 10" "1000 10" "0 100" "0 1000" "0 10000"; do
    : > "$room/figures"
    for run in $(seq $runs); do
        "$bench" packets $rounds $counts 2>> "$room/figures" > "$room/told"
        grep -q "^$((7 * rounds)) replies of success$" "$room/told" || { cat "$room/told" >&2; exit 1; }
    done
    awk -v counts="$counts" '
        NR == 1 || $2 < alone { alone = $2 }
        NR == 1 || $3 < steps { steps = $3 }
        END { split(counts, c, " "); printf "%5d %7d  %13.0f  %18.0f  %5.2f\n", c[1], c[2], $1 * 1e6 / alone, $1 * 1e6 / steps, alone / steps }' "$room/figures"
done
