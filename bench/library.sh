#!/bin/sh
# Prints how many packets a second a C program is served by `jip_serve` of the library for C (bench/library_packets.c), static
# and shared, beside the handler alone in Rattle (the program `bench`) with the same packets, and two ratios: the static library
# to the handler, and the shared library to the static one. The packets are rounds of LOCATE_OBJECT, EXAMINE_OBJECT, EXAMINE_NEXT,
# WRITE, SEEK and READ of 512 bytes, and FREE_LOCK, made as they are served, with more and more locks held and entries in the
# directory. The three run in turn, and each time is the best of RUNS (15). It needs the machine's cc. LIBRARY names a folder with
# the library as bindings/c/build.sh makes it, if it is not to be made. Without the program `bench` only the two are compared, if
# BUILT is set.
. "$(dirname "$0")/setup.sh"
runs=${RUNS:-15}
rounds=20000
bench=$(program bench)
[ -n "$BUILT" ] || build bench packets
over_library library_packets
"${CC:-cc}" -O2 -std=c11 -I "$library/include" -o "$room/shared_packets" "$here/library_packets.c" \
    "$library/lib/libjiponuwha.so.1" -Wl,-rpath,"$library/lib"

# The microseconds of the handler alone, after the number of packets and before the word that says what was measured.
alone() {
    if [ ! -x "$bench" ]; then echo "$((7 * rounds)) 0 -"; return; fi
    "$bench" packets $rounds $1 2> "$room/alone" > "$room/told"
    grep -q "^$((7 * rounds)) replies of success$" "$room/told" || { cat "$room/told" >&2; exit 1; }
    cat "$room/alone"
}

echo "locks entries  handler alone     static     shared  static:alone  shared:static  (packets a second)"
for counts in "0 10" "10 10" "1000 10" "0 1000"; do
    : > "$room/figures"
    for run in $(seq $runs); do
        echo "$(alone "$counts") $("$room/library_packets" $rounds $counts) $("$room/shared_packets" $rounds $counts)" >> "$room/figures"
    done
    awk -v counts="$counts" '
        $1 != $4 || $1 != $6 { print "not the same packets" > "/dev/stderr"; exit 1 }
        NR == 1 || $2 < alone { alone = $2 }
        NR == 1 || $5 < static { static = $5 }
        NR == 1 || $7 < shared { shared = $7 }
        function rate(took) { return took > 0 ? $1 * 1e6 / took : 0 }
        END { split(counts, c, " "); printf "%5d %7d  %13.0f  %9.0f  %9.0f  %12.2f  %13.3f\n", c[1], c[2], rate(alone), rate(static), rate(shared), alone / static, static / shared }' "$room/figures"
done
