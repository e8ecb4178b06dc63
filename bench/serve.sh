#!/bin/sh
# Prints how many packets a second `adf_serve serve` answers over a full floppy with 1, 2, 4 and 8 scripts, each a client on a
# thread of its own that waits for each reply, and the ratio to the same script without words, which is put, served and taken
# on one thread. A script has 100,000 packets: LOCATE_OBJECT, EXAMINE_OBJECT, INFO, SAME_LOCK and FREE_LOCK in turn, in lines
# so short that they fit into the longest script. Each time is the best of 5 runs, with the start of the program; the words
# may give another number of packets. It needs the machine's rustc beside the kit.
. "$(dirname "$0")/setup.sh"
runs=5
packets=${1:-100000}
serve=$(program adf_serve)
tools full_image best_of
build adf_serve

# The last line of a round names the reply to its LOCATE_OBJECT.
awk -v packets="$packets" 'BEGIN {
    split("locate 0 0 \"\"|examine 0|info 0|same 0 0", line, "|")
    for (n = 0; n < packets; n++) print n % 5 == 4 ? "free $" (n - 3) : line[n % 5 + 1]
}' > "$room/script"
image=$room/full.adf
"$room/full_image" ffs 1760 "$image" > /dev/null

# The replies of so many clients, each of success.
expect() {
    awk -v wanted=$((packets * $1)) '$3 != 0 { bad++ } END { exit NR != wanted || bad }' "$room/told" ||
        { echo "$1 clients: not $((packets * $1)) replies of success" >&2; exit 1; }
}

"$serve" < "$room/script" > "$room/told"
expect 1
alone=$("$room/best_of" $runs sh -c 'exec "$0" < "$1"' "$serve" "$room/script")
echo "without words: $(awk -v m="$alone" -v p="$packets" 'BEGIN { printf "%d", p * 1e6 / m }') packets a second"
scripts=
count=0
for clients in 1 2 4 8; do
    while [ $count -lt $clients ]; do
        scripts="$scripts $room/script"
        count=$((count + 1))
    done
    "$serve" serve "$image" $scripts > "$room/told"
    expect $clients
    micros=$("$room/best_of" $runs "$serve" serve "$image" $scripts)
    awk -v n=$clients -v m="$micros" -v p="$packets" -v alone="$alone" \
        'BEGIN { printf "%d scripts: %d packets a second, ratio %.2f\n", n, n * p * 1e6 / m, n * alone / m }'
done
