#!/bin/sh
# Prints what `adf_serve check` takes for a directory of full floppies, half of them of each kind, with 1, 2 and 4 jobs, by
# lines and as JSON, beside `cat` of the same files: seconds of the clock and of the processors, and the most memory. Each
# row is the best of 3 runs by the clock, with the files in the system's cache. A word is how many floppies, 1,000 if it is
# left out; they take 0.9 MB each in the directory for files that go. It needs the machine's rustc and cc beside the kit.
. "$(dirname "$0")/setup.sh"
floppies=${1:-1000}
serve=$(program adf_serve)
tools full_image
"${CC:-cc}" -O2 -std=c11 -Wall -Wextra -Wpedantic -Werror -o "$room/measured" "$here/measured.c"
build adf_serve

for kind in ofs ffs; do "$room/full_image" $kind 1760 "$room/$kind.adf" > /dev/null; done
mkdir "$room/many"
n=0
while [ $n -lt "$floppies" ]; do
    cp "$room/$([ $((n % 2)) = 0 ] && echo ofs || echo ffs).adf" "$room/many/$n.adf"
    n=$((n + 1))
done

# NAME COMMAND..: a row of the table. The command writes to a file, whose lines are counted.
row() {
    name=$1
    shift
    for run in 1 2 3; do "$room/measured" "$room/told" "$@" || exit 1; done > "$room/figures"
    sort -n "$room/figures" | awk -v name="$name" 'NR == 1 { printf "%-26s %10.2f %12.2f %12.1f\n", name, $1, $2, $3 / 1024 }'
}

printf '%-26s %10s %12s %12s\n' "$floppies floppies" seconds processors 'memory (MB)'
row cat sh -c 'exec cat "$0"/*' "$room/many"
for jobs in 1 2 4; do
    row "check --jobs $jobs" "$serve" check --jobs $jobs "$room/many"
    [ "$(wc -l < "$room/told")" = "$floppies" ] || { echo "not $floppies lines" >&2; exit 1; }
done
row 'check --json --jobs 4' "$serve" check --json --jobs 4 "$room/many"
[ "$(wc -l < "$room/told")" = "$floppies" ] || { echo "not $floppies objects" >&2; exit 1; }
