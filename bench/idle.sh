#!/bin/sh
# Prints the wall seconds and the processor seconds of 8 clients in threads of their own that each wait a second before each
# of 3 round trips through the running port, with the handler and the start of the program. It needs cc.
. "$(dirname "$0")/setup.sh"
bench=$(program bench)
build bench idle 1
cc -O2 -std=c11 -o "$room/measured" "$here/measured.c"
"$room/measured" "$room/told" "$bench" idle 3 2> "$room/figures" | awk '{ printf "8 clients, 3 round trips each: %s wall seconds, %s processor seconds\n", $1, $2 }'
grep -qx 'idle 8: 24 right replies' "$room/told" || { cat "$room/told" >&2; exit 1; }
