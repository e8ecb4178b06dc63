#!/bin/sh
# Prints round trips a second through the port for 1, 2, 4 and 8 client threads, and beside them the same over channels of
# Rust's own library and of `crossbeam`, once taken by `recv`, which sleeps where nothing comes, and once by looks with a yield
# between them; the best of five runs of each. The start of the threads is in each time, and in the port's its opening. It needs
# the machine's rustc beside the kit, and for crossbeam its cargo and Debian's package librust-crossbeam-channel-dev.
. "$(dirname "$0")/setup.sh"
bench=$(program bench)
build bench port 1

# The peer with both channels where crossbeam is there, else with Rust's own alone.
registry=/usr/share/cargo/registry
if ls -d $registry/crossbeam-channel-* > /dev/null 2>&1 && command -v cargo > /dev/null; then
    mkdir -p "$room/peer/src" "$room/peer/.cargo"
    cp "$here/port_peer.rs" "$room/peer/src/main.rs"
    printf '[package]\nname = "port_peer"\nversion = "0.1.0"\nedition = "2021"\n[dependencies]\ncrossbeam-channel = "0.5"\n' > "$room/peer/Cargo.toml"
    printf '[source.crates-io]\nreplace-with = "debian"\n[source.debian]\ndirectory = "%s"\n' $registry > "$room/peer/.cargo/config.toml"
    (cd "$room/peer" && RUSTFLAGS='--cfg crossbeam -Awarnings' cargo build --release --offline > "$room/log" 2>&1) || { cat "$room/log" >&2; exit 1; }
    cp "$room/peer/target/release/port_peer" "$room/port_peer"
else
    RUSTFLAGS= rustc --edition 2021 -O -Awarnings -o "$room/port_peer" "$here/port_peer.rs"
fi

for run in 1 2 3 4 5; do
    "$bench" port 100000 2>> "$room/told" > "$room/replies"
    [ "$(cat "$room/replies")" = "$(for n in 1 2 4 8; do echo "port $n: ${n}00000 right replies"; done)" ] || { cat "$room/replies" >&2; exit 1; }
    "$room/port_peer" >> "$room/told"
done
awk '{ if (!(($1, $2) in best) || $3 > best[$1, $2]) best[$1, $2] = $3 }
    END {
        many = split("port own-waits own-yields crossbeam-waits crossbeam-yields", who, " ")
        printf "clients"
        for (k = 1; k <= many; k++) printf " %16s", who[k]
        print ""
        for (n = 1; n <= 8; n *= 2) {
            printf "%7d", n
            for (k = 1; k <= many; k++) printf " %16s", ((who[k], n) in best) ? best[who[k], n] : "-"
            print ""
        }
    }' "$room/told"
