#!/bin/sh
# Times `ofswitch replay` on an event file of 200,000 frames that go from port 1 to port 2, and prints the rows per second.
#   bench/replay.sh [FRAMES]            builds the program if it is missing or was built from other sources
#   OFSWITCH=PROGRAM bench/replay.sh    times that program as it is
top=$(cd "$(dirname "$0")/.." && pwd) || exit 3
frames=${1:-200000}
program=$OFSWITCH
if [ -z "$program" ]; then
    "$top/ofswitch" --help >/dev/null || exit 3
    program=$top/crates/ofswitch/out/ofswitch
fi
folder=$(mktemp -d) || exit 3
trap 'rm -rf "$folder"' EXIT

# TCP segments from 10.0.0.1 to 10.0.0.2 over IPv4, 60 bytes each; their source ports are all that changes.
awk -v frames="$frames" 'BEGIN {
    print "port add 1 0200000000a1 p1 up"
    print "port add 2 0200000000a2 p2 up"
    print "connect"
    print "c 0400000800000001"
    printf "c 040e005800000002%032d000000000000000a", 0
    printf "ffffffffffffffffffffffff000000000001000c8000000400000001000000000004001800000000"
    print "00000010000000020000000000000000"
    for (i = 0; i < frames; i++)
        printf "f 1 020000000002020000000001080045000028000140004006%s%04x%s\n",
            "26cd0a0000010a000002", 1024 + i % 60000, "005000000001000000015010200000000000000000000000"
}' >"$folder/frames.events" || exit 3

start=$(date +%s%N)
"$program" replay "$folder/frames.events" >"$folder/effects" || exit 1
end=$(date +%s%N)

sent=$(grep -c '^s 2 ' "$folder/effects")
awk -v rows="$((frames + 5))" -v sent="$sent" -v nanos="$((end - start))" 'BEGIN {
    printf "replay: %d rows, %d frames sent, in %.3f s: %.0f rows/s\n", rows, sent, nanos / 1e9, rows * 1e9 / nanos
}'
[ "$sent" -eq "$frames" ]
