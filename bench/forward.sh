#!/usr/bin/env bash
# Counts the instructions of what goes on at each control event and at each data frame: an event of 27 octets kept in the
# journal, a change of no item published, a frame of 60 octets decided on by the table, and one forwarded by a worker, both from a
# port with sixteen hosts, of which the last sent it.
# Usage: bench/forward.sh; build the program first (`rt run` in crates/forward_bench).
# Each is the difference of two counts of callgrind; the loop and the call are in it. Then the memory of the longest journal.
set -eu
cd "$(dirname "$0")/.."
program=crates/forward_bench/out/forward_bench
[ -x "$program" ] || { echo "build the program first: (cd crates/forward_bench && rt run)" >&2; exit 1; }
work=$(mktemp -d)
trap 'rm -rf "$work"' EXIT

instructions() {
    valgrind --tool=callgrind --callgrind-out-file="$work/out" "$program" "$1" "$2" > "$work/text" 2> "$work/log"
    awk '/Collected/ { print $4 }' "$work/log"
}

for what in keep post decide forward; do
    few=$(instructions "$what" 1000)
    many=$(instructions "$what" 11000)
    awk -v w="$what" -v f="$few" -v m="$many" 'BEGIN { printf "%s: %.0f instructions\n", w, (m - f) / 10000 }'
done
/usr/bin/time -f 'peak memory of a journal of 1,048,576 events of 27 octets: %M KB' "$program" keep 1048576
