#!/usr/bin/env bash
# Counts the instructions of one second, one Start and one copy of a session, in the states in which most sessions are.
# Usage: bench/session.sh; build the program first (`rt run` in crates/session_bench).
# Each is the difference of two counts of callgrind, over 960 sessions and ten rounds; the loop, the call and clearing the tray are in it.
set -eu
cd "$(dirname "$0")/.."
program=crates/session_bench/out/session_bench
[ -x "$program" ] || { echo "build the program first: (cd crates/session_bench && rt run)" >&2; exit 1; }
work=$(mktemp -d)
trap 'rm -rf "$work"' EXIT

instructions() {
    valgrind --tool=callgrind --callgrind-out-file="$work/out" "$program" "$1" "$2" "$3" > "$work/text" 2> "$work/log"
    awk '/Collected/ { print $4 }' "$work/log"
}

"$program"
for pair in "asked second" "served second" "admitted second" "asked start" "admitted start" "asked copy" "served copy" "admitted copy"; do
    set -- $pair
    few=$(instructions "$1" "$2" 0)
    many=$(instructions "$1" "$2" 10)
    awk -v p="$pair" -v f="$few" -v m="$many" 'BEGIN { printf "%s: %.0f instructions\n", p, (m - f) / 9600 }'
done
/usr/bin/time -f 'peak memory of 960 sessions %M KB' "$program" admitted second 10
