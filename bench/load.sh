#!/usr/bin/env bash
# Measures `load`: a day of an office with so many hosts, on one lane and four workers.
# Usage: bench/load.sh [HOSTS]; build the program first (`rt run` in crates/switch_run).
# Prints the seconds on the clock, the peak memory, the instructions of the whole day, and the functions that have most of them.
set -eu
cd "$(dirname "$0")/.."
hosts=${1:-120}
program=crates/switch_run/out/switch_run
[ -x "$program" ] || { echo "build the program first: (cd crates/switch_run && rt run)" >&2; exit 1; }
work=$(mktemp -d)
trap 'rm -rf "$work"' EXIT

controls=$((60 + 3 * hosts + 24 * (3600 + 2 * hosts)))
frames=$((264 * hosts))
wanted="load $hosts controls $controls data $frames forwarded $frames sessions $hosts"

start=$(date +%s.%N)
/usr/bin/time -f 'peak memory %M KB' "$program" load "$hosts" > "$work/out" 2> "$work/memory"
end=$(date +%s.%N)
[ "$(cat "$work/out")" = "$wanted" ] || { echo "wanted: $wanted; written: $(cat "$work/out")" >&2; exit 1; }
awk -v s="$start" -v e="$end" 'BEGIN { printf "a day: %.2f s\n", e - s }'
tail -1 "$work/memory"

valgrind --tool=callgrind --callgrind-out-file="$work/callgrind" "$program" load "$hosts" > "$work/out" 2> "$work/log"
awk '/Collected/ { printf "instructions of a day: %.2f G\n", $4 / 1e9 }' "$work/log"
callgrind_annotate --threshold=80 "$work/callgrind" | awk '/^ *[0-9,]+ \(/ { print; if (++n == 12) exit }'
[ -z "${KEEP:-}" ] || cp "$work/callgrind" "$KEEP"
