#!/usr/bin/env bash
# Measures `replay` over data frames on a port where every host is authorised.
# Usage: bench/replay.sh [FRAMES]; build the program first (`rt run` in crates/switch_run).
# Prints octets of input per second, the instructions per octet on a tenth of the trace, and the peak memory.
set -eu
cd "$(dirname "$0")/.."
frames=${1:-200000}
program=crates/switch_run/out/switch_run
[ -x "$program" ] || { echo "build the program first: (cd crates/switch_run && rt run)" >&2; exit 1; }
work=$(mktemp -d)
trap 'rm -rf "$work"' EXIT

trace() {
    printf 'server 192.0.2.20 1812 736563726574\nport 2 20 force-auth\nbegin\nlink 2 up\n'
    awk -v frames="$1" 'BEGIN {
        for (i = 0; i < 46; i++) body = body sprintf("%02x", i)
        for (i = 1; i <= frames; i++) {
            printf "frame 2 ffffffffffff0200%08x0800%s\n", i, body
            if (i % 1000 == 0) print "sync"
        }
    }'
}

trace "$frames" > "$work/trace"
trace $((frames / 10)) > "$work/tenth"
octets=$(stat -c %s "$work/trace")
tenth=$(stat -c %s "$work/tenth")

start=$(date +%s.%N)
"$program" replay < "$work/trace" > "$work/out"
end=$(date +%s.%N)
forwarded=$(grep -c ' forward 0 20 ' "$work/out")
[ "$forwarded" = "$frames" ] || { echo "forwarded $forwarded of $frames frames" >&2; exit 1; }
awk -v o="$octets" -v s="$start" -v e="$end" 'BEGIN { printf "octets %d, octets per second %.0f\n", o, o / (e - s) }'

/usr/bin/time -f 'peak memory %M KB' "$program" replay < "$work/trace" > "$work/out"

valgrind --tool=callgrind --callgrind-out-file="$work/callgrind" "$program" replay < "$work/tenth" > "$work/out" 2> "$work/log"
instructions=$(awk '/Collected/ { print $4 }' "$work/log")
awk -v i="$instructions" -v o="$tenth" 'BEGIN { printf "instructions per octet %.1f\n", i / o }'
[ -z "${KEEP:-}" ] || cp "$work/callgrind" "$KEEP"
