#!/usr/bin/env bash
# Measures `replay` where hosts log in through a RADIUS server, send ten frames each, and then stay while seconds go by.
# Usage: bench/login.sh; build the program first (`rt run` in crates/switch_run).
# Prints the instructions of a login, with and without those of MD5, those of a session and second, and the peak memory.
set -eu
cd "$(dirname "$0")/.."
program=crates/switch_run/out/switch_run
[ -x "$program" ] || { echo "build the program first: (cd crates/switch_run && rt run)" >&2; exit 1; }
work=$(mktemp -d)
trap 'rm -rf "$work"' EXIT

# Instructions of the program over a trace, and those of functions of MD5 in it.
count() {
    python3 bench/login_trace.py "$@" > "$work/trace"
    valgrind --tool=callgrind --callgrind-out-file="$work/callgrind" "$program" replay < "$work/trace" > "$work/out" 2> "$work/log"
    whole=$(awk '/Collected/ { print $4 }' "$work/log")
    digests=$(callgrind_annotate --threshold=100 "$work/callgrind" | awk '/md5/ { gsub(",", "", $1); sum += $1 } END { printf "%d", sum }')
    echo "$whole $digests"
}

few=$(count 960 0 0 1)
many=$(count 960 0 0 2)
echo "$few $many" | awk '{ printf "instructions of a login: %.0f, of which %.0f in MD5\n", ($3 - $1) / 960, ($4 - $2) / 960 }'

few=$(count 960 0 0)
many=$(count 960 0 10000)
echo "$few $many" | awk '{ printf "instructions of an idle session and second: %.1f\n", ($3 - $1) / 960 / 10000 }'

python3 bench/login_trace.py 960 10 10000 > "$work/trace"
start=$(date +%s.%N)
/usr/bin/time -f 'peak memory with 960 hosts: %M KB' "$program" replay < "$work/trace" > "$work/out"
end=$(date +%s.%N)
forwarded=$(grep -c ' forward [0-9]* 42 ' "$work/out")
[ "$forwarded" = 9600 ] || { echo "forwarded $forwarded of 9600 frames" >&2; exit 1; }
awk -v s="$start" -v e="$end" 'BEGIN { printf "960 logins, 9600 frames and 10000 seconds: %.2f s\n", e - s }'
