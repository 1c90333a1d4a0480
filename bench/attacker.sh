#!/usr/bin/env bash
# Counts what one can make `replay` do by a record: for each kind of record, at the input that costs most, the instructions of
# a record and those per octet of it, with those of reading its line (by `check`) and without them.
# Usage: bench/attacker.sh; build the program first (`rt run` in crates/switch_run). It takes some minutes.
# Each is a difference of two counts of callgrind; printing the block is in it. bench/attacker.py says what the cases are.
set -eu
cd "$(dirname "$0")/.."
program=crates/switch_run/out/switch_run
[ -x "$program" ] || { echo "build the program first: (cd crates/switch_run && rt run)" >&2; exit 1; }
work=$(mktemp -d)
trap 'rm -rf "$work"' EXIT

# Instructions of the program with a word over a trace.
instructions() {
    valgrind --tool=callgrind --callgrind-out-file=/dev/null "$program" "$1" < "$2" > "$work/out" 2> "$work/log" \
        || { tail -3 "$work/log" >&2; exit 1; }
    awk '/Collected/ { print $4 }' "$work/log"
}

declare -A before
for state in "let in" asked waiting; do
    python3 bench/attacker.py "$state" > "$work/trace"
    before[$state]="$(instructions replay "$work/trace") $(instructions check "$work/trace")"
done

while IFS='|' read -r count octets state name; do
    python3 bench/attacker.py "$name" > "$work/trace"
    echo "$(instructions replay "$work/trace") $(instructions check "$work/trace") ${before[$state]}" \
        | awk -v n="$count" -v o="$octets" -v w="$name" '{
            whole = ($1 - $3) / n; reading = ($2 - $4) / n
            printf "%s, %d octets: %.0f instructions, %.1f per octet; beyond reading %.0f, %.1f per octet\n",
                w, o, whole, whole / o, whole - reading, (whole - reading) / o }'
done < <(python3 bench/attacker.py)
