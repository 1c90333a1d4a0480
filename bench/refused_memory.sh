#!/usr/bin/env bash
# Refuses memory to a run over a short trace of three phases, in each way that there is, and says how the runs ended.
# Usage: bench/refused_memory.sh [WORDS [FIRST LAST]], with the program's words, else "replay"; build the program first (`rt run` in
# crates/switch_run). It needs a C compiler, and takes two minutes.
#   one      each request for memory in turn is refused to the built program, and the later ones are not
#            (refuse.sh)
#   all      each and all later ones are refused
#   limits   the program gets less memory than it wants: from 2 MB to 512 MB of addresses, in steps of 256 KB
#   tried    where FIRST and LAST are given: the allocations of these numbers, one in each run of `rt try --fail-alloc`, which
#            builds the program anew each time, half a minute
# Each run has to end with 1, `out of memory` and the blocks of whole phases, or as if nothing were refused. A limit of addresses counts
# the stack too, which is no allocation: at a limit that leaves just too little for it, the host ends the run.
set -eu
cd "$(dirname "$0")/.."
words=${1:-replay}
trace=$PWD/data/races/a_disconnect_beside_data_frames.trace
program=$PWD/crates/switch_run/out/switch_run
[ -x "$program" ] || { echo "build the program first: (cd crates/switch_run && rt run)" >&2; exit 1; }
work=$(mktemp -d)
trap 'rm -rf "$work"' EXIT

# What the phases write, on one thread: from nothing to the whole.
: > "$work/0"
awk '/^sync/ { exit } { print }' "$trace" | "$program" replay > "$work/1"
awk '/^sync/ && ++n == 2 { exit } { print }' "$trace" | "$program" replay > "$work/2"
"$program" replay < "$trace" > "$work/3"

# How many whole phases the output has, or nothing. Of a race, which has many outputs, only the lines' first words are looked at.
phases() {
    local n
    for n in 3 2 1 0; do
        if [ "${words%% *}" = race ]; then
            diff -q <(cut -d ' ' -f 1 "$work/$n") <(cut -d ' ' -f 1 "$work/out") > "$work/diff" && { echo "$n"; return; }
        else
            cmp -s "$work/$n" "$work/out" && { echo "$n"; return; }
        fi
    done
}

# How a run with this status ended.
ending() {
    case "$1 $(phases) $(head -c 20 "$work/err" | tr -c '[:lower:]' ' ' | xargs)" in
        "0 3 ") echo "whole" ;;
        "1 "[0-3]" out of memory") echo "out of memory behind $(phases) phases" ;;
        "127 0 "*) echo "not begun: no room for the program" ;;
        "139 0 ") echo "ended by the host: no room for the stack" ;;
        *) echo "WRONG: status $1, $(wc -l < "$work/out") lines, $(head -c 80 "$work/err")" ;;
    esac
}

# The program in the state of the shell, and how it ended.
run() {
    local status=0
    # shellcheck disable=SC2086
    ("$@"; exec "$program" $words < "$trace" > "$work/out" 2> "$work/err") || status=$?
    ending "$status"
}

. bench/refuse.sh
make_refuse "$work"

refuse() { export LD_PRELOAD="$work/refuse.so" FIRST="$1" LAST="$2"; }

# One at a time, until twenty in a row are whole: then no run asks so often.
whole=0
for ((n = 1; whole < 20; n++)); do
    how=$(run refuse "$n" "$n")
    whole=$([ "$how" = whole ] && echo $((whole + 1)) || echo 0)
    echo "one: $how"
done | uniq -c | tee "$work/one"
asked=$(awk '{ sum += $1 } END { print sum - 20 }' "$work/one")
for ((n = 1; n <= asked; n++)); do
    echo "all: $(run refuse "$n" 999999)"
done | uniq -c | tee "$work/all"
for ((limit = 2048; limit <= 524288; limit += 256)); do
    echo "limits: $(run ulimit -v "$limit")"
done 2> "$work/shell" | uniq -c | tee "$work/limits"
if [ $# = 3 ]; then
    for ((n = $2; n <= $3; n++)); do
        status=0
        # shellcheck disable=SC2086
        (cd crates/switch_run && rt try --fail-alloc "$n" -- $words < "$trace" > "$work/out" 2> "$work/said") || status=$?
        grep -x 'out of memory' "$work/said" > "$work/err" || true
        echo "tried: allocation $n: $(ending "$status")"
    done | tee "$work/tried"
fi
! grep -h WRONG "$work"/one "$work"/all "$work"/limits "$work"/tried 2> "$work/shell"
