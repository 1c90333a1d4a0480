#!/usr/bin/env bash
# Refuses each request for memory in turn to a login over a book (the test of crates/book_tests), and says which call was refused.
# That call is made once more, and the test wants what stands afterwards to be as if nothing was refused: the serials, what became
# of each event, and what a worker decides.
# Usage: bench/refused_entries.sh; build the test first (`rt test` in crates/book_tests). It needs a C compiler, and takes some
# seconds.
set -eu
cd "$(dirname "$0")/.."
program=$PWD/crates/book_tests/out/book_tests_tests
[ -x "$program" ] || { echo "build the test first: (cd crates/book_tests && rt test)" >&2; exit 1; }
work=$(mktemp -d)
trap 'rm -rf "$work"' EXIT
. bench/refuse.sh
make_refuse "$work"

# Which call was refused in the run in which this request is, until none is in twenty in a row.
whole=0
for ((n = 1; whole < 20 && n < 1000; n++)); do
    call=wrong
    if LD_PRELOAD="$work/refuse.so" FIRST="$n" LAST="$n" \
        "$program" login::a_login_is_as_if_nothing_was_refused > "$work/said" 2>&1; then
        call=$(sed -n 's/.*refused: //p' "$work/said")
    fi
    whole=$([ "$call" = none ] && echo $((whole + 1)) || echo 0)
    echo "${call:-before the first call}"
done | uniq -c | tee "$work/calls"
! grep -q wrong "$work/calls"
