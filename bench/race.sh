#!/usr/bin/env bash
# Measures `race` over data frames of 128 hosts on eight ports, with a control record behind every 200.
# Usage: bench/race.sh [FRAMES]; build the program first (`rt run` in crates/switch_run). It needs a C compiler.
# Prints a line for `check`, which reads the trace and runs nothing, one for `replay`, and one for each number of workers and
# lanes: seconds on the clock, octets of input per second, processor seconds, peak memory; of races also what goes on inside their
# phases, while lanes and workers run: the seconds on the clock, the processor seconds of the thread that worked longest in each, which
# is what the phases take where each job has a processor, and those of all threads (by some lines of C that stand before the calls that
# begin and join a thread). Each is the best of five runs. What a race writes is not looked at here: tools/race_cases.py does.
set -eu
cd "$(dirname "$0")/.."
frames=${1:-400000}
program=$PWD/crates/switch_run/out/switch_run
[ -x "$program" ] || { echo "build the program first: (cd crates/switch_run && rt run)" >&2; exit 1; }
work=$(mktemp -d)
trap 'rm -rf "$work"' EXIT

cat > "$work/threads.c" <<'CODE'
#define _GNU_SOURCE
#include <dlfcn.h>
#include <pthread.h>
#include <stdio.h>
#include <stdlib.h>
#include <time.h>

/* A phase lasts from the first thread that the first one begins until it has joined them all. The first thread runs a job too. */
static pthread_mutex_t guard = PTHREAD_MUTEX_INITIALIZER;
static int to_join;
static double since, first_since, longest_of_phase;
static double clock_seconds, longest_seconds, processor_seconds;

struct begun { void *(*run)(void *); void *with; };

static double now(clockid_t which) {
    struct timespec t;
    clock_gettime(which, &t);
    return t.tv_sec + t.tv_nsec * 1e-9;
}

/* What a thread used in the phase. */
static void used(double seconds) {
    pthread_mutex_lock(&guard);
    processor_seconds += seconds;
    if (seconds > longest_of_phase) longest_of_phase = seconds;
    pthread_mutex_unlock(&guard);
}

/* The program ends without leave of its libraries, so this is told behind each phase. */
static void tell(void) {
    FILE *to = fopen(getenv("THREADS"), "w");
    if (to) { fprintf(to, "%.4f %.4f %.4f\n", clock_seconds, longest_seconds, processor_seconds); fclose(to); }
}

static void *timed(void *given) {
    struct begun begun = *(struct begun *) given;
    free(given);
    void *answer = begun.run(begun.with);
    used(now(CLOCK_THREAD_CPUTIME_ID));
    return answer;
}

int pthread_create(pthread_t *id, const pthread_attr_t *how, void *(*run)(void *), void *with) {
    static int (*next)(pthread_t *, const pthread_attr_t *, void *(*)(void *), void *);
    if (!next) next = (__typeof__(next)) dlsym(RTLD_NEXT, "pthread_create");
    struct begun *begun = malloc(sizeof *begun);
    if (!begun) return 11;
    *begun = (struct begun) { run, with };
    if (to_join++ == 0) {
        since = now(CLOCK_MONOTONIC);
        first_since = now(CLOCK_THREAD_CPUTIME_ID);
    }
    int answer = next(id, how, timed, begun);
    if (answer) to_join--;
    return answer;
}

int pthread_join(pthread_t id, void **answer) {
    static int (*next)(pthread_t, void **);
    if (!next) next = (__typeof__(next)) dlsym(RTLD_NEXT, "pthread_join");
    int how = next(id, answer);
    if (--to_join == 0) {
        used(now(CLOCK_THREAD_CPUTIME_ID) - first_since);
        clock_seconds += now(CLOCK_MONOTONIC) - since;
        longest_seconds += longest_of_phase;
        longest_of_phase = 0;
        tell();
    }
    return how;
}
CODE
${CC:-cc} -O1 -shared -fPIC -o "$work/threads.so" "$work/threads.c" -ldl -pthread

python3 bench/race_trace.py "$frames" > "$work/trace"
octets=$(stat -c %s "$work/trace")
echo "octets $octets, processors $(nproc), load $(cut -d ' ' -f 1 /proc/loadavg)"

# Of five runs the fastest: microseconds on the clock, seconds of processors, peak memory in KB, and the seconds of its phases.
best() {
    local before after
    for _ in 1 2 3 4 5; do
        echo "0 0 0" > "$work/threads"
        before=$(date +%s%N)
        THREADS="$work/threads" LD_PRELOAD="$work/threads.so" \
            /usr/bin/time -o "$work/time" -f '%U %S %M' "$program" "$@" < "$work/trace" > "$work/out" || exit 1
        after=$(date +%s%N)
        echo "$(((after - before) / 1000)) $(cat "$work/time" "$work/threads" | xargs)"
    done | sort -n | head -1
}

for words in check replay "race 1 1" "race 2 1" "race 4 1" "race 4 3" "race 8 3"; do
    # shellcheck disable=SC2086
    echo "$words|$octets|$(best $words)" | awk -F '|' '{
        split($3, t, " ")
        printf "%s: %.3f s, octets per second %.0f, processor seconds %.2f, peak memory %.1f MB", \
            $1, t[1] / 1e6, $2 * 1e6 / t[1], t[2] + t[3], t[4] / 1024
        if (t[5] > 0) printf "; in phases %.3f s, longest thread %.3f s, all threads %.3f s", t[5], t[6], t[7]
        print "" }'
    [ "$words" = check ] && continue
    forwarded=$(grep -c ' forward [0-9]* 42 ' "$work/out")
    [ "$forwarded" = "$frames" ] || { echo "forwarded $forwarded of $frames frames" >&2; exit 1; }
done
