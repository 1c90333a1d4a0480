#!/usr/bin/env bash
# Measures `serve` over loopback: idle, and with a datagram in each turn. See bench/serve.py.
# Usage: bench/serve.sh; build the program first (`rt run` in crates/switch_run). It takes a minute at most for each of three runs.
set -eu
cd "$(dirname "$0")/.."
program=crates/switch_run/out/switch_run
[ -x "$program" ] || { echo "build the program first: (cd crates/switch_run && rt run)" >&2; exit 1; }
exec timeout 200 python3 bench/serve.py "$program"
