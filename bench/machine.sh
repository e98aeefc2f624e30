#!/bin/sh
# Builds the measurement of the machine and runs it three times: bench/machine.sh [EVENTS] [CORES] [WORDS] [MACHINES]
# MACHINES are opened with the program's default options, one after the other, and the last is driven.
set -e
top=$(cd "$(dirname "$0")/.." && pwd)
events=${1:-10000000}
cores=${2:-2}
words=${3:-64}
machines=${4:-1}
program=$top/crates/bench/out/bench
(cd "$top/crates/bench" && rt run -- machine 1000 "$cores" "$words" >/dev/null 2>&1)
for _ in 1 2 3; do
    /usr/bin/time -f '%e s, %U s of processor, %M KB' "$program" machine "$events" "$cores" "$words" "$machines"
done
