#!/bin/bash
# Measures threads next to other work: bench/busy.sh [PROGRAM [SPINNING]]
# PROGRAM is the built bench_seats. The same operations are made by one worker, and by four: first on the machine as it
# is, and then next to as many processes that only spin as the second word says, or 8. For each, the seconds of five
# runs in rising order; a run that takes a minute is stopped, and counts as 60. The load of the machine stands before.
set -euo pipefail
top=$(cd "$(dirname "$0")/.." && pwd)
program=${1:-$top/crates/bench_seats/out/bench_seats}
spinning=${2:-8}
[ -x "$program" ] || { echo "busy.sh: $program isn't built: rt run in crates/bench_seats builds it" >&2; exit 1; }
trap 'kill $(jobs -p) 2>/dev/null || true' EXIT

# runs WORDS..: the seconds of five runs, in rising order
runs() {
    for _ in 1 2 3 4 5; do
        nanos=$(timeout 60 "$program" time seats "$@" | sed 's/.* in \([0-9]*\) ns/\1/') ||
            { [ $? -eq 124 ] && nanos=60000000000 || exit 1; }
        echo "$nanos" | awk '{ printf "%.2f\n", $1 / 1e9 }'
    done | sort -n | tr '\n' ' '
}

# all: each size by one worker and by four
all() {
    for size in "16 4 60000" "64 8 12000"; do
        for workers in 1 4; do
            # shellcheck disable=SC2086
            echo "seats $size, workers $workers, $1: $(runs $size $workers)"
        done
    done
}

echo "load average: $(cut -d' ' -f1-3 /proc/loadavg)"
all "alone"
for _ in $(seq "$spinning"); do
    (while :; do :; done) &
done
all "next to $spinning that spin"
