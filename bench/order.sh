#!/bin/bash
# Builds the measurement of the checker and runs it: bench/order.sh [RECORDS [RUNS]]
# For 1, 4, 16 and 64 cores: the steps; then for each call by itself, the least of so many runs each: the clock's time
# of the call alone, and the greatest resident set by which the program with the call is more than the one without it.
# Then how fast the records are written as text, in one run.
# The load of the machine stands before and after: the times are those of the call only if nothing else runs.
set -euo pipefail
top=$(cd "$(dirname "$0")/.." && pwd)
records=${1:-1000000}
runs=${2:-9}
program="$top/crates/bench/out/bench"
(cd "$top/crates/bench" && rt run -- history 1000 16 >/dev/null)

# measure CORES CALL: the least resident set in KB and the least time in ns. (A check fails if it doesn't answer Legal.)
measure() {
    for _ in $(seq "$runs"); do
        /usr/bin/time -f 'resident %M' "$program" time "$2" "$records" "$1" 2>&1
    done | awk '
        function least(old, new) { return old == "" || new < old ? new : old }
        / ns$/ { clock = least(clock, $(NF - 1)) }
        /^resident/ { memory = least(memory, $2) }
        END {
            if (clock == "") exit 1
            print memory, clock
        }'
}

load() {
    echo "load average: $(cut -d' ' -f1-3 /proc/loadavg)"
}

load
for cores in 1 4 16 64; do
    echo "$cores cores"
    "$program" history "$records" "$cores"
    without=$(measure "$cores" made)
    for call in check stale_hits; do
        with=$(measure "$cores" "$call")
        echo "$without $with" | awk -v records="$records" -v call="$call" '{
            printf "%s: %.1f million records a second, %.1f bytes a record\n",
                call, records * 1000 / $4, ($3 - $1) * 1024 / records
        }'
    done
    "$program" time records_text "$records" "$cores" | awk '{
        printf "records_text: %.0f MB of text a second\n", $2 * 1000 / $4 }'
done
load
