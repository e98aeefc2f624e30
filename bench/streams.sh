#!/bin/bash
# Measures `trace --stream` against `trace`: bench/streams.sh [PROGRAM [OPERATIONS ..]]
# The traces have 1,000,000 and 10,000,000 operations, or as many as are named (bench/steps.c): of 16 cores on 65,536
# words, six loads to three stores and a swap. Each trace is run by fair rounds from a file, by `trace` and by
# `trace --stream`, and by `trace --stream` through a pipe while it is made; and from the file by a seed, by both. For
# each: the least of three times by the clock and of the processor, the operations in a second of the first, and the
# least peak of memory. Reports must be the same. More operations than `trace` reads lines are only run through the
# pipe, and once. Then comes the time to the first record out of the pipe. The load of the machine stands before and
# after.
set -euo pipefail
top=$(cd "$(dirname "$0")/.." && pwd)
program=${1:-$top/crates/tardis/out/tardis}
[ $# -eq 0 ] || shift
[ $# -gt 0 ] || set -- 1000000 10000000
work=$(mktemp -d)
trap 'rm -rf "$work"' EXIT

cc -O2 -o "$work/steps" "$top/bench/steps.c"

# run NAME FILE WORDS..: a run, with its report in NAME.report and a line of its costs in NAME.costs. A run that isn't
# all done ends the script.
run() {
    name=$1 file=$2
    shift 2
    /usr/bin/time -a -o "$work/$name.costs" -f '%e %U %M' "$program" trace "$@" --limit 4294967295 "$file" \
        >"$work/$name.report"
}

# told NAME WORDS..: the least costs of the runs of this name.
told() {
    name=$1
    shift
    awk -v what="$operations operations, $*" -v operations="$operations" '
        function least(old, new) { return old == "" || new < old ? new : old }
        { clock = least(clock, $1); processor = least(processor, $2); memory = least(memory, $3) }
        END {
            printf "%s: %.2f s, %.2f s of processor, %.0f a second, %.1f MB\n", what, clock, processor,
                operations / (clock > 0 ? clock : 0.01), memory / 1024
        }
    ' "$work/$name.costs"
}

load() {
    echo "load average: $(cut -d' ' -f1-3 /proc/loadavg)"
}

load
for operations in "$@"; do
    rm -f "$work"/*.costs
    if [ "$operations" -gt 16777216 ]; then
        "$work/steps" "$operations" | run pipe /dev/stdin --stream --cores 16 --fair
    else
        "$work/steps" "$operations" >"$work/text"
        for _ in 1 2 3; do
            run whole "$work/text" --fair
            run stream "$work/text" --stream --cores 16 --fair
            "$work/steps" "$operations" | run pipe /dev/stdin --stream --cores 16 --fair
            run seed "$work/text" --schedule seed
            run streamed-seed "$work/text" --stream --cores 16 --schedule seed
        done
        cmp "$work/whole.report" "$work/stream.report"
        cmp "$work/whole.report" "$work/pipe.report"
        cmp "$work/seed.report" "$work/streamed-seed.report"
        told whole trace --fair
        told stream trace --stream --fair
        told seed trace --schedule seed
        told streamed-seed trace --stream --schedule seed
    fi
    told pipe trace --stream --fair through a pipe
    begins=$(date +%s%N)
    { "$work/steps" "$operations" || :; } |
        { "$program" trace --stream --cores 16 --fair --records /dev/stdin 2>"$work/left" || :; } |
        head -n 1 >"$work/first"
    ends=$(date +%s%N)
    echo "$operations operations, first record after $(((ends - begins) / 1000000)) ms"
done
load
