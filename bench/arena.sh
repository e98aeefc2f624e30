#!/bin/sh
# Builds the measurement of the arena and runs each part three times: bench/arena.sh [ROUNDS]
set -e
top=$(cd "$(dirname "$0")/.." && pwd)
rounds=${1:-10000000}
(cd "$top/crates/bench" && rt run -- make 1000 4096 64 >/dev/null 2>&1)
run() {
    for _ in 1 2 3; do
        echo "$1, $2 rounds, $3 cells, $4 lists:"
        /usr/bin/time -f '%e s, %U s of processor, %M KB' "$top/crates/bench/out/bench" "$1" "$2" "$3" "$4"
    done
}
run make "$rounds" 4096 64
run make $((rounds / 100)) 1048576 64
run move "$rounds" 4096 64
run move "$rounds" 1048576 1024
run churn "$rounds" 4096 64
