#!/bin/sh
# Makes litmus tests whose threads stand in a ring, and measures the lists of their ends, without orders and with them,
# and by the second program: bench/ends.sh [PROGRAM]. Each thread stores to its own word and loads the next thread's, in
# turn, and each load goes to a register of its own.
set -e
top=$(cd "$(dirname "$0")/.." && pwd)
program=${1:-$top/tardis}
work=$(mktemp -d)
trap 'rm -rf "$work"' EXIT
ring() {
    awk -v threads="$1" -v operations="$2" 'BEGIN {
        print "RISCV RING-" threads "-" operations
        for (t = 0; t < threads; t++) {
            opening = opening sprintf(" %d:x6=w%d; %d:x7=w%d;", t, t, t, (t + 1) % threads)
            for (k = 0; k < operations; k += 2) opening = opening sprintf(" %d:x%d=%d;", t, 10 + k, k / 2 + 1)
            names = names (t ? " | " : "") "P" t
        }
        print "{" opening " }\n" names " ;"
        for (k = 0; k < operations; k++) for (t = 0; t < threads; t++)
            printf "%s%s", k % 2 ? "lw x" 10 + k ",0(x7)" : "sw x" 10 + k ",0(x6)", t < threads - 1 ? " | " : " ;\n"
        for (t = 0; t < threads; t++) for (k = 1; k < operations; k += 2)
            printf "%s%d:x%d=0", t + k == 1 ? "exists " : " /\\ ", t, 10 + k
        print ""
    }' >"$work/ring"
}
measured() {
    name=$1
    shift
    /usr/bin/time -q -f "$name: %e s, %M KB" "$@" "$work/ring" >"$work/list" || :
}
"$program" ends "$top/examples/litmus/SB.litmus" >/dev/null # builds the program first
[ "$program" != "$top/tardis" ] || program=$top/crates/tardis/out/tardis
for sizes in '8 2' '4 6' '3 8'; do
    # shellcheck disable=SC2086
    ring $sizes
    echo "$sizes" | sed 's/ / threads of /; s/$/ operations/'
    measured 'the second program' "$top/reference/sequential.py"
    measured 'with orders' "$program" ends --orders
    measured 'listed' "$program" ends
    sed -n '3,4p' "$work/list"
done
