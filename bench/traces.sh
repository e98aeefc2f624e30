#!/bin/sh
# Makes a trace of so many lines and measures the program on it: bench/traces.sh [LINES] [CORES] [WORDS]
# Six loads to three stores and a swap, on cores and words that a fixed formula picks.
set -e
top=$(cd "$(dirname "$0")/.." && pwd)
lines=${1:-1000000}
cores=${2:-16}
words=${3:-4096}
work=$(mktemp -d)
trap 'rm -rf "$work"' EXIT
awk -v lines="$lines" -v cores="$cores" -v words="$words" 'BEGIN {
    for (i = 0; i < lines; i++) {
        x = (x * 1103515245 + 12345) % 2147483648
        core = int(x / 65536) % cores
        x = (x * 1103515245 + 12345) % 2147483648
        word = int(x / 65536) % words
        if (i % 10 < 6) printf "%d R 0x%x\n", core, 8 * word
        else printf "%d %s 0x%x %d\n", core, i % 10 < 9 ? "W" : "S", 8 * word, i
    }
}' >"$work/text"
"$top/tardis" trace --records --limit 4294967295 "$work/text" >"$work/records" # builds the program first
measured() {
    name=$1
    shift
    /usr/bin/time -q -f "$name: %e s, %U s of processor, %M KB" "$top/crates/tardis/out/tardis" "$@" >/dev/null || :
}
wc -c "$work/text" "$work/records"
for _ in 1 2 3; do
    measured 'read, one round' trace --records --limit 1 "$work/text"
    measured 'run and reported' trace --limit 4294967295 "$work/text"
    measured 'run, records written' trace --records --limit 4294967295 "$work/text"
    measured 'checked' check "$work/text" "$work/records"
done
