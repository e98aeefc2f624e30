#!/bin/sh
# Refuses the program memory, reads and writes, each in turn, and gives it the examples byte by byte: tests/refusals.sh
# [PROGRAM [PART..]]. PROGRAM is a program that is built; without it the program at the top is built where it isn't. For
# the parts `steps`, `lists` and `drives` it is the event player (crates/play_events), for `seats` the seat player
# (crates/play_seats). The part `by_bytes`, alone, is the examples. It needs a C compiler and the GNU C library.
top=$(CDPATH='' cd -- "$(dirname -- "$0")/.." && pwd) || exit 1
if [ $# -gt 0 ]; then
    program=$1
    shift
else
    "$top/tardis" litmus "$top/examples/litmus/SB.litmus" >/dev/null || exit 1
    program=$top/crates/tardis/out/tardis
fi
work=$(mktemp -d) || exit 1
trap 'rm -rf "$work"' EXIT
trap 'exit 1' HUP INT TERM
"${CC:-cc}" -O2 -shared -fPIC -o "$work/refuse.so" "$top/tests/refuse.c" -ldl || exit 1
[ "${1-}" = by_bytes ] || python3 "$top/tests/refusals.py" "$program" "$work/refuse.so" "$@" || exit 1
[ $# -eq 0 ] || [ "$1" = by_bytes ] || exit 0

# Texts of examples/ and the faulty litmus tests once more: each read brings one byte.
printf '#!/bin/sh\nexec env LD_PRELOAD="%s" REFUSE_READ=1:short "%s" "$@"\n' \
    "$work/refuse.so" "$(readlink -f -- "$program")" >"$work/by_bytes"
chmod +x "$work/by_bytes"
PARTS='litmus settings refusals traces lines verdicts trace_faults' "$top/tests/check.sh" "$work/by_bytes" || exit 1
"$top/tests/texts.py" "$work/by_bytes" faults
