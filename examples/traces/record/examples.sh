#!/bin/sh
# Records the four programs anew into examples/traces: examples.sh. A recording is one run, so the traces are others
# each time; tests/expected.py and maintain/recorded.py then write what is wanted of them.
case ${1-} in -h | --help) exec sed -n '2,/^[^#]/s/^# \{0,1\}//p' "$0" ;; esac
here=$(CDPATH='' cd -- "$(dirname -- "$0")" && pwd) || exit 1
work=$(mktemp) || exit 1
trap 'rm -f "$work"' EXIT
trap 'exit 1' HUP INT TERM

# put NAME SENTENCE FILE.c [options]: records a program as the trace of this name.
put() {
    name=$1 sentence=$2
    shift 2
    "$here/../../../tools/record/record.sh" "$work" "$@" || exit
    { printf '# %s\n# options= --line-words 8\n' "$sentence"; cat "$work"; } >"$here/../$name.trace"
    echo "$name: $(wc -l <"$work") lines"
}

put RECORDED-QUEUE 'A lock-free queue: two threads put numbers in, two take them out. Recorded from queue.c.' \
    "$here/queue.c"
put RECORDED-SPIN-LOCK 'Four threads count under a spin lock. Recorded from spin_lock.c.' "$here/spin_lock.c"
put RECORDED-SUM 'Four threads sum up an array, with their sums in one line. Recorded from sum.c.' "$here/sum.c"
put RECORDED-SUM-APART 'The same with a line for each sum. Recorded from sum.c with -DAPART.' "$here/sum.c" -DAPART
