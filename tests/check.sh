#!/bin/sh
# Runs every example and compares its report, and some refused inputs and their error lines: tests/check.sh [PROGRAM]
# PROGRAM is a program that is built; without it the program at the top is built where it isn't, and run. The reports
# are those of reference/oracle.py, which knows nothing of the program; the tables and error lines are by hand. Runs by
# several threads differ from one time to the next: of their reports it is asked what every run has (by_threads.py).
#
# The parts that are run, each a function below; PARTS names others.
case ${1-} in -h | --help) exec sed -n '2,/^[^#]/s/^# \{0,1\}//p' "$0" ;; esac
parts=${PARTS:-litmus catalogue settings refusals seeds workers threads traces seeded_traces other_traces lines \
verdicts complete opening trace_faults trace_refusals}

top=$(CDPATH='' cd -- "$(dirname -- "$0")/.." && pwd) || exit 1
tardis=${1:-$top/tardis}
examples=$top/examples
bad=$examples/bad
work=$(mktemp -d) || exit 1
trap 'rm -rf "$work"' EXIT
trap 'exit 1' HUP INT TERM
passed=0
failed=0

# told NAME STATUS OUT ERR WORDS..: the program's status, standard output and standard error with these words are those
# of the number and the two files. Both differences are shown.
told() {
    name=$1 status=$2 out=$3 err=$4
    shift 4
    timeout 120 "$tardis" "$@" >"$work/out" 2>"$work/err"
    got=$?
    good=yes
    [ "$got" -eq "$status" ] || { echo "$name: status $got, wanted $status"; good=no; }
    diff "$out" "$work/out" || { echo "$name: another report"; good=no; }
    diff "$err" "$work/err" || { echo "$name: another error text"; good=no; }
    count "$good"
}

count() {
    if [ "$1" = yes ]; then passed=$((passed + 1)); else failed=$((failed + 1)); fi
}

# refused NAME STATUS TEXT WORDS..: nothing on standard output, and TEXT with a line feed on standard error.
refused() {
    printf '%s\n' "$3" >"$work/wanted"
    name=$1 status=$2
    shift 3
    told "$name" "$status" /dev/null "$work/wanted" "$@"
}

# full NAME WORDS..: a device that takes no bytes.
full() {
    name=$1
    shift
    "$tardis" "$@" >/dev/full 2>"$work/err"
    got=$?
    if [ "$got" -eq 4 ] && [ "$(cat "$work/err")" = 'tardis: write failed' ]; then
        count yes
    else
        echo "$name: status $got"
        count no
    fi
}

# The options of an example's text: words, parted by spaces; and those with which a test of the catalogue, or a trace,
# is run again.
options_of() {
    sed -n 's/^\(# \)\{0,1\}options=//p' "$1"
}

other_options_of() {
    sed -n 's/^\(# \)\{0,1\}also=//p' "$1"
}

is_seeded() {
    options_of "$1" | grep -q -e '--schedule seed'
}

litmus() {
    for text in "$examples"/litmus/*.litmus; do
        told "${text##*/}" 0 "${text%.litmus}.report" /dev/null litmus "$text"
    done
}

# Each test of the catalogue on a thousand seeds, and with other options if it names some.
catalogue() {
    for text in "$examples"/litmus/*.litmus; do
        seeds="--schedule seed --runs 1000"
        # shellcheck disable=SC2086
        told "${text##*/} $seeds" 0 "${text%.litmus}.seeds" /dev/null litmus $seeds "$text"
        also=$(other_options_of "$text")
        [ -n "$also" ] || continue
        # shellcheck disable=SC2086
        told "${text##*/} $also" 0 "${text%.litmus}.also" /dev/null litmus $also "$text"
    done
}

# A text with options of its own, in the header line options=; a run that isn't all done is status 1.
setting() {
    report=${1%.litmus}.report
    status=0
    [ "$(sed -n 's/^runs //p' "$report")" = "$(sed -n 's/^all-done //p' "$report")" ] || status=1
    # shellcheck disable=SC2046
    told "${1##*/}" "$status" "$report" /dev/null litmus $(options_of "$1") "$1"
}

settings() {
    for text in "$examples"/settings/*.litmus; do
        is_seeded "$text" || setting "$text"
    done
}

seeds() {
    for text in "$examples"/settings/*.litmus; do
        if is_seeded "$text"; then setting "$text"; fi
    done
    one_seed_more
    one_state
}

# Run 65,536 of a batch has the seed 65,536, and not the first one's again: by the second program it adds other counts.
one_seed_more() {
    text=$examples/litmus/SB.litmus
    "$tardis" litmus --schedule seed --runs 65536 "$text" >"$work/front"
    "$top/reference/oracle.py" litmus --schedule seed --seed 65536 "$text" >"$work/behind"
    "$top/tools/merge.py" "$work/front" "$work/behind" >"$work/wanted"
    told "65,537 seeds of SB" 0 "$work/wanted" /dev/null litmus --schedule seed --runs 65537 "$text"
}

# So many runs end in one state that 16 bits don't count them. As many are made by threads, one after the other.
one_state() {
    printf 'RISCV ONE\n{ 0:x5=1; 0:x6=x; }\nP0 ;\nsw x5,0(x6) ;\nexists x=1\n' >"$work/one.litmus"
    printf '%s\n' 'test ONE' 'threads 1' 'runs 70000' 'all-done 70000' 'stalled 0' 'limit 0' 'exhausted 0' 'memory 0' \
        'states 1' '70000 x=1' 'condition exists' 'held 70000' 'verdict yes' 'completed 70000' 'renewals 0' \
        'upgrades 0' 'flushes 0' 'write-backs 0' 'stale-hits 0' >"$work/wanted"
    told "70,000 runs of one store" 0 "$work/wanted" /dev/null litmus --runs 70000 "$work/one.litmus"
    told "70,000 runs of one store by threads" 0 "$work/wanted" /dev/null \
        litmus --schedule threads --runs 70000 "$work/one.litmus"
}

# The number of workers shows in no report.
workers() {
    for number in 2 4 16; do
        for name in SB IRIW; do
            words="--schedule seed --runs 1000 --workers $number"
            # shellcheck disable=SC2086
            told "$name $words" 0 "$examples/litmus/$name.seeds" /dev/null litmus $words "$examples/litmus/$name.litmus"
        done
    done
    text=$examples/traces/SEED-LOCK.trace
    # shellcheck disable=SC2046
    told "SEED-LOCK.trace by 4 workers" 0 "${text%.trace}.report" /dev/null trace $(options_of "$text") --workers 4 \
        "$text"
}

# by_threads COMMAND WORDS..: the program runs by schedule threads. Its standard output is $work/out, its status $got.
# A run whose workers don't hear of each other goes on to its limit, which takes hours: it is stopped, with status 124.
by_threads() {
    command=$1
    shift
    timeout 120 "$tardis" "$command" --schedule threads "$@" >"$work/out" 2>"$work/err"
    got=$?
    good=yes
    [ ! -s "$work/err" ] || { cat "$work/err"; good=no; }
}

# must TEXT TEST..: the test is so; otherwise the text says what isn't.
must() {
    text=$1
    shift
    "$@" || { echo "$text"; good=no; }
}

# row WORDS..: a row for tests/by_threads.py. keep WORDS..: what was printed is kept, and its file ends such a row.
# judge: whether all rows since the last time can be so.
row() {
    (IFS='|' && printf '%s\n' "$*") >>"$work/rows"
}

keep() {
    rows=$((rows + 1))
    mv "$work/out" "$work/threads.$rows"
    row "$@" "$work/threads.$rows"
}

judge() {
    good=yes
    "$top/tests/by_threads.py" <"$work/rows" >"$work/judged" || { cat "$work/judged"; good=no; }
    count "$good"
    rm -f "$work/rows" "$work"/threads.*
}

# The number behind a word in what was printed; whether a line is there; and the lines of the end states.
number_of() {
    sed -n "s/^$1 //p" "$work/out"
}

has() {
    grep -qxF -e "$1" "$work/out"
}

states() {
    sed -e '1,/^states /d' -e '/^condition /,$d' "$work/out"
}

# Whether all runs are all done, as the status says it; and whether each end state is one of three.
has_status_of() {
    wanted=1
    if has "all-done $1"; then wanted=0; fi
    [ "$got" -eq "$wanted" ]
}

are_three() {
    ! states | grep -qvxE '[1-9][0-9]* (0:x7=0 1:x7=1|0:x7=1 1:x7=0|0:x7=1 1:x7=1)'
}

# In store buffering no run ends with both loads 0. For a load that is 1 the store's owner wrote its line back. One
# worker gives all turns in one order, so that its runs are alike.
buffering_by_threads() {
    for number in 1 2 4; do
        name="SB by threads, $number workers"
        by_threads litmus --runs 50 --workers "$number" "$examples/litmus/SB.litmus"
        for line in 'test SB' 'runs 50' 'stalled 0' 'memory 0' 'held 0' 'verdict no'; do
            must "$name: no line '$line'" has "$line"
        done
        must "$name: too few write-backs" [ "$(number_of write-backs)" -ge "$(number_of all-done)" ]
        must "$name: another end state" are_three
        must "$name: status $got" has_status_of 50
        [ "$number" -gt 1 ] || must "$name: not all done" has 'all-done 50'
        count "$good"
    done
}

# Seats have places of their own, so that one message in flight is no limit: by rounds both runs stall.
one_message_by_threads() {
    name="SB by threads, messages 1"
    by_threads litmus --messages 1 "$examples/litmus/SB.litmus"
    must "$name: not all done" has 'all-done 1'
    must "$name: stalled" has 'stalled 0'
    must "$name: status $got" [ "$got" -eq 0 ]
    count "$good"
    printf '%s\n' 'cores 1' 'issued 1' 'completed 1' 'end all-done' 'loads 1' 'stores 0' 'swaps 0' 'renewals 0' \
        'upgrades 0' 'flushes 0' 'write-backs 0' 'stale-hits 0' 'order legal' 'word 0x0 0' >"$work/wanted"
    told "ONE-MESSAGE by threads" 0 "$work/wanted" /dev/null trace --schedule threads --messages 1 \
        "$examples/traces/ONE-MESSAGE.trace"
}

# as_by_oracle WORDS..: of each row FILE|WORD|.. the program says with its words, and these, what reference/oracle.py
# says with the row's.
as_by_oracle() {
    more=$*
    "$top/reference/oracle.py" --rows <"$work/rows" || count no
    while IFS='|' read -r wanted words; do
        set -f
        IFS='|'
        # shellcheck disable=SC2086
        set -- $words
        unset IFS
        set +f
        # shellcheck disable=SC2086
        told "$* $more" "$(cat "$wanted.status")" "$wanted" /dev/null "$@" $more
    done <"$work/rows"
    rm -f "$work/rows" "$work"/wanted.*
}

# of_one_worker WORDS..: a row for as_by_oracle, of a command by one worker.
of_one_worker() {
    rows=$((rows + 1)) command=$1
    shift
    row "$work/wanted.$rows" "$command" --schedule threads "$@"
}

# The options of a trace, for a schedule that takes no seed. Where banks have few places, lines may come and go until
# all turns are used: such a run has fewer.
options_by_threads() {
    given=$(options_of "$1" | sed -e 's/--schedule seed//' -e 's/--seed [0-9]*//')
    case $given in
        *--limit*) ;;
        *--bank-*) given="$given --limit 2000" ;;
    esac
    printf '%s\n' "$given"
}

# One worker gives all turns in one order: what comes of it is known, of each test of the catalogue and of each trace.
by_one_worker() {
    for file in "$examples"/litmus/*.litmus; do
        of_one_worker litmus --runs 3 "$file"
    done
    for file in "$examples"/traces/*.trace; do
        # shellcheck disable=SC2046
        of_one_worker trace $(options_by_threads "$file") "$file"
        # shellcheck disable=SC2046
        of_one_worker trace --records $(options_by_threads "$file") "$file"
    done
    as_by_oracle
}

# up_to_40_turns FILE WORDS..: rows of a trace after each number of turns, from 1 on: its report and its records.
up_to_40_turns() {
    file=$1
    shift
    for limit in $(seq 40); do
        of_one_worker trace "$@" --limit "$limit" "$file"
        of_one_worker trace --records "$@" --limit "$limit" "$file"
    done
}

# In which turn a step is begun, and in which it is done: store buffering, advances, a bank with one place, a private
# cache with one, a time that is the last one, and a lease that doesn't fit behind it.
turn_by_turn() {
    last='--time 18446744073709551614'
    printf '0 W 0x0 1\n0 R 0x8\n1 W 0x8 1\n1 R 0x0\n' >"$work/buffering"
    printf 'trace 2\n0 A\n0 A\n0 W 0x0 1\n0 A\n0 R 0x0\n' >"$work/advances"
    printf '0 R 0x0\n0 R 0x8\n0 R 0x10\n' >"$work/loads"
    printf '0 W 0x0 1\n0 R 0x0\n0 R 0x0\n0 R 0x0\n0 R 0x0\n0 R 0x0\n0 W 0x0 2\n1 W 0x8 3\n1 R 0x8\n' >"$work/last"
    up_to_40_turns "$work/buffering"
    up_to_40_turns "$work/advances"
    up_to_40_turns "$work/loads" --bank-sets 1 --bank-ways 1
    # shellcheck disable=SC2086
    up_to_40_turns "$work/last" $last
    # shellcheck disable=SC2086
    up_to_40_turns "$work/loads" $last --banks 2
    as_by_oracle
    # Of two workers one has core 0 and the bank, and core 1 advances once. So nobody else says when a step is done.
    printf 'trace 2\n1 A\n0 R 0x0\n0 R 0x8\n0 W 0x10 5\n0 A\n0 R 0x0\n0 R 0x10\n' >"$work/alone"
    up_to_40_turns "$work/alone" --sets 1 --ways 1
    as_by_oracle --workers 2
    for limit in $(seq 40); do
        of_one_worker litmus --limit "$limit" "$examples/litmus/SB.litmus"
    done
    as_by_oracle
    a_million_turns
}

# One advance a turn: after 1,000,001 of them the core loads at that time. Then it loads 1,000,001 times.
a_million_turns() {
    { echo 'trace 2'; yes '0 A' | head -n 1000001; echo '0 R 0x0'; } >"$work/steps"
    echo '0 0 R 0x0 0 1000001 0' >"$work/wanted"
    told "1,000,001 turns" 0 "$work/wanted" /dev/null trace --schedule threads --records --limit 4294967295 \
        "$work/steps"
    yes '0 R 0x0' | head -n 1100001 >"$work/steps"
    seq 0 1100000 | sed 's/.*/0 & R 0x0 0 0 &/' >"$work/wanted"
    told "1,100,001 operations by threads" 0 "$work/wanted" /dev/null trace --schedule threads --records \
        --limit 4294967295 "$work/steps"
    seq 300000 | sed 's/.*/0 W 0x0 &/' >"$work/steps"
    { printf 'cores 1\nissued 300000\ncompleted 300000\nend all-done\nloads 0\nstores 300000\nswaps 0\nrenewals 0\n'
      printf 'upgrades 0\nflushes 0\nwrite-backs 0\nstale-hits 0\norder legal\nword 0x0 300000\n'; } >"$work/wanted"
    told "300,000 stores by threads" 0 "$work/wanted" /dev/null trace --schedule threads --limit 4294967295 \
        "$work/steps"
    seq 0 499999 | awk '{ printf "0 R 0x%x\n", 8 * $1 }' >"$work/steps"
    { printf 'cores 1\nissued 500000\ncompleted 500000\nend all-done\nloads 500000\nstores 0\nswaps 0\nrenewals 0\n'
      printf 'upgrades 0\nflushes 0\nwrite-backs 0\nstale-hits 0\norder legal\n'
      seq 0 499999 | awk '{ printf "word 0x%x 0\n", 8 * $1 }'; } >"$work/wanted"
    told "500,000 words by threads" 0 "$work/wanted" /dev/null trace --schedule threads --limit 4294967295 \
        "$work/steps"
}

# is_at NUMBER: whether the file that is looked at is one of each NUMBER, counted by `at`.
is_at() {
    [ $((at % $1)) -eq 0 ]
}

# test_by_threads TEST WORKERS: the end states are some of those of reference/sequential.py, and nothing stalls.
test_by_threads() {
    name="${1##*/} by threads, $2 workers"
    by_threads litmus --runs 20 --workers "$2" "$1"
    count "$good"
    keep litmus "$1" 20 "$got"
}

# trace_by_threads TRACE WORKERS: its records are legal, and the report's numbers agree with the trace.
trace_by_threads() {
    name="${1##*/} by threads, $2 workers"
    words="$(options_by_threads "$1") --workers $2"
    # shellcheck disable=SC2086
    by_threads trace --records $words "$1"
    count "$good"
    keep records "$1" "$got"
    told "$name: check" 0 "$work/legal" /dev/null check "$1" "$work/threads.$rows"
    # shellcheck disable=SC2086
    by_threads trace $words "$1"
    count "$good"
    keep trace "$1" "$got"
}

# All tests and traces by two workers; each fourth test and each third trace by four workers, too.
by_more_workers() {
    at=0
    for file in "$examples"/litmus/*.litmus; do
        test_by_threads "$file" 2
        if is_at 4; then test_by_threads "$file" 4; fi
        at=$((at + 1))
    done
    at=0
    for file in "$examples"/traces/*.trace; do
        trace_by_threads "$file" 2
        if is_at 3; then trace_by_threads "$file" 4; fi
        at=$((at + 1))
    done
    judge
}

# pattern CORES WORDS OPERATIONS OPTIONS..: a trace with these options. Each core loads, stores and swaps on words of
# all banks, the first time on that of its own number. No two write the same value.
pattern() {
    cores=$1 words=$2 operations=$3
    shift 3
    printf '# options=%s\ntrace 2\n' "$*"
    awk -v cores="$cores" -v words="$words" -v operations="$operations" 'BEGIN {
        for (place = 0; place < operations; place++) for (core = 0; core < cores; core++) {
            address = 8 * ((core + 5 * place) % words)
            value = 64 * (place + 1) + core
            kind = (core + place) % 4
            if (kind < 2) printf "%d %s 0x%x %d\n", core, kind ? "S" : "W", address, value
            else printf "%d R 0x%x\n", core, address
        }
    }'
}

# to_the_end TRACE WORKERS: what trace_by_threads asks, and all is done.
to_the_end() {
    trace_by_threads "$1" "$2"
    good=yes
    must "${1##*/} by threads, $2 workers: not all done" [ "$got" -eq 0 ]
    count "$good"
}

# Up to 16 workers, and one that drives 64 cores and 8 banks alone. Where banks have a place for each line, a run that
# has turns enough comes to its end, whichever worker has the processor; where they haven't, how far it comes isn't
# known.
by_many_workers() {
    least='--sets 2 --ways 1 --line-words 1'
    # shellcheck disable=SC2086
    pattern 64 128 16 --banks 8 $least --bank-sets 16 --bank-ways 2 --limit 4294967295 >"$work/many"
    # shellcheck disable=SC2086
    pattern 64 128 1000 --banks 8 $least --bank-sets 16 --bank-ways 2 --limit 1000 >"$work/begun"
    # shellcheck disable=SC2086
    pattern 4 16 4000 --banks 2 $least --bank-sets 4 --bank-ways 1 --limit 4000 >"$work/crowded"
    pattern 5 4 7 --banks 2 --limit 4294967295 >"$work/five"
    to_the_end "$work/many" 1
    to_the_end "$work/many" 16
    trace_by_threads "$work/begun" 16
    trace_by_threads "$work/crowded" 4
    for number in $(seq 16); do
        to_the_end "$work/five" "$number"
    done
    judge
}

# exhausted TRACE TIME LEAST MOST: by two workers a seat stops, after LEAST to MOST completed operations.
exhausted() {
    by_threads trace --workers 2 --limit 4294967295 --time "$2" "$1"
    must "${1##*/} by two workers: not exhausted" has 'end exhausted'
    must "${1##*/} by two workers: not legal" has 'order legal'
    must "${1##*/} by two workers: completed" [ "$(number_of completed)" -ge "$3" ]
    must "${1##*/} by two workers: completed" [ "$(number_of completed)" -le "$4" ]
    count "$good"
}

# The seat that stops is core 0's, which stores after the last time or can't advance in its first turn; or the bank's,
# which has no lease for either core. At last core 0 can't advance in its 100,001st turn, while core 1 is busy with its
# own line: by then it has done a part of its 3,000,001 operations.
seats_that_stop() {
    printf '0 R 0x0\n1 R 0x8\n' >"$work/loads"
    printf 'trace 2\n0 A\n1 R 0x0\n' >"$work/at_once"
    exhausted "$work/last" 18446744073709551614 6 8
    exhausted "$work/loads" 18446744073709551614 0 0
    exhausted "$work/at_once" 18446744073709551615 0 0
    { echo 'trace 2'; yes '0 A' | head -n 100001; echo '1 W 0x8 3'; yes '1 R 0x8' | head -n 3000000; } >"$work/busy"
    exhausted "$work/busy" 18446744073709451615 0 2999999
}

threads() {
    rows=0
    echo legal >"$work/legal"
    buffering_by_threads
    one_message_by_threads
    by_one_worker
    turn_by_turn
    by_more_workers
    by_many_workers
    seats_that_stop
}

refusals() {
    told "messages 1" 1 "$bad/SB-messages-1.report" /dev/null litmus --messages 1 "$examples/litmus/SB.litmus"
    refused "cut short" 2 'tardis: line 6: 14 CutShort' litmus "$bad/SB-cut.litmus"
    refused "value range" 2 'tardis: line 2: 9 ValueRange' litmus "$bad/SB-value.litmus"
    refused "a text refused, with a bad configuration" 2 'tardis: line 6: 14 CutShort' \
        litmus --lease 0 "$bad/SB-cut.litmus"
    refused "messages 0" 3 'tardis: bad configuration' litmus --messages 0 "$examples/litmus/SB.litmus"
    refused "lease 0" 3 'tardis: bad configuration' litmus --lease 0 "$examples/litmus/SB.litmus"
    refused "limit 0" 3 "error: invalid value '0' for '--limit <limit>': 0 is not in 1..=4294967295

For more information, try '--help'." litmus --limit 0 "$examples/litmus/SB.litmus"
    refused "no file" 4 'tardis: read failed' litmus "$bad/none.litmus"
    refused "a folder" 4 'tardis: read failed' litmus "$examples"
    refused "no text" 3 'tardis: bad command line' litmus "$(printf 'a\377b')"
    full "full device" litmus "$examples/litmus/SB.litmus"
}

# A trace's report, its records, and what is said of these.
trace() {
    report=${1%.trace}.report records=${1%.trace}.records
    status=1
    if grep -q '^end all-done$' "$report"; then status=0; fi
    # shellcheck disable=SC2046
    told "${1##*/}" "$status" "$report" /dev/null trace $(options_of "$1") "$1"
    # shellcheck disable=SC2046
    told "${1##*/} --records" "$status" "$records" /dev/null trace --records $(options_of "$1") "$1"
    told "${1##*/} and its records" 0 "$work/legal" /dev/null check "$1" "$records"
}

traces() {
    echo legal >"$work/legal"
    for text in "$examples"/traces/*.trace; do
        is_seeded "$text" || trace "$text"
    done
}

seeded_traces() {
    echo legal >"$work/legal"
    for text in "$examples"/traces/*.trace; do
        if is_seeded "$text"; then trace "$text"; fi
    done
}

# The records of a trace with other options, if it names some: by one worker, whose runs are alike.
other_traces() {
    for text in "$examples"/traces/*.trace; do
        also=$(other_options_of "$text")
        # shellcheck disable=SC2086
        [ -z "$also" ] || told "${text##*/} $also" 0 "${text%.trace}.also" /dev/null trace --records $also "$text"
    done
}

# Rows: the records, the trace.
lines() {
    while IFS='|' read -r records steps; do
        case $records in '#'*) continue ;; esac
        printf '%b' "$steps" >"$work/steps"
        printf '%b' "$records" >"$work/wanted"
        told "the records of $steps" 0 "$work/wanted" /dev/null trace --records "$work/steps"
    done <"$examples/lines.table"
    lines_of_256_bytes
    many_lines
    many_words
    late_faults
}

# loads_of CORES NUMBER: the report of NUMBER loads, up to its words.
loads_of() {
    printf '%s\n' "cores $1" "issued $2" "completed $2" 'end all-done' "loads $2" 'stores 0' 'swaps 0' 'renewals 0' \
        'upgrades 0' 'flushes 0' 'write-backs 0' 'stale-hits 0' 'order legal'
}

# Lines as long as they may be: their fields are read.
lines_of_256_bytes() {
    { echo '#'; printf '0 R 0x0 #'; many 247 x; printf '\n0 R 0x0'; } >"$work/steps"
    { loads_of 1 2; echo 'word 0x0 0'; } >"$work/wanted"
    told "a load, and a comment up to byte 256" 0 "$work/wanted" /dev/null trace "$work/steps"
    { echo '#'; printf '0 R 0x0'; many 249 ' '; } >"$work/steps"
    { loads_of 1 1; echo 'word 0x0 0'; } >"$work/wanted"
    told "a load, and blanks up to byte 256" 0 "$work/wanted" /dev/null trace "$work/steps"
    { echo '#'; printf '0 0 R 0x0 9 0 0 #'; many 239 '#'; echo; } >"$work/records"
    echo 'wrong value 0' >"$work/wanted"
    told "a record, and a comment up to byte 256" 1 "$work/wanted" /dev/null check "$work/steps" "$work/records"
}

# 1,400,000 loads of one core, on one line that it asks for once, and a store; lines stand across the ends of blocks.
many_lines() {
    { yes '0 R 0xabc0' | head -n 1400000; printf '0 W 0x8 1'; } >"$work/steps"
    { loads_of 1 1400000 | sed -e 's/^\(issued\|completed\) .*/\1 1400001/' -e 's/^stores 0/stores 1/'; } >"$work/wanted"
    printf '%s\n' 'word 0x8 1' 'word 0xabc0 0' >>"$work/wanted"
    told "1,400,001 lines" 0 "$work/wanted" /dev/null trace --limit 4294967295 "$work/steps"
    { seq 0 1399999 | sed 's/.*/0 & R 0xabc0 0 0 &/'; echo '0 1400000 W 0x8 1 1 1400000'; } >"$work/records"
    told "1,400,001 records" 0 "$work/records" /dev/null trace --records --limit 4294967295 "$work/steps"
    echo legal >"$work/wanted"
    told "1,400,001 records, checked" 0 "$work/wanted" /dev/null check "$work/steps" "$work/records"
    printf '\n0 W 0x8' >>"$work/steps"
    refused "a fault behind 1,400,001 lines" 2 'tardis: line 1400002: 7 BadValue' trace "$work/steps"
}

# Sixteen cores load 300,000 words, each word once.
many_words() {
    awk 'BEGIN { for (k = 0; k < 300000; k++) printf "%d R 0x%x\n", k % 16, 8 * k }' >"$work/steps"
    { loads_of 16 300000; awk 'BEGIN { for (k = 0; k < 300000; k++) printf "word 0x%x 0\n", 8 * k }'; } >"$work/wanted"
    told "300,000 words" 0 "$work/wanted" /dev/null trace --limit 4294967295 "$work/steps"
    told "300,000 words by threads" 0 "$work/wanted" /dev/null \
        trace --schedule threads --limit 4294967295 "$work/steps"
    "$tardis" trace --records --limit 4294967295 "$work/steps" >"$work/records"
    echo legal >"$work/wanted"
    told "300,000 words: the records" 0 "$work/wanted" /dev/null check "$work/steps" "$work/records"
}

# Of 4,000 loads the last received another value, or its number is one too great.
late_faults() {
    yes '0 R 0x0' | head -n 4000 >"$work/steps"
    seq 0 3998 | sed 's/.*/0 & R 0x0 0 0 &/' >"$work/records"
    { cat "$work/records"; echo '0 3999 R 0x0 1 0 3999'; } >"$work/text"
    echo 'wrong value 3999' >"$work/wanted"
    told "a late wrong value" 1 "$work/wanted" /dev/null check "$work/steps" "$work/text"
    { cat "$work/records"; echo '0 3999 R 0x0 0 0 4000'; } >"$work/text"
    echo 'bad number 3999' >"$work/wanted"
    told "a late bad number" 1 "$work/wanted" /dev/null check "$work/steps" "$work/text"
}

# table FILE OPTION ..: rows of a verdict, a trace and records, for a check with these options.
table() {
    file=$1
    shift
    while IFS='|' read -r verdict steps records; do
        case $verdict in '#'*) continue ;; esac
        printf '%b' "$steps" >"$work/steps"
        printf '%b' "$records" >"$work/records"
        printf '%s\n' "$verdict" >"$work/wanted"
        status=1
        if [ "$verdict" = legal ]; then status=0; fi
        told "$verdict: $steps and $records" "$status" "$work/wanted" /dev/null check "$@" "$work/steps" "$work/records"
    done <"$file"
}

verdicts() {
    table "$examples/verdicts.table"
    falling_times
}

complete() { table "$examples/complete.table" --complete; }

# Each row's opening goes to a file; the rest of the row is as in verdicts.table.
opening() {
    while IFS='|' read -r verdict words behind; do
        case $verdict in '#'*) continue ;; esac
        printf '%b' "$words" >"$work/opening"
        printf '%s|%s\n' "$verdict" "$behind" >"$work/row"
        table "$work/row" --opening "$work/opening"
    done <"$examples/opening.table"
    many_words
}

# 40,000 words open with values of their own, the last one in a line without a line feed; then one opens twice.
many_words() {
    awk 'BEGIN { for (k = 0; k < 40000; k++) printf "%s0x%x %d", k ? "\n" : "", 8 * (k * 7919 % 40000), k }' \
        >"$work/opening"
    awk 'BEGIN { for (k = 0; k < 40000; k++) printf "0 R 0x%x\n", 8 * (k * 7919 % 40000) }' >"$work/steps"
    awk 'BEGIN { for (k = 0; k < 40000; k++) printf "0 %d R 0x%x %d 0 %d\n", k, 8 * (k * 7919 % 40000), k, k }' \
        >"$work/records"
    echo legal >"$work/wanted"
    told "40,000 words" 0 "$work/wanted" /dev/null \
        check --opening "$work/opening" --complete "$work/steps" "$work/records"
    { cat "$work/opening"; printf '\n0x8 0\n'; } >"$work/text"
    refused "one of 40,000 words, opened twice" 2 'tardis: opening: line 40001: 10 DoubleWord' \
        check --opening "$work/text" "$work/steps" "$work/records"
}

# 140,000 stores of one core, whose times fall as their numbers rise, so that the records must be sorted.
falling_times() {
    awk 'BEGIN { for (k = 0; k < 140000; k++) printf "0 W 0x%x %d\n", 8 * k, k }' >"$work/steps"
    awk 'BEGIN { for (k = 139999; k >= 0; k--) printf "0 %d W 0x%x %d %d %d\n", k, 8 * k, k, k, 139999 - k }' \
        >"$work/records"
    echo legal >"$work/wanted"
    told "140,000 records whose times fall" 0 "$work/wanted" /dev/null check "$work/steps" "$work/records"
}

# faults TABLE WORDS..: each text of the table, written to a file whose name follows the words.
faults() {
    table=$1
    shift
    while IFS='|' read -r fault text; do
        case $fault in '#'*) continue ;; esac
        printf '%b' "$text" >"$work/text"
        refused "$text" 2 "tardis: $fault" "$@" "$work/text"
    done <"$table"
}

# many NUMBER LETTER: the letter, NUMBER times.
many() {
    head -c "$1" /dev/zero | tr '\0' "$2"
}

# long_lines SAID KIND FIELDS WORDS..: lines of 256 and of 257 bytes, with their comments, and one line more than there
# may be. SAID is what each fault begins with, and KIND that of letters.
long_lines() {
    said=$1 kind=$2 fields=$3
    shift 3
    { echo '#'; printf '%s #' "$fields"; many $((255 - ${#fields})) x; printf '\n%s' "$fields"; } >"$work/text"
    refused "fields and a comment of 257 bytes" 2 "$said 2: 3 TooLong" "$@" "$work/text"
    { echo '#'; printf '%s' "$fields"; many $((257 - ${#fields})) ' '; } >"$work/text"
    refused "fields and blanks of 257 bytes" 2 "$said 2: 3 TooLong" "$@" "$work/text"
    { many 257 a; echo; } >"$work/text"
    refused "257 letters" 2 "$said 1: 3 TooLong" "$@" "$work/text"
    { echo; printf '#'; many 256 c; } >"$work/text"
    refused "a comment of 257 bytes" 2 "$said 2: 3 TooLong" "$@" "$work/text"
    { many 256 a; echo; } >"$work/text"
    refused "256 letters" 2 "$said 1: $kind" "$@" "$work/text"
    { many 16777216 '\n'; } >"$work/text"
    printf ' ' >>"$work/text"
    refused "16,777,217 lines" 2 "$said 16777217: 3 TooLong" "$@" "$work/text"
}

trace_faults() {
    faults "$bad/traces.table" trace
    faults "$bad/records.table" check "$examples/traces/EMPTY.trace"
    faults "$bad/openings.table" check "$examples/traces/EMPTY.trace" "$examples/traces/EMPTY.trace" --opening
}

# Pipes. Who writes the records opens theirs once the trace is written, so the trace must be opened first, and an
# opening before it. A fault is told while its pipe stays open: no read follows the one that shows it.
pipes() {
    mkfifo "$work/opening.pipe" "$work/trace.pipe" "$work/records.pipe"
    { echo '0 R 0x0' >"$work/trace.pipe"; echo '0 0 R 0x0 0 0 0' >"$work/records.pipe"; } &
    writer=$!
    echo legal >"$work/wanted"
    told "pipes written one after the other" 0 "$work/wanted" /dev/null check "$work/trace.pipe" "$work/records.pipe"
    kill "$writer" 2>/dev/null
    {
        echo '0x0 5' >"$work/opening.pipe"
        echo '0 R 0x0' >"$work/trace.pipe"
        echo '0 0 R 0x0 5 0 0' >"$work/records.pipe"
    } &
    writer=$!
    told "an opening's pipe written before them" 0 "$work/wanted" /dev/null \
        check "$work/trace.pipe" "$work/records.pipe" --opening "$work/opening.pipe"
    kill "$writer" 2>/dev/null
    stays_open '0 X' "$fault" trace "$work/trace.pipe"
    stays_open '0 0 X' "$fault" check "$some" "$work/trace.pipe"
    stays_open '0x0 X' 'tardis: opening: line 1: 7 BadValue' check "$some" "$some" --opening "$work/trace.pipe"
    rm -f "$work/opening.pipe" "$work/trace.pipe" "$work/records.pipe"
}

stays_open() {
    { echo "$1"; exec sleep 300; } >"$work/trace.pipe" &
    writer=$!
    line=$2
    shift 2
    refused "$line of a pipe that stays open" 2 "$line" "$@"
    kill "$writer" 2>/dev/null
}

trace_refusals() {
    some=$examples/traces/EMPTY.trace
    long_lines 'tardis: line' '4 BadCore' '0 R 0x0' trace
    long_lines 'tardis: line' '4 BadCore' '0 0 R 0x0 0 0 0' check "$some"
    long_lines 'tardis: opening: line' '6 BadAddress' '0x0 0' check "$some" "$some" --opening
    echo legal >"$work/legal"
    { printf '#'; many 255 c; echo; many 16777215 '\n'; } >"$work/text"
    told "16,777,216 lines, and one of 256 bytes" 0 "$work/legal" /dev/null check "$work/text" "$some"
    told "the same of an opening" 0 "$work/legal" /dev/null check --opening "$work/text" "$some" "$some"
    echo '0 X' >"$work/text"
    fault='tardis: line 1: 5 BadOperation'
    refused "the trace's fault goes before the records'" 2 "$fault" check "$work/text" "$work/text"
    refused "the trace's fault goes before records that can't be read" 2 "$fault" check "$work/text" "$examples"
    refused "the opening's fault goes before the trace's" 2 'tardis: opening: line 1: 6 BadAddress' \
        check --opening "$work/text" "$work/text" "$some"
    refused "an opening that is accepted, and the trace's fault" 2 "$fault" check --opening "$some" "$work/text" "$some"
    refused "no opening, and a bad trace" 4 'tardis: read failed' check --opening "$bad/none" "$work/text" "$some"
    refused "a bad opening, and no records" 4 'tardis: read failed' \
        check --opening "$work/text" "$some" "$bad/none.records"
    refused "a folder as an opening" 4 'tardis: read failed' check --opening "$examples" "$work/text" "$some"
    refused "an input refused, with a bad configuration" 2 "$fault" trace --lease 0 "$work/text"
    refused "lease 0" 3 'tardis: bad configuration' trace --lease 0 "$some"
    refused "no trace" 4 'tardis: read failed' trace "$bad/none.trace"
    refused "a folder as a trace" 4 'tardis: read failed' trace "$examples"
    refused "no trace to check" 4 'tardis: read failed' check "$bad/none.trace" "$some"
    refused "no records, and a bad trace" 4 'tardis: read failed' check "$work/text" "$bad/none.records"
    refused "a folder as records" 4 'tardis: read failed' check "$some" "$examples"
    pipes
    full "a trace's report to a full device" trace "$some"
    full "a verdict to a full device" check "$some" "$some"
}

# The program is built here, where it isn't, so that what building tells is no example's error text.
"$tardis" litmus "$examples/litmus/SB.litmus" >/dev/null || { echo "check.sh: the program doesn't run"; exit 1; }

for part in $parts; do
    "$part"
done

echo "$passed passed, $failed failed"
[ "$failed" -eq 0 ]
