#!/bin/sh
# Builds callers of the static library of crates/tardis_c in C, C++ and Rust (examples/embed), and tries them:
# tests/embed.sh [--build | --kept]. Each number that a call answers is met once, by hand; the examples are run, and
# records checked, through the library, with the reports that the program must give, and at a cost that hardly grows
# with the cores. Valgrind says nothing of any of them. Histories that grow and machines that are driven are compared
# with the second program (tests/histories.py, tests/systems.py). It needs gcc, g++, valgrind and the Rattle kit, whose
# C file for memory is linked; without rustc it says so and leaves out the caller in Rust. At its end tests/installed.sh
# tries what is installed.
#
# With --build the library is proved and built first, with all below it. That takes two minutes where ./tardis is built,
# and half an hour on a new machine. With --kept it is built over what rt ci kept of the crates below, in a minute or
# two, as the gate does. Where the kit kept nothing, standard error says so, and nothing is tried.
top=$(CDPATH='' cd -- "$(dirname -- "$0")/.." && pwd) || exit 1
case ${1-} in -h | --help) exec sed -n '2,/^[^#]/s/^# \{0,1\}//p' "$0" ;; esac
build=${1-}
crate=$top/crates/tardis_c
embed=$top/examples/embed
kit=$(dirname -- "$(rt doc)") || exit 1
work=$(mktemp -d) || exit 1
trap 'rm -rf "$work"' EXIT
trap 'exit 1' HUP INT TERM

case $build in
--build)
    "$top/maintain/build.py" tardis_c >"$work/built" 2>&1
    ;;
--kept) "$top/maintain/static_library.py" >"$work/built" 2>&1 ;;
*) [ -e "$crate/out/libtardis_c.a" ] || echo "the library isn't built: --build does so" >"$work/built" ;;
esac
status=$?
if [ "$status" -eq 3 ]; then
    echo "embed.sh: not tried: $(tail -n 1 "$work/built")" >&2
    exit 0
elif [ "$status" -ne 0 ] || [ ! -e "$crate/out/libtardis_c.a" ]; then
    cat "$work/built"
    exit 1
fi
library="$crate/out/libtardis_c.a $kit/c/liblibc_c.a"

# The numbers, as C and as C++; a check of two files; the program's commands; a history in Rust.
memory='-Wl,--wrap=malloc,--wrap=realloc'
never_null=$(sed -n 's/^NEVER_NULL(\(.*\),$/-Wl,--wrap=\1/p' "$top/tests/never_null.c")
strict="-O1 -Wall -Wextra -Werror -I$crate"
# shellcheck disable=SC2086
{
    gcc -std=c11 -pedantic $strict $memory $never_null -DFEW -o "$work/numbers_c" "$embed/numbers.c" \
        "$top/tests/never_null.c" $library &&
    g++ -x c++ -std=c++11 -pedantic $strict $memory -o "$work/numbers_cpp" "$embed/numbers.c" -x none $library &&
    gcc -std=c11 -pedantic $strict -o "$work/check" "$embed/check.c" $library &&
    gcc -std=c11 -pedantic $strict -o "$work/directory" "$embed/directory.c" $library &&
    gcc -std=c11 -pedantic $strict -o "$work/history_c" "$embed/history.c" $library &&
    g++ -std=c++17 -pedantic $strict -o "$work/history_cpp" "$embed/history.cpp" $library &&
    g++ -std=c++17 -pedantic $strict -o "$work/tardis" "$embed/tardis.cpp" $library &&
    g++ -std=c++17 -pedantic $strict -o "$work/views" "$embed/views.cpp" $library &&
    g++ -std=c++17 -pedantic $strict -Wl,--wrap=tardis_c_trace -o "$work/reports" "$top/tests/reports.cpp" $library &&
    g++ -std=c++17 -pedantic $strict $memory -o "$work/machines" "$top/tests/machines.cpp" $library &&
    g++ -std=c++17 -pedantic $strict $memory -o "$work/throws" "$top/tests/throws.cpp" $library &&
    gcc -std=c11 -pedantic $strict $memory -o "$work/system_calls" "$top/tests/system_calls.c" $library &&
    g++ -x c++ -std=c++11 -pedantic $strict $memory -o "$work/system_calls_cpp" "$top/tests/system_calls.c" \
        -x none $library &&
    gcc -std=c11 -pedantic $strict -o "$work/systems" "$top/tests/systems.c" $library
} || exit 1

timeout 120 "$work/numbers_cpp" || exit 1
timeout 120 "$work/system_calls_cpp" || exit 1
timeout 600 "$top/tests/systems.py" "$work/systems" || exit 1

# silent PROGRAM WORDS..: valgrind adds no word to what it says, and its status stays: nothing is read or written that
# isn't the caller's, and nothing is left.
silent() {
    program=$1
    shift
    "$work/$program" "$@" <"$work/lines" >"$work/plain" 2>&1
    status=$?
    timeout 300 valgrind -q --leak-check=full --show-leak-kinds=all "$work/$program" "$@" <"$work/lines" \
        >"$work/said" 2>&1
    [ "$?" = "$status" ] && diff "$work/plain" "$work/said" || { echo "embed.sh: $program $* by valgrind"; exit 1; }
}

# A history of 40 cores that grows, with items that are refused.
awk 'BEGIN {
    print "word 0x8 5\nword 0x9 5\nverdict"
    for (core = 0; core < 40; core++) {
        print "issue", core, "S 0x8", core "\ncomplete"
        print "record", core, "0 S 0x8", core, core ? core - 1 : 5, 0, core "\nrecord 0 0 X 0x8 0 0 0 0\nverdict"
    }
    print "complete\nissue 7 R 0x8 0\nrecord 7 1 R 0x8 0 38 1 40\ncomplete"
}' >"$work/lines"
for each in history_c history_cpp; do
    silent "$each"
    [ "$status $(tail -n 1 "$work/said")" = "0 wrong value 40: expected 39 of record 39" ] ||
        { echo "embed.sh: $each: status $status: $(tail -n 1 "$work/said")"; exit 1; }
done
: >"$work/lines"
silent numbers_c
for each in system_calls machines throws; do
    silent "$each"
    [ "$status" = 0 ] || { cat "$work/said"; exit 1; }
done
silent reports
silent directory 0
silent directory 0 completion
silent tardis litmus "$top/examples/litmus/SB.litmus"
silent tardis ends --orders "$top/examples/litmus/SB.litmus"
silent tardis trace --records "$top/examples/traces/MIGRATORY.trace"

# Reports without copies, and what is thrown, next to those of the second program.
viewed() {
    silent views "$@"
    diff "$work/wanted" "$work/said" || { echo "embed.sh: views $*"; exit 1; }
}
for name in SB IRIW; do
    "$top/reference/oracle.py" litmus --schedule seed --runs 300 "$top/examples/litmus/$name.litmus" | awk '
        /^[0-9]/ { for (at = 2; at <= NF; at++) met[$at] += $1 }
        END { for (value in met) print value ": " met[value] }' | LC_ALL=C sort >"$work/wanted"
    viewed litmus "$top/examples/litmus/$name.litmus"
done
for name in MIGRATORY SWAP-LOCK FALSE-SHARING; do
    "$top/reference/oracle.py" trace --records "$top/examples/traces/$name.trace" | awk '
        { all[$1]++; wrote[$1] += $3 != "R"; time[$1] = $(NF - 1) }
        END {
            for (core in all)
                print "core " core ": " all[core] " completed, " wrote[core] " wrote, time " time[core]
        }
        ' | sort -k 2n >"$work/wanted"
    viewed trace "$top/examples/traces/$name.trace"
done
"$top/reference/oracle.py" litmus "$top/README.md" 2>"$work/wanted"
viewed litmus "$top/README.md"
[ "$status" = 2 ] || { echo "embed.sh: views of no litmus test: status $status"; exit 1; }

# The program in C++ that docs/USES.md shows, by the lines that it shows, prints what it shows.
ln -s "$top/crates" "$work/crates"
for kind in cpp sh text; do
    awk -v kind="$kind" '/^```/ { inside = $0 == "```" kind; next } inside' "$top/docs/USES.md" >"$work/shown.$kind"
done
mv "$work/shown.cpp" "$work/mine.cpp"
(cd "$work" && grep -B 1 '^g++ .* mine.cpp ' shown.sh >shown.line && sh ./shown.line && ./mine >said
    [ $? -eq 1 ] && tail -n 2 shown.text | diff - said) || { echo "embed.sh: the C++ of docs/USES.md"; exit 1; }

"$top/tests/histories.py" "$work/history_c" "$work/history_cpp" || exit 1

# checks TRACE RECORDS STATUS LINE: what the check of two files prints, on either stream, and its status.
checks() {
    said=$("$work/check" "$1" "$2" 2>&1)
    status=$?
    [ "$status $said" = "$3 $4" ] || { echo "embed.sh: check $1 $2: status $status: $said, not $3: $4"; exit 1; }
}
printf '0 W 0x0 1\n1 R 0x0\n' >"$work/trace"
printf '0 0 W 0x0 1 1 0\n1 0 R 0x0 1 1 1\n' >"$work/legal"
printf '0 0 W 0x0 1 1 0\n1 0 R 0x0 0 1 1\n' >"$work/wrong"
# Comments of 100 bytes, more than are read at a time, and then a record that isn't there.
awk 'BEGIN { for (i = 0; i < 2000; i++) printf "#%099d\n", i; print "1 0 R 0x0 1 1 0" }' >"$work/long"
checks "$work/trace" "$work/legal" 0 legal
checks "$work/trace" "$work/wrong" 1 'wrong value 1'
checks "$work/trace" "$work/long" 1 'wrong value 0'
checks "$work/legal" "$work/legal" 2 'tardis: line 1: 5 BadOperation'
checks "$work/trace" "$work/none" 2 'check: give a trace and its records: two files that can be read'
checks "$work/trace" "$work" 2 'check: give a trace and its records: two files that can be read'
silent check "$work/trace" "$work/long"
silent tardis check --complete "$work/trace" "$work/wrong"
(export EMBED_ARRAYS=1 && silent tardis check --complete "$work/trace" "$work/legal") || exit 1

# Lines of a log that lack a value, or have one too many.
for line in 'load 0x0' 'store 0x0 got 5' 'load 0x0 value 5' 'swap 0x0 value 5' 'store 0x0 value 5 sent 3 overtaken'; do
    echo "12 core 0 $line" | "$embed/from_log.py" - >"$work/said" 2>&1 &&
        { echo "embed.sh: from_log.py: $line"; exit 1; }
done

# spent CORES RECORDS: the instructions of the call that checks so many records, as arrays.
spent() {
    awk -v n="$1" -v all="$2" 'BEGIN { while (i < all) print i++ % n, "R 0x0" }' >"$work/trace"
    awk -v n="$1" -v all="$2" 'BEGIN { while (i < all) print i % n, int(i / n), "R 0x0 0 0", i++ }' >"$work/legal"
    EMBED_ARRAYS=1 valgrind --tool=callgrind --callgrind-out-file=/dev/null --toggle-collect=tardis_c_check_arrays \
        "$work/tardis" check "$work/trace" "$work/legal" 2>&1 | sed -n 's/.*Collected : //p'
}
# Lanes are merged by halves: a record of 64 cores is compared six times more often than one of one core, and no more.
more=$((($(spent 64 3072) - $(spent 64 1024) - $(spent 1 3072) + $(spent 1 1024)) / 2048))
[ "$more" -lt 400 ] || { echo "embed.sh: a record of 64 cores takes $more instructions more than one of one"; exit 1; }

if command -v rustc >/dev/null; then
    rustc --edition 2024 -O -o "$work/history" "$embed/history.rs" -C link-arg="$crate/out/libtardis_c.a" \
        -C link-arg="$kit/c/liblibc_c.a" || exit 1
    "$work/history" | diff "$embed/history.out" - || exit 1
else
    echo "embed.sh: no rustc, so the caller in Rust isn't tried" >&2
fi
PARTS='litmus settings seeds traces seeded_traces verdicts complete opening trace_faults' "$top/tests/check.sh" \
    "$work/tardis" >"$work/said" || { cat "$work/said"; exit 1; }
"$top/tests/ends.py" --lists "$work/tardis" >"$work/said" || { cat "$work/said"; exit 1; }
EMBED_ARRAYS=1 PARTS='verdicts complete' "$top/tests/check.sh" "$work/tardis" >"$work/said" ||
    { cat "$work/said"; exit 1; }

# A machine that has its own history checked: its verdict is that of the second program on its log. By effect a right
# machine's is legal; by completion some has an order that isn't its own, and a lost invalidation is met.
for way in effect completion lost; do
    option=$(echo "$way" | grep completion) met=
    for seed in 0 1 2 3 4 5; do
        # shellcheck disable=SC2086
        "$work/directory" "$seed" ${way#effect} >"$work/machine.log"
        echo "$?" >"$work/status"
        "$embed/from_log.py" ${option:+--completion} "$work/machine.log" >"$work/machine.history"
        said=$(TARDIS=$top/reference/oracle.py "$top/tools/number.py" --out "$work" "$work/machine.history" |
            grep -v '^checked by ' | sed -n '1 { $!N; s/\nat [^,]*\(, line [0-9]*\).*/\1/; p; }')
        [ "$(tail -n 1 "$work/machine.log"), $(cat "$work/status")" = "# $said, $([ "$said" = legal ]; echo $?)" ] ||
            { echo "embed.sh: directory $seed $way: $(tail -n 1 "$work/machine.log"), not $said"; exit 1; }
        [ "$said" = legal ] || met=$seed
    done
    [ "$way" = effect ] && [ -n "$met" ] && { echo "embed.sh: directory $met isn't legal"; exit 1; }
    [ "$way" = effect ] || [ -n "$met" ] || { echo "embed.sh: directory .. $way is always legal"; exit 1; }
done
"$work/directory" 0 completion >"$work/machine.log"
"$embed/from_log.py" --completion "$work/machine.log" >"$work/machine.history"
TARDIS=$top/reference/oracle.py "$top/tools/order.py" --out "$work" "$work/machine.history" | grep -q '^consistent' ||
    { echo "embed.sh: directory 0 completion has no order"; exit 1; }

"$top/tests/installed.sh"
