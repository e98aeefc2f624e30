#!/bin/sh
# Runs the commands that README.md, the other pages at the top, docs/*.md and the solutions of exercises show, and
# compares what they print with what the page shows: maintain/pages.sh [PROGRAM [PAGE ..]]
# PROGRAM is a program that is built; without it the program at the top is built where it isn't, and run.
#
# In a page a command stands in a fenced block `console`: a line `$ command`, and then all that it prints, standard
# output and standard error. A command whose line ends in a backslash goes on in the next line. The commands of a page
# run in a folder of their own, one after the other. There ./tardis is the program, which TARDIS names, too; examples,
# reference, tools, tests, maintain, docs, crates and bench are those of the repository. A fenced block `sh` shows
# commands that aren't run: they prove, or need other machines. A command in any other block is a fault of the page.
case ${1-} in -h | --help) exec sed -n '2,/^[^#]/s/^# \{0,1\}//p' "$0" ;; esac

top=$(CDPATH='' cd -- "$(dirname -- "$0")/.." && pwd) || exit 1
tardis=${1:-$top/tardis}
case $tardis in /*) ;; *) tardis=$PWD/$tardis ;; esac
[ $# -eq 0 ] || shift
work=$(mktemp -d) || exit 1
trap 'rm -rf "$work"' EXIT
trap 'exit 1' HUP INT TERM
passed=0
failed=0

# parts PAGE: its commands as the files N.command, N.wanted and N.line of $work/parts, from 1, and `faults`, its faults.
parts() {
    rm -rf "$work/parts"
    mkdir "$work/parts"
    : >"$work/parts/faults"
    awk -v folder="$work/parts" '
        function file(ending) { return folder "/" count "." ending }
        /^```/ { inside = !inside; kind = substr($0, 4); started = more = 0; next }
        inside && kind == "console" && !more && /^\$ / {
            count++
            started = 1
            print FNR >file("line")
            printf "" >file("wanted")
            print substr($0, 3) >file("command")
            more = /\\$/
            next
        }
        inside && kind == "console" && more { print >file("command"); more = /\\$/; next }
        inside && kind == "console" && started { print >file("wanted"); next }
        inside && kind == "console" { print FNR ": a block that begins without a command" >(folder "/faults"); next }
        (inside ? kind != "sh" : /^    /) && /^ *(\$ |\.\/tardis )/ {
            print FNR ": a command outside a block console" >(folder "/faults")
        }
        END { if (inside) { print FNR ": a block without an end" >(folder "/faults") } }
    ' "$1"
}

# run PAGE N: the command of this number, in the folder of the page.
run() {
    line=$(cat "$work/parts/$2.line")
    (cd "$work/here" && TARDIS=$tardis sh "$work/parts/$2.command") </dev/null >"$work/got" 2>&1
    if diff "$work/parts/$2.wanted" "$work/got" >"$work/difference"; then
        passed=$((passed + 1))
    else
        failed=$((failed + 1))
        printf '%s, line %s: %s\n' "${1#"$top"/}" "$line" "$(cat "$work/parts/$2.command")"
        cat "$work/difference"
    fi
}

page() {
    parts "$1"
    while IFS= read -r fault; do
        failed=$((failed + 1))
        echo "${1#"$top"/}, line $fault"
    done <"$work/parts/faults"
    rm -rf "$work/here"
    mkdir "$work/here"
    for name in examples reference tools tests maintain docs crates bench; do
        ln -s "$top/$name" "$work/here/$name"
    done
    ln -s "$tardis" "$work/here/tardis"
    number=1
    while [ -e "$work/parts/$number.command" ]; do
        run "$1" "$number"
        number=$((number + 1))
    done
}

# The program is built here, where it isn't, so that what building tells is no command's output.
"$tardis" litmus "$top/examples/litmus/SB.litmus" >/dev/null || { echo "pages.sh: the program doesn't run"; exit 1; }

[ $# -gt 0 ] || set -- "$top"/*.md "$top"/docs/*.md "$top"/examples/exercises/README.md
for each in "$@"; do
    page "$each"
done

echo "$passed commands print what their pages show, $failed faults"
[ "$failed" -eq 0 ]
