# What ./tardis and ./play share: whether a program is built, building it with all proofs, and running it without any.
# It is read by them, with `self`, the script's name for messages, and `top`, the folder of the repository.

say() {
    echo "$self: $*" >&2
}

# Whether the kit's command is there.
has_kit() {
    command -v rt >/dev/null || {
        say "the command 'rt' of the Rattle kit isn't on the path. Without the kit $without"
        return 1
    }
}

# is_built CRATE: whether its program is as new as every source of the crates that it depends on. A file next to the
# program lists these, so that nothing has to be searched for: a source that came later is named by one that changed.
is_built() {
    built=$top/crates/$1/out/$1
    [ -x "$built" ] || return 1
    if [ "$built.sources" -nt "$built" ] && newer=$(cd -- "$top/crates" &&
        find -files0-from "$built.sources" -maxdepth 0 -newer "$built" -print -quit 2>/dev/null); then
        [ -z "$newer" ]
        return
    fi
    [ -z "$(sources "$1" -newer "$built" -print -quit)" ] || return 1
    { sources "$1" -print0 >"$built.$$" && mv -- "$built.$$" "$built.sources"; } 2>/dev/null || :
}

# sources CRATE WORDS..: what `find` says with these words of the sources of the crates that it depends on.
sources() {
    of=$1
    shift
    # shellcheck disable=SC2046
    (cd -- "$top/crates" && find "$of" $(needed "$of") -name out -prune -o -type f \
        \( -name '*.rt' -o -name '*.antt' \) "$@")
}

# needed CRATE: the crates of the repository that it depends on. In crates.txt each follows those that it depends on.
needed() {
    awk -v crate="$1" '
        { sub(/#.*/, ""); gsub(/:/, " "); below[NR] = $0 }
        END {
            wanted[crate]
            for (line = NR; line > 0; line--) {
                count = split(below[line], names)
                if (!(names[1] in wanted)) { continue }
                if (names[1] != crate) { print names[1] }
                for (at = 2; at <= count; at++) { wanted[names[at]] }
            }
        }
    ' ../crates.txt
}

# build CRATE: proves and builds its program.
build() {
    has_kit || return 1
    say "the program isn't built, or a source is newer. All that it depends on is proved first, which takes"
    say "many minutes once ('./$self --unproved ..' answers in a few minutes, without any proof)."
    "$top/maintain/build.py" "$1"
}

# run_unproved CRATE WORDS..: runs its program from its sources without a proof. Words that name files are made to name
# them from anywhere.
run_unproved() {
    has_kit || return 126
    tried=$1
    shift
    left=$#
    while [ "$left" -gt 0 ]; do
        word=$1
        shift
        case $word in
            /* | -* | litmus | ends | trace | check) ;;
            *) [ ! -f "$word" ] || word=$PWD/$word ;;
        esac
        set -- "$@" "$word"
        left=$((left - 1))
    done
    say "nothing is proved of this run. The program is compiled from the sources as they lie here: that takes a minute"
    say "or two, longer beside other work, and anew each time ($without)."
    cd -- "$top/crates/$tried" && {
        { "$top/maintain/kit.py" try -- "$@" 2>&1 >&3; echo "ended $?"; } | tell_errors
    } 3>&1
}

# Passes on what is said on standard error, but for what the kit says of a run that ended, and of races, which it
# doesn't look for; the status is that of the last line, "ended N".
tell_errors() {
    awk '
        /^ended [0-9]+$/ { status = $2; next }
        /^checked: ended / || /^run=ended .* proved=no$/ || /^races: not looked for, / { next }
        { print; fflush() }
        END { exit status }
    ' >&2
}
