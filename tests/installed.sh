#!/bin/sh
# Tries what is installed, as other programs find it: tests/installed.sh
# The program, the player of events and the static library must be built; `tardis` and `events` in the environment name
# the first two elsewhere. Where dpkg-deb is there, a Debian package is made, in which lintian finds no error, and it is
# unpacked into a folder; else maintain/install.sh fills the folder. Then the Python package, the notebook, networks and
# machines in C++, pkg-config and CMake use what is there. Standard error says what isn't tried, and for lack of what.
case ${1-} in -h | --help) exec sed -n '2,/^[^#]/s/^# \{0,1\}//p' "$0" ;; esac
top=$(CDPATH='' cd -- "$(dirname -- "$0")/.." && pwd) || exit 1
embed=$top/examples/embed
work=$(mktemp -d) || exit 1
trap 'rm -rf "$work"' EXIT
trap 'exit 1' HUP INT TERM

# has TOOL WHAT: whether the tool is there; if not, standard error says what isn't tried.
has() { command -v "$1" >/dev/null || { echo "installed.sh: no $1, so $2 isn't tried" >&2; return 1; }; }
fail() { echo "installed.sh: $*"; exit 1; }

prefix=$work/package/usr
if has dpkg-deb "the Debian package"; then
    "$top/maintain/deb.sh" "$work" 2>"$work/said" || fail "$(cat "$work/said")"
    dpkg-deb --extract "$work"/tardis-proved_*.deb "$work/package" || exit 1
    ! grep rpath "$prefix/lib/pkgconfig/tardis.pc" || fail "programs over the package have a path of their own"
    if has lintian "the package's form"; then
        lintian --allow-root --fail-on error "$work"/*.deb >"$work/said" 2>&1 || fail "$(cat "$work/said")"
    fi
else
    "$top/maintain/install.sh" "$prefix" || exit 1
fi
export PATH="$prefix/bin:$PATH" LD_LIBRARY_PATH="$prefix/lib" PKG_CONFIG_PATH="$prefix/lib/pkgconfig"
export TARDIS_PLAYER="$prefix/bin/tardis-play-events"

printf '0 W 0x0 1\n1 R 0x0\n' >"$work/trace"
printf '0 0 W 0x0 1 1 0\n1 0 R 0x0 1 1 1\n' >"$work/legal"
# legal NAME COMMAND..: the command, which was built over what is installed, or is installed, checks a history.
legal() {
    name=$1
    shift
    said=$("$@" "$work/trace" "$work/legal")
    [ "$said" = legal ] || fail "$name: $said"
}
legal tardis "$prefix/bin/tardis" check
version=$("$prefix/bin/tardis" --version 2>&1)
said=$(cd "$top/python" && python3 -c 'import tardis; print("tardis", tardis.__version__)')
[ "$version" = "$said" ] || fail "$version, and in Python $said"
"$top/tests/python_package.py" --library && "$top/tests/histories.py" "$embed/history.py" || exit 1
gcc -shared -fPIC -O1 -o "$work/refusing.so" "$top/tests/refusing.c" -Wl,--wrap=malloc -Wl,--wrap=realloc \
    -Wl,--wrap=free -Wl,--whole-archive "$prefix/lib/libtardis.a" -Wl,--no-whole-archive &&
    TARDIS_LIBRARY="$work/refusing.so" "$top/tests/python_package.py" --refused || exit 1
"$top/tests/notebook.py" || exit 1

# The shared library's name has the version; it exports the calls of the header and nothing else, and can't be run.
minor=${version#tardis }
minor=${minor%.*}
shared=$prefix/lib/libtardis.so.$minor
objdump -p "$shared" | grep -q "SONAME  *libtardis\.so\.$minor\$" || fail "the name within $shared"
[ "$(readlink "$prefix/lib/libtardis.so") $(stat -c %a "$shared")" = "libtardis.so.$minor 644" ] || fail "$shared"
nm -D --defined-only "$shared" | awk '{ print $3 }' | sort -u >"$work/exports"
grep -o '\btardis_c_[a-z_]*(' "$prefix/include/tardis.h" | tr -d '(' | sort -u | diff "$work/exports" - ||
    fail "what $shared exports"

for page in tardis tardis-play-events; do
    zgrep -qs '^\.SH SYNOPSIS\|^\.SH tardis' "$prefix/share/man/man1/$page.1"* || fail "no page for man of $page"
done
for words in '\.SH tardis litmus' '\.SH tardis ends' '\.SH tardis trace' '\.SH tardis check' ' .*\\-\\-line\\-words'; do
    zgrep -q "^$words" "$prefix"/share/man/man1/tardis.1* || fail "the page for man of tardis lacks $words"
done
# What each shell offers: the commands that begin with "li", and an option of one command that another doesn't have.
offers() {
    shell=$1 said=$2
    [ "$said" = "litmus --records" ] || fail "$shell offers $said"
}
offers bash "$(bash -c '. "$0/share/bash-completion/completions/tardis"
    offered() { COMP_WORDS=(tardis "$@") COMP_CWORD=$#; _tardis; echo -n "${COMPREPLY[*]}"; }
    offered li; offered check --rec; echo -n " "; offered trace --rec' "$prefix")"
if has fish "its completions"; then
    offers fish "$(XDG_DATA_DIRS="$prefix/share" fish -c 'complete -C "tardis li"; complete -C "tardis check --rec"
        complete -C "tardis trace --rec"' | tr '\n' ' ' | sed 's/ $//')"
fi
if has zsh "its completions"; then
    offers zsh "$(zsh -fc 'compadd() { for each in ${@:2}; [[ $each != $words[CURRENT]* ]] || print -n -- "$each " }
        _files() { }
        file=$0/share/zsh/site-functions/_tardis
        offered() { words=(tardis "$@") CURRENT=$(($# + 1)); . $file }
        offered li; offered check --rec; offered trace --rec' "$prefix" | sed 's/ $//')"
fi

if has pkg-config "its file"; then
    # shellcheck disable=SC2046
    gcc -o "$work/by_pkg_config" "$embed/check.c" $(pkg-config --cflags --libs tardis) || exit 1
    legal pkg-config "$work/by_pkg_config"
    said=$(pkg-config --modversion tardis)
    [ "$version" = "tardis $said" ] || fail "$version, and by pkg-config $said"
    # In a folder of one's own it takes no variable of the environment, neither to build nor to run.
    "$top/maintain/install.sh" "$work/own" || exit 1
    # shellcheck disable=SC2046
    env -u PKG_CONFIG_PATH pkg-config --cflags --libs "$work/own/lib/pkgconfig/tardis.pc" >"$work/words" &&
        gcc -o "$work/by_path" "$embed/check.c" $(cat "$work/words") || exit 1
    legal "pkg-config without variables" env -u LD_LIBRARY_PATH "$work/by_path"
fi
if has cmake "its file"; then
    # As two parts of one project find it.
    printf '%s\n' 'cmake_minimum_required(VERSION 3.13)' 'project(tried C CXX)' 'find_package(tardis 0.4 REQUIRED)' \
        "add_executable(by_cmake $embed/check.c)" 'target_link_libraries(by_cmake tardis::tardis)' \
        "find_package(tardis ${version#tardis } EXACT REQUIRED)" 'set(CMAKE_CXX_STANDARD 17)' \
        "add_executable(in_cpp $embed/tardis.cpp)" 'target_link_libraries(in_cpp tardis::tardis)' \
        'find_package(tardis 9.9 QUIET)' 'if(tardis_FOUND)' 'message(FATAL_ERROR "version 9.9 is found")' 'endif()' \
        'find_package(tardis 0.1 QUIET)' 'if(tardis_FOUND)' 'message(FATAL_ERROR "version 0.1 is found")' 'endif()' \
        >"$work/CMakeLists.txt"
    { cmake -S "$work" -B "$work/cmake" -DCMAKE_PREFIX_PATH="$prefix" && cmake --build "$work/cmake"; } \
        >"$work/said" 2>&1 || fail "$(cat "$work/said")"
    legal cmake "$work/cmake/by_cmake"
    legal "cmake in C++" "$work/cmake/in_cpp" check
fi

strict="-pedantic -O1 -Wall -Wextra -Werror -I$prefix/include"
# shellcheck disable=SC2086
g++ -std=c++17 $strict -o "$work/latency" "$embed/latency.cpp" -L"$prefix/lib" -ltardis &&
    gcc -std=c11 $strict -o "$work/drive" "$embed/drive.c" -L"$prefix/lib" -ltardis || exit 1
# The machine from C: a load of a word that opens with 5, by hand.
valgrind -q --leak-check=full --show-leak-kinds=all "$work/drive" >"$work/said" 2>&1 ||
    fail "drive: $(cat "$work/said")"
diff - "$work/said" <<'END' || exit 1
opened
issued
requested
m0 ShReq core 1 > bank 0 0x8 pts 0 version none: started
m1 DramLd bank 0 > dram 0 0x8: delivered
m2 DramLdRep dram 0 > bank 0 0x8: delivered
m0 ShReq core 1 > bank 0 0x8 pts 0 version none: delivered
m3 ShRep bank 0 > core 1 0x8 wts 0 rts 10 words 5: delivered
completed 1 0 R 0x8 5 0 0
core 1 received 5
END
# A network of one's own, in C++ and in Python: the same cycles.
awk 'BEGIN { for (line = 0; line < 9; line++) printf "0 W 0x%x 1\n", 2048 * line }' >"$work/full.trace"
for trace in FIRST-STORE MIGRATORY FALSE-SHARING PAST COMMENTS EMPTY full; do
    path=$top/examples/traces/$trace.trace
    [ -e "$path" ] || path=$work/$trace.trace
    "$work/latency" "$path" 1 100 >"$work/said"
    "$embed/latency.py" "$path" 1 100 | diff "$work/said" - || exit 1
done
