#!/bin/sh
# Compiles a program of one or more files in C or C++, runs it, and writes its trace:
#     record.sh TRACE FILE.c|FILE.cpp .. [compiler options]
# The options reach the linker, too, as -fopenmp or -lm, and the compiler finds tardis_record.h.
# Files that end in .cpp, .cc or .cxx are C++. CC and CXX name the compilers; if they aren't set, they are gcc and g++,
# or clang and clang++ where these aren't there. What the program prints goes to standard error. The status is that of
# the compiler if it refuses the files, else that of the program.
case ${1-} in -h | --help) exec sed -n '2,/^[^#]/s/^# \{0,1\}//p' "$0" ;; esac
here=$(CDPATH='' cd -- "$(dirname -- "$0")" && pwd) || exit 1
[ $# -ge 2 ] || { sed -n '2,7s/^# //p' "$0" >&2; exit 3; }
trace=$1
shift
cc=${CC:-$(command -v gcc || command -v clang)} || { echo "record.sh: there is no C compiler" >&2; exit 1; }
link=$cc
work=$(mktemp -d) || exit 1
trap 'rm -rf "$work"' EXIT
trap 'exit 1' HUP INT TERM

files='' compiled='' linked=''
for word in "$@"; do
    case $word in
    *.c | *.cpp | *.cc | *.cxx) files="$files $word" ;;
    -l* | -L*) linked="$linked $word" ;;
    *) compiled="$compiled $word" ;;
    esac
done
number=0
# shellcheck disable=SC2086
for file in $files; do
    number=$((number + 1))
    compile="$cc -std=gnu11"
    case $file in *.c) ;; *)
        link=${CXX:-$(command -v g++ || command -v clang++)} ||
            { echo "record.sh: there is no C++ compiler" >&2; exit 1; }
        compile=$link
        ;;
    esac
    $compile -O1 "-I$here" $compiled -fsanitize=thread -c "$file" -o "$work/$number.o" || exit
    # For a copy or a fill of memory clang calls the C library, which records nothing.
    case $($compile --version) in *clang*)
        objcopy --redefine-sym memcpy=__tsan_memcpy --redefine-sym memmove=__tsan_memmove \
            --redefine-sym memset=__tsan_memset "$work/$number.o" || exit
        ;;
    esac
done
"$cc" -std=gnu11 -O2 -Wall -Wextra -c "$here/recorder.c" -o "$work/recorder.o" &&
    # shellcheck disable=SC2086
    "$link" "$work"/*.o $compiled $linked -pthread -o "$work/program" || exit
TRACE=$trace "$work/program" >&2
