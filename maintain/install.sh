#!/bin/sh
# Installs what is built for others to find: maintain/install.sh PREFIX
# The program and the player of events (`tardis-play-events`), the library for C and C++ (static, and shared, which the
# Python package loads, too), its headers, files for pkg-config and CMake, two pages for man, and completions for bash,
# zsh and fish.
# `./tardis`, `./play` and `tests/embed.sh --build` build what is needed; this builds nothing, and needs rt, gcc and ar.
# No file names PREFIX, so the folder can be moved; a program that was linked before looks for the shared library where
# it was. maintain/deb.sh makes a Debian package of it.
case ${1-} in '' | -*) exec sed -n '2,/^[^#]/s/^# \{0,1\}//p' "$0" ;; esac
top=$(CDPATH='' cd -- "$(dirname -- "$0")/.." && pwd) || exit 1
tardis=${tardis:-$top/crates/tardis/out/tardis} events=${events:-$top/crates/play_events/out/play_events}
library=$top/crates/tardis_c/out/libtardis_c.a memory=$(dirname -- "$(rt doc)")/c/liblibc_c.a
for built in "$tardis" "$events" "$library" "$memory"; do
    [ -e "$built" ] || { echo "install.sh: $built isn't built" >&2; exit 1; }
done
mkdir -p "$1" && cd "$1" || exit 1
mkdir -p bin include lib/pkgconfig lib/cmake/tardis share/man/man1 share/bash-completion/completions \
    share/zsh/site-functions share/fish/vendor_completions.d || exit 1
install -m 755 "$tardis" bin/tardis && install -m 755 "$events" bin/tardis-play-events || exit 1
cp "$top"/crates/tardis_c/tardis*.h* include/ || exit 1

number=$(sed -n 's/^#define TARDIS_VERSION //p' include/tardis.h)
minor=$((number / 10000)).$((number / 100 % 100))
version=$minor.$((number % 100))

rm -f lib/libtardis.a
printf 'create lib/libtardis.a\naddlib %s\naddlib %s\nsave\nend\n' "$library" "$memory" | ar -M || exit 1
# Its name has the version, since each minor version may have other structures. Only the header's exports are seen.
echo '{ global: tardis_c_*; local: *; };' >lib/exports
gcc -shared -o "lib/libtardis.so.$minor" -Wl,-soname,"libtardis.so.$minor" -Wl,--no-undefined \
    -Wl,--version-script=lib/exports -Wl,--whole-archive "$library" -Wl,--no-whole-archive "$memory" || exit 1
rm lib/exports && chmod 644 lib/*.so.* && ln -sf "libtardis.so.$minor" lib/libtardis.so || exit 1

cat >lib/pkgconfig/tardis.pc <<END
prefix=\${pcfiledir}/../..
Name: tardis
Description: The proved simulator of the Tardis coherence protocol and its checker of histories
Version: $version
Cflags: -I\${prefix}/include
Libs: -L\${prefix}/lib -Wl,-rpath,\${prefix}/lib -ltardis
END
cat >lib/cmake/tardis/tardis-config.cmake <<'END'
get_filename_component(tardis_prefix "${CMAKE_CURRENT_LIST_DIR}/../../.." ABSOLUTE)
if(NOT TARGET tardis::tardis)
    add_library(tardis::tardis STATIC IMPORTED)
endif()
set_target_properties(tardis::tardis PROPERTIES IMPORTED_LOCATION "${tardis_prefix}/lib/libtardis.a"
    INTERFACE_INCLUDE_DIRECTORIES "${tardis_prefix}/include")
END
cat >lib/cmake/tardis/tardis-config-version.cmake <<END
set(PACKAGE_VERSION $version)
# A minor version may change calls.
if(NOT PACKAGE_VERSION VERSION_LESS PACKAGE_FIND_VERSION AND
        "\${PACKAGE_FIND_VERSION_MAJOR}.\${PACKAGE_FIND_VERSION_MINOR}" VERSION_EQUAL "$minor")
    set(PACKAGE_VERSION_COMPATIBLE TRUE)
endif()
if(PACKAGE_VERSION VERSION_EQUAL PACKAGE_FIND_VERSION)
    set(PACKAGE_VERSION_EXACT TRUE)
endif()
END

# help COMMAND: what the program says of it.
help() { bin/tardis ${1:+"$1"} --help 2>&1; }
commands=$(help | sed -n '/^Commands:/,/^$/s/^  \([a-z]*\) .*/\1/p')
{
    printf '.TH TARDIS 1\n.SH NAME\ntardis \\- simulates the Tardis coherence protocol, and checks what it simulates\n'
    for command in '' $commands; do
        printf '.SH %s\n.nf\n' "tardis ${command:---help}"
        help "$command" | sed 's/\\/\\\\/g; s/^\./\\\&./; s/-/\\-/g'
        printf '.fi\n'
    done
} >share/man/man1/tardis.1
cat >share/man/man1/tardis-play-events.1 <<'END'
.TH TARDIS-PLAY-EVENTS 1
.SH NAME
tardis\-play\-events \- plays examples of the Tardis coherence protocol, an event a line
.SH SYNOPSIS
.B tardis\-play\-events
[\fB\-\-print\fR] [\fIFILE\fR ...]
.br
.B tardis\-play\-events \-\-live
.SH DESCRIPTION
Plays each event of the files, or of standard input, on the proved machine, and says which answers differ from those
that the lines have. A line without an answer gets one.
.TP
.B \-\-print
writes the text of one file with the answers that came.
.TP
.B \-\-live
answers each call on standard input before it reads the next one.
.SH EXIT STATUS
0 if all answers match, 1 if one doesn't, 3 if a line or the command line can't be read, 4 if reading, writing or memory
fails.
.SH SEE ALSO
.BR tardis (1)
END

# options COMMAND: those that its help names.
options() { help "$1" | grep -o -- '^ *[a-zA-Z, -]*--[a-z-]*' | grep -o -- '--[a-z-]*' | tr '\n' ' '; }
{
    echo '_tardis() {'
    echo '    local words'
    echo '    case ${COMP_WORDS[1]} in'
    for command in $commands; do echo "    $command) words='$(options "$command")' ;;"; done
    echo "    *) words='"$commands"' ;;"
    echo '    esac'
    echo '    COMPREPLY=($(compgen -W "$words" -- "${COMP_WORDS[COMP_CWORD]}"))'
    echo '}'
    echo 'complete -o default -F _tardis tardis'
} >share/bash-completion/completions/tardis
{
    echo '#compdef tardis'
    echo '(( CURRENT > 2 )) || { compadd -- '$commands'; return }'
    echo 'case $words[2] in'
    for command in $commands; do echo "    $command) compadd -- $(options "$command") ;;"; done
    echo 'esac'
    echo '_files'
} >share/zsh/site-functions/_tardis
{
    echo "complete -c tardis -n __fish_use_subcommand -f -a '"$commands"'"
    for command in $commands; do
        for option in $(options "$command"); do
            echo "complete -c tardis -n '__fish_seen_subcommand_from $command' -l ${option#--}"
        done
    done
} >share/fish/vendor_completions.d/tardis.fish
