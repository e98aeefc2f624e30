#!/bin/sh
# Makes a Debian package of what maintain/install.sh installs: maintain/deb.sh FOLDER
# The package tardis-proved goes to FOLDER, under its version: `apt-get install ./FILE` installs it. The script needs
# dpkg-deb, binutils and all that install.sh needs. DEBFULLNAME and DEBEMAIL name the maintainer.
case ${1-} in '' | -*) exec sed -n '2,/^[^#]/s/^# \{0,1\}//p' "$0" ;; esac
top=$(CDPATH='' cd -- "$(dirname -- "$0")/.." && pwd) || exit 1
mkdir -p "$1" && out=$(CDPATH='' cd -- "$1" && pwd) || exit 1
stage=$(mktemp -d) || exit 1
trap 'rm -rf "$stage"' EXIT
trap 'exit 1' HUP INT TERM
umask 022
"$top/maintain/install.sh" "$stage/usr" || exit 1
cd "$stage" && chmod 755 . || exit 1
name=tardis-proved by="${DEBFULLNAME:-Tardis proved} <${DEBEMAIL:-packager@example.org}>"
version=$(sed -n 's/^Version: //p' usr/lib/pkgconfig/tardis.pc)
architecture=$(dpkg --print-architecture)

# The system finds the library itself, and a package's programs are to have no path of their own.
sed -i 's/ -Wl,-rpath,[^ ]*//' usr/lib/pkgconfig/tardis.pc || exit 1
strip --strip-unneeded usr/bin/* usr/lib/libtardis.so && strip --strip-debug usr/lib/libtardis.a || exit 1
gzip -9n usr/share/man/man1/*.1 || exit 1
about=usr/share/doc/$name
mkdir -p "$about" DEBIAN && cp "$top/LICENSE" "$about/copyright" || exit 1
printf '%s (%s) unstable; urgency=medium\n\n  * The repository'\''s version.\n\n -- %s  %s\n' \
    "$name" "$version" "$by" "$(date -R)" | gzip -9n >"$about/changelog.gz"

# The C library must have each version of a symbol that is called.
symbols=$(objdump -T usr/bin/* usr/lib/libtardis.so | grep -o 'GLIBC_[0-9.]*' | sort -Vu | tail -n 1)
cat >DEBIAN/control <<END
Package: $name
Version: $version
Architecture: $architecture
Maintainer: $by
Section: science
Priority: optional
Depends: libc6 (>= ${symbols#GLIBC_})
Installed-Size: $(du -sk usr | cut -f 1)
Description: proved simulator of the Tardis coherence protocol
 It runs litmus tests and address traces on the Tardis timestamp coherence
 protocol, and checks recorded memory histories for sequential consistency. The
 program, the player of events and the library for C, C++ and Python are proved.
END
echo "libtardis ${version%.*} $name (>= $version)" >DEBIAN/shlibs
echo 'activate-noawait ldconfig' >DEBIAN/triggers
find usr -type f -exec md5sum {} + >DEBIAN/md5sums
dpkg-deb --root-owner-group --build . "$out/${name}_${version}_$architecture.deb" >&2
