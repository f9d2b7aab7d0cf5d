#!/usr/bin/env bash
# Makes a Debian package of what `make install` installs, by dpkg-deb alone: tools/deb.sh [FOLDER]. It lies in the
# folder, or in build/, and its name is printed.
set -eu
unset CDPATH MAKEFLAGS MFLAGS MAKELEVEL
umask 022
root=$(cd "$(dirname "$0")/.." && pwd)
to=${1:-$root/build}
command -v dpkg-deb >/dev/null || { echo 'dpkg-deb is not here (dpkg)' >&2; exit 1; }
folder=$(mktemp -d)
trap 'rm -rf "$folder"' EXIT
chmod 755 "$folder"

make -s -C "$root" install PREFIX=/usr DESTDIR="$folder" >&2
version=$(cat "$root/VERSION")
mkdir -p "$to"
libraries=("$folder"/usr/bin/llfree "$folder"/usr/lib/libllfree.so."$version")
# the oldest C library with all that is asked for
glibc=$(readelf -V "${libraries[@]}" | grep -oE 'GLIBC_[0-9.]+' | sort -uV | tail -n 1)
mkdir "$folder/DEBIAN" "$folder/usr/share/doc" "$folder/usr/share/doc/llfree"
echo 'No licence has been chosen yet: all rights are reserved.' >"$folder/usr/share/doc/llfree/copyright"
echo 'activate-noawait ldconfig' >"$folder/DEBIAN/triggers"
cat >"$folder/DEBIAN/control" <<END
Package: llfree
Version: $version
Architecture: amd64
Maintainer: Furrowanon maintainers <maintainers@users.noreply.furrowanon.example>
Section: libs
Priority: optional
Depends: libc6 (>= ${glibc#GLIBC_})
Installed-Size: $(du -sk --exclude=DEBIAN "$folder" | cut -f 1)
Description: page frames, taken and given without locks; proved
 A library for C, static and shared, and a program that answers traces.
END
(cd "$folder" && find usr -type f -exec md5sum {} +) >"$folder/DEBIAN/md5sums"
dpkg-deb --root-owner-group --build "$folder" "$to" >&2
echo "$to/llfree_${version}_amd64.deb"
