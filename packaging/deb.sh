#!/bin/sh
# Makes a Debian package of what `make install` installs, in FOLDER (packaging/out where none is told), and prints its name. It
# wants dpkg-deb, make, gzip, readelf (binutils) and the kit.
#
#     packaging/deb.sh [FOLDER]
set -eu
here=$(cd "$(dirname "$0")" && pwd)
top=$here/..
folder=${1:-$here/out}
root=$(mktemp -d)
trap 'rm -rf "$root"' EXIT
umask 022

version=$(sed -n '1s/^isdbt (\(.*\)) .*/\1/p' "$here/changelog")
if [ "$version" != "$(sed -n 's/^version=//p' "$top/isdbt")-${version##*-}" ]; then
    echo "deb.sh: packaging/changelog has version $version, and the script isdbt another" >&2
    exit 1
fi

make -C "$top" install DESTDIR="$root" PREFIX=/usr >&2
chmod 755 "$root"
install -d "$root/DEBIAN" "$root/usr/share/doc/isdbt"
install -m 644 "$top/LICENSE" "$root/usr/share/doc/isdbt/copyright"
gzip -9n <"$here/changelog" >"$root/usr/share/doc/isdbt/changelog.Debian.gz"
(cd "$root" && find usr -type f -exec md5sum {} + >DEBIAN/md5sums)

architecture=$(dpkg --print-architecture)
size=$(du -sk "$root/usr" | cut -f 1)
libc=$(readelf -V "$root/usr/libexec/isdbt/isdbt" | sed -n 's/.*Name: GLIBC_\([0-9.]*\).*/\1/p' | sort -V | tail -n 1)
kit=$(rt version)
sed -e "s/@VERSION@/$version/; s/@ARCHITECTURE@/$architecture/; s/@SIZE@/$size/; s/@LIBC@/$libc/; s/@KIT@/$kit/" \
    "$here/control" >"$root/DEBIAN/control"

mkdir -p "$folder"
package=$folder/isdbt_${version}_$architecture.deb
dpkg-deb --root-owner-group --build "$root" "$package" >&2
echo "$package"
