#!/usr/bin/env bash
# Makes the Debian packages of what is built, by dpkg-deb alone: reqkeyd, and reqkeyd-dbgsym with its symbols. `make deb` calls it, with the folder BUILT that
# has the programs, and what is written in C, and the folder PACKAGES for the packages. It prints the path of the first.
#
# The same programs give the same bytes: times are SOURCE_DATE_EPOCH, or else as packaging/times.sh says. Installing starts no daemon, and restarts none;
# removing stops it (prerm).
set -euo pipefail
cd "$(dirname "$0")/../.."
. packaging/times.sh

room=$(mktemp -d)
trap 'rm -rf "$room"' EXIT
chmod 755 "$room"
umask 022
root=$room/root symbols=$room/symbols

multiarch=$(gcc -print-multiarch)
export DESTDIR=$root PREFIX=/usr ZSH_DIR=/usr/share/zsh/vendor-completions LIB_DIR=/usr/lib/$multiarch PYTHON_DIR=/usr/lib/python3/dist-packages
packaging/install.sh install
ids=$(packaging/strip.sh "$root" "$symbols" | tr '\n' ' ')

# the newest version of the C library of which a program here uses something
libc=$(find "$root" -type f \( -path '*/bin/*' -o -name '*.so*' \) -exec cat {} + | grep -aoE 'GLIBC_2[0-9.]+' | sort -uV | tail -n 1)
version=$("$BUILT/reqkeyd" --version | cut -d ' ' -f 2)
architecture=$(dpkg --print-architecture)
maintainer=$(sed -n 's/^Maintainer: //p' packaging/debian/control)

# what Debian has in its own place or form: pages and changes compressed, no second copy of a licence
doc=$root/usr/share/doc/reqkeyd
printf 'reqkeyd (%s) unstable; urgency=medium\n\n  * CHANGELOG.md says what has changed.\n\n -- %s  %s\n' \
    "$version" "$maintainer" "$(LC_ALL=C date -u -R -d "@$SOURCE_DATE_EPOCH")" > "$doc/changelog"
rm "$doc/LICENSE-APACHE" "$doc/LICENSE-MIT"
gzip -9n "$doc/changelog"
find "$root/usr/share/man" -type f -exec gzip -9n {} +
sed -i "s|LICENSE-MIT\\b|copyright|; s|LICENSE-APACHE\\b|copyright|" "$doc/README.md" "$doc/docs/INSTALL.md"

# makes a package of a folder: its control file, and what dpkg runs
package() {
    local name=$1 root=$2 control=$3
    local size file=$PACKAGES/${name}_${version}_$architecture.deb
    size=$(find "$root/usr" -type f -printf '%s\n' | awk '{ kilobytes += int(($1 + 1023) / 1024) } END { print kilobytes }')
    sed "s/@VERSION@/$version/; s/@ARCHITECTURE@/$architecture/; s/@SIZE@/$size/; s/@LIBC@/${libc#GLIBC_}/; s/@IDS@/${ids% }/" "$control" \
        > "$root/DEBIAN/control"
    (cd "$root" && find usr -type f -print0 | LC_ALL=C sort -z | xargs -0 md5sum) > "$root/DEBIAN/md5sums"
    dpkg-deb --root-owner-group --build "$root" "$file" > /dev/null
    echo "$file"
}

mkdir -p "$PACKAGES" "$root/DEBIAN" "$symbols/DEBIAN"
# What prerm stops: the units of a manager, templates with all of their instances. Timers and sockets come first, which would start the others again.
units_of() {
    (cd "$root/usr/lib/systemd/$1" && LC_ALL=C ls -r | LC_ALL=C sort -s -t . -k 2r) | sed "s/@\\./@*./; s/.*/'&'/" | tr '\n' ' ' | sed 's/ $//'
}
for script in prerm postrm; do
    sed "s|@UNITS@|$(units_of system)|; s|@USER_UNITS@|$(units_of user)|" "packaging/debian/$script" > "$root/DEBIAN/$script"
    chmod 755 "$root/DEBIAN/$script"
done
echo 'activate-noawait ldconfig' > "$root/DEBIAN/triggers"
echo "libreqkey 1 reqkeyd (>= $version)" > "$root/DEBIAN/shlibs"
package reqkeyd "$root" packaging/debian/control
mkdir -p "$symbols/usr/share/doc"
ln -s reqkeyd "$symbols/usr/share/doc/reqkeyd-dbgsym"
package reqkeyd-dbgsym "$symbols" packaging/debian/control-dbgsym > /dev/null
