#!/usr/bin/env bash
# Makes what is handed out of what is built: `make release` calls it, with the folder BUILT and the folder RELEASE for these.
#
#   reqkey-VERSION-ARCHITECTURE.tar.gz   what `make install` puts below a prefix, to be run where it is unpacked, or unpacked below /usr/local
#   reqkeyd_VERSION_ARCHITECTURE.deb     the Debian package, and one with its symbols
#   SHA256SUMS                           the sums of these
#
# The same programs give the same bytes: times are SOURCE_DATE_EPOCH, or else as packaging/times.sh says.
set -euo pipefail
cd "$(dirname "$0")/.."
. packaging/times.sh

room=$(mktemp -d)
trap 'rm -rf "$room"' EXIT
umask 022
rm -rf "$RELEASE"
mkdir -p "$RELEASE"

version=$("$BUILT/reqkeyd" --version | cut -d ' ' -f 2)
architecture=$(dpkg --print-architecture)
name=reqkey-$version-$architecture
DESTDIR=$room/root PREFIX=/usr/local ZSH_DIR=/usr/local/share/zsh/site-functions LIB_DIR=/usr/local/lib PYTHON_DIR=/usr/local/lib/python3/dist-packages \
    packaging/install.sh install
packaging/strip.sh "$room/root" "$room/symbols" > /dev/null
mv "$room/root/usr/local" "$room/$name"
tar -C "$room" --sort=name --mtime="@$SOURCE_DATE_EPOCH" --owner=0 --group=0 --numeric-owner --format=gnu -cf - "$name" | gzip -9n > "$RELEASE/$name.tar.gz"
PACKAGES=$RELEASE packaging/debian/build.sh > /dev/null
(cd "$RELEASE" && sha256sum -- *.deb *.tar.gz > SHA256SUMS)
ls "$RELEASE"
