#!/usr/bin/env bash
# Takes the symbols out of all programs and libraries below a folder, and puts them below another one, where debuggers look for them by build-id:
# strip.sh FOLDER SYMBOLS. It prints the build-ids.
set -euo pipefail

find "$1" -type f \( -perm -100 -o -name '*.so*' \) -print | LC_ALL=C sort | while read -r file; do
    [[ $(head -c 4 "$file") == $'\177ELF' ]] || continue
    id=$(readelf -n "$file" | sed -n 's/^ *Build ID: //p')
    target=$2/usr/lib/debug/.build-id/${id:0:2}/${id:2}.debug
    mkdir -p "${target%/*}"
    objcopy --only-keep-debug --compress-debug-sections "$file" "$target"
    chmod 644 "$target"
    strip --strip-unneeded --remove-section=.comment "$file"
    echo "$id"
done
find "$1" -type f -name '*.a' -exec strip --strip-debug --enable-deterministic-archives {} +
