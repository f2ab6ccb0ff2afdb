#!/usr/bin/env bash
# Installs the programs and what belongs to them, or removes it again: install.sh install, install.sh uninstall. `make` calls it, with these in the
# environment.
#
#   BUILT       the folder that has the programs, and what is written in C
#   PREFIX      below which everything goes
#   DESTDIR     put before all of that, for a package
#   LIB_DIR     where the linker finds libraries
#   PYTHON_DIR  where Python finds modules
#   ZSH_DIR     where zsh finds functions
set -euo pipefail
cd "$(dirname "$0")/.."
umask 022

room=$(mktemp -d)
trap 'rm -rf "$room"' EXIT

# Installs a file with this mode at this place, or removes it.
put() {
    local mode=$1 source=$2 target=$DESTDIR$3
    if [[ $act == install ]]; then
        install -D -m "$mode" "$source" "$target"
    else
        rm -f "$target"
    fi
}

# The same for a text, which names what is installed as it lies below /usr/local.
put_text() {
    if [[ $act == install ]]; then
        sed "s|/usr/local/|$PREFIX/|g" "$2" > "$room/text"
    fi
    put "$1" "$room/text" "$3"
}

# The same for a link to a file beside it.
put_link() {
    if [[ $act == install ]]; then
        ln -sfn "$1" "$DESTDIR$2"
    else
        rm -f "$DESTDIR$2"
    fi
}

programs=(reqkeyd reqkeyctl reqkey-trap reqkey-door)

# All that is installed.
everything() {
    local share=$PREFIX/share
    local examples=$share/doc/reqkeyd/examples
    local name

    for name in "${programs[@]}"; do
        put 755 "$BUILT/$name" "$PREFIX/bin/$name"
        put 644 "$room/completion/$name.bash" "$share/bash-completion/completions/$name"
        put 644 "$room/completion/$name.fish" "$share/fish/vendor_completions.d/$name.fish"
        put 644 "$room/completion/_$name" "$ZSH_DIR/_$name"
    done
    for name in man/*; do
        put_text 644 "$name" "$share/man/man${name##*.}/${name##*/}"
    done
    for name in packaging/systemd/*/*; do
        put_text 644 "$name" "$PREFIX/lib/${name#packaging/}"
    done
    for name in handlers/*; do
        put_text "$([[ -x $name ]] && echo 755 || echo 644)" "$name" "$PREFIX/lib/reqkeyd/$name"
    done
    for name in reqkeyd.conf reqkeyd-behind-door.conf; do
        put_text 644 "packaging/$name" "$examples/$name"
    done

    # the documents, which the manual pages name; their pictures; and what users need of what they link (not CONTRIBUTING.md, tests/ and bench/)
    for name in docs/*.md docs/pictures/*; do
        put 644 "$name" "$share/doc/reqkeyd/$name"
    done
    for name in README.md CHANGELOG.md SECURITY.md; do
        put 644 "$name" "$share/doc/reqkeyd/$name"
    done

    # the licences, and the notices of the libraries that the programs contain
    put 644 packaging/debian/copyright "$share/doc/reqkeyd/copyright"
    for name in LICENSE-APACHE LICENSE-MIT; do
        put 644 "$name" "$share/doc/reqkeyd/$name"
    done

    # clients: C has its header, its libraries, their manual, and a source to be compiled with a program; Python its module; Go and Rust have their sources;
    # keyutils' programs have their library
    put 644 clients/c/reqkey.h "$PREFIX/include/reqkey.h"
    put 644 clients/c/reqkey.c "$share/reqkeyd/reqkey.c"
    put 644 "$BUILT/libreqkey.so.1" "$LIB_DIR/libreqkey.so.1"
    put 644 "$BUILT/libreqkey.a" "$LIB_DIR/libreqkey.a"
    put_link libreqkey.so.1 "$LIB_DIR/libreqkey.so"
    put_text 644 "$room/reqkey.pc" "$LIB_DIR/pkgconfig/reqkey.pc"
    put_text 644 "$room/reqkey.3" "$share/man/man3/reqkey.3"
    for name in clients/python/reqkey/*.py clients/python/reqkey/py.typed; do
        put 644 "$name" "$PYTHON_DIR/reqkey/${name##*/}"
    done
    for name in go/go.mod go/reqkey.go rust/Cargo.toml rust/src/lib.rs; do
        put 644 "clients/$name" "$share/reqkeyd/$name"
    done
    put 644 "$BUILT/libkeyutils.so.1" "$PREFIX/lib/reqkeyd/libkeyutils.so.1"
    for name in clients/*/example_*; do
        put 644 "$name" "$examples/${name##*/}"
    done
}

act=$1
if [[ $act == install ]]; then
    # what completes words in a shell is made of what the programs say of themselves
    python3 -B tools/completion.py "$BUILT" "$room/completion"
    # and the manual of the client in C is its header
    python3 -B tools/header_manual.py clients/c/reqkey.h > "$room/reqkey.3"
    sed "s|@VERSION@|$("$BUILT/reqkeyd" --version | cut -d ' ' -f 2)|; s|@LIBDIR@|${LIB_DIR/#"$PREFIX/"/\${prefix\}}|" clients/c/reqkey.pc > "$room/reqkey.pc"
fi
everything
if [[ $act == uninstall ]]; then
    rm -rf "$DESTDIR$PYTHON_DIR/reqkey/__pycache__"
    rmdir --ignore-fail-on-non-empty "$DESTDIR$PYTHON_DIR/reqkey" 2> /dev/null || true
    for folder in lib/reqkeyd/handlers lib/reqkeyd share/reqkeyd/{go,rust/src,rust} share/reqkeyd share/doc/reqkeyd/{examples,docs/pictures,docs} share/doc/reqkeyd; do
        rmdir --ignore-fail-on-non-empty "$DESTDIR$PREFIX/$folder" 2> /dev/null || true
    done
fi
