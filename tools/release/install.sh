#!/usr/bin/env bash
# Installs what stands beside this script: ./install.sh [PREFIX], under /usr/local if no prefix is given.
# ./install.sh --uninstall [PREFIX] takes it away again.
set -euo pipefail
umask 022

usage() {
    echo "usage: ./install.sh [--uninstall] [PREFIX]" >&2
    exit 2
}

uninstall=
if [ "${1:-}" = --uninstall ]; then
    uninstall=yes
    shift
fi
[ $# -le 1 ] || usage
prefix=${1:-/usr/local}
case "$prefix" in
    -* | "") usage ;;
esac
here=$(cd "$(dirname "${BASH_SOURCE[0]}")" && pwd)
doc=share/doc/caplattice

# Each file here, and its place below the prefix.
files=(
    lib/libcaplattice.a lib/libcaplattice.a
    lib/pkgconfig/caplattice.pc lib/pkgconfig/caplattice.pc
    include/caplattice.h include/caplattice.h
    NOTICE "$doc/NOTICE"
    doc/CHANGELOG.md "$doc/CHANGELOG.md"
    doc/PROMISES.md "$doc/PROMISES.md"
    doc/DIFFERENCES.md "$doc/DIFFERENCES.md"
)

for ((i = 0; i < ${#files[@]}; i += 2)); do
    if [ -n "$uninstall" ]; then
        rm -f "$prefix/${files[i + 1]}"
    else
        install -D -m 644 "$here/${files[i]}" "$prefix/${files[i + 1]}"
    fi
done

if [ -n "$uninstall" ]; then
    [ ! -d "$prefix/$doc" ] || rmdir --ignore-fail-on-non-empty "$prefix/$doc"
    echo "caplattice was taken away from $prefix"
else
    echo "caplattice was installed under $prefix"
    echo "compile with: \$(PKG_CONFIG_PATH=$prefix/lib/pkgconfig pkg-config --cflags --libs caplattice)"
fi
