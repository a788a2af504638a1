#!/bin/sh
# Puts the header, the library, the pkg-config file and the licence into a folder: sh bindings/c/install.sh PREFIX
# The library is built if it is missing (bindings/library.sh). The folder may be moved afterwards.
set -u
name=bindings/c/install.sh
root=$(cd "$(dirname "$0")/../.." && pwd) || exit 2
if [ $# -ne 1 ]; then
    echo "usage: sh $name PREFIX" >&2
    exit 2
fi
# shellcheck source=bindings/library.sh
. "$root/bindings/library.sh"
c=$root/bindings/c
version=$(sed -n 's/^#define THRIFTACORN_VERSION "\(.*\)"$/\1/p' "$c/thriftacorn.h")
mkdir -p "$1/include" "$1/lib/pkgconfig" "$1/share/doc/thriftacorn" &&
    cp "$c/thriftacorn.h" "$1/include/" &&
    cp "$library/libthriftacorn.a" "$1/lib/" &&
    cp "$root/NOTICE" "$1/share/doc/thriftacorn/" &&
    sed "s|@VERSION@|$version|" "$c/thriftacorn.pc.in" >"$1/lib/pkgconfig/thriftacorn.pc"
