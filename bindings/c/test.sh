#!/bin/sh
# Installs the header and the library into target/c, and builds and runs test.c with them, as C and as C++:
#     sh bindings/c/test.sh
# A line that starts with 'not compared: ' says what is missing; the status is that of the rest.
set -u
name=bindings/c/test.sh
root=$(cd "$(dirname "$0")/../.." && pwd) || exit 2
if ! command -v cc >/dev/null 2>&1; then
    echo "not compared: the C header with its test ($name), since there is no cc on the PATH"
    exit 0
fi
place=$root/target/c
rm -rf "$place"
sh "$root/bindings/c/install.sh" "$place" || exit 1

if command -v pkg-config >/dev/null 2>&1; then
    flags=$(PKG_CONFIG_PATH=$place/lib/pkgconfig pkg-config --cflags --libs thriftacorn) || exit 1
else
    echo "not compared: the pkg-config file thriftacorn.pc, since there is no pkg-config on the PATH"
    flags="'-I$place/include' '-L$place/lib' -lthriftacorn"
fi
# pkg-config quotes its output for a shell.
eval "set -- $flags"

try() { # COMPILER LANGUAGE STANDARD FLAGS: builds test.c and runs it
    compiler=$1 language=$2 standard=$3
    shift 3
    "$compiler" -x "$language" "-std=$standard" -Wall -Wextra -Wpedantic -Werror -O2 "$root/bindings/c/test.c" -x none \
        "$@" -o "$place/test" && "$place/test"
}
try cc c c99 "$@" || exit 1
if command -v c++ >/dev/null 2>&1; then
    try c++ c++ c++11 "$@" || exit 1
else
    echo "not compared: the C header as C++, since there is no c++ on the PATH"
fi
