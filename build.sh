#!/bin/sh
# Proves what changed of a program, or of the library thriftacorn, and builds it: sh build.sh NAME. A program is then
# crates/NAME/out/NAME, the library crates/thriftacorn/out/libthriftacorn.a. Status 1 where it does not prove or build.
set -u
here=$(cd "$(dirname "$0")" && pwd) || exit 2
name=${1:?"usage: sh build.sh NAME"}
cd "$here/crates/$name" || exit 2
if [ "$name" = thriftacorn ]; then
    built=out/libthriftacorn.a
    set -- rt lib
else
    built=out/$name
    set -- rt run
fi
# The stamp is older than what a build writes, and newer than each source that the build read.
mkdir -p out && : >out/build.stamp || exit 2
# A program that was built is run too, here on no input.
"$@" </dev/null >out/build.log 2>&1
status=$?
if [ "$status" -ne 0 ] || [ ! -f "$built" ]; then
    tail -n 5 out/build.log >&2
    echo "build.sh: $name does not build" >&2
    exit 1
fi
touch -r out/build.stamp "$built"
