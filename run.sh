#!/bin/sh
# Runs a program of this repository that build.sh built: sh run.sh NAME [WORDS], with standard input and output passed
# on. Programs are built for x86-64.
# sh run.sh --say NAME prints the command instead of running it, for a script that runs the program many times.
set -u
here=$(cd "$(dirname "$0")" && pwd) || exit 2
say=''
if [ "${1:-}" = --say ]; then
    say=1
    shift
fi
name=${1:?"usage: sh run.sh [--say] NAME [WORDS]"}
shift
set -- "$here/crates/$name/out/$name" "$@"
[ -z "$say" ] || {
    printf "'%s' " "$@"
    exit
}
exec "$@"
