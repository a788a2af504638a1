#!/bin/sh
# Has claxon and this repository's reader read one frame of 512 MiB, whose count of wasted bits is a run of 2^32 zeros:
#     sh oracle/wrapped.sh [--claxon DIR]
# The gate leaves it out, since it takes too much time and memory. Status 1 if an answer is not the one that
# docs/DIFFERENCES.md gives.
set -u
name=oracle/wrapped.sh
compared="claxon with this reader on a run of 2^32 zeros ($name)"
# shellcheck source=oracle/build.sh
. "$(dirname "$0")/build.sh"
build wrapped "$root/oracle/src/wrapped.rs" || exit 1
exec "$out/wrapped"
