#!/bin/sh
# Has claxon and Debian's 'flac' read what this repository's writer writes: sh oracle/written.sh [--claxon DIR]
# All channel codes, all bits, many block sizes. Status 1 if the samples do not come back.
set -u
name=oracle/written.sh
compared="claxon and flac with what the writer writes ($name)"
# shellcheck source=oracle/build.sh
. "$(dirname "$0")/build.sh"
build written "$root/oracle/src/written.rs" || exit 1
exec "$out/written" "$out"
