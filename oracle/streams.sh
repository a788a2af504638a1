#!/bin/sh
# Compares claxon 0.4.3 with this repository's reader on stream headers, and Debian's 'flac' with it on whole files:
#     sh oracle/streams.sh [--claxon DIR]
# Status 1 at the first difference that docs/DIFFERENCES.md does not list, or if the samples of a file differ.
set -u
name=oracle/streams.sh
compared="claxon and flac with stream headers and whole files ($name)"
# shellcheck source=oracle/build.sh
. "$(dirname "$0")/build.sh"
build streams "$root/oracle/src/streams.rs" || exit 1
exec "$out/streams" "$out"
