#!/bin/sh
# Has Debian's 'flac' decode the stored frames with escaped partitions: sh oracle/escaped.sh [--claxon DIR]
# 'flac' itself writes none. Status 1 if it does not give the stored samples. That this repository's reader gives them,
# 'sh cases/run.sh runner' tests.
set -u
name=oracle/escaped.sh
compared="flac with stored frames that have escaped partitions ($name)"
# shellcheck source=oracle/build.sh
. "$(dirname "$0")/build.sh"
build escaped "$root/oracle/src/escaped.rs" || exit 1
exec "$out/escaped" "$root/cases/runner.txt" "$out"
