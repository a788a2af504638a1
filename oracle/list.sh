#!/bin/sh
# Writes cases/oracle.txt, the fixed list that the gate replays without Rust: sh oracle/list.sh [--claxon DIR]
# oracle/README.md says what is in it.
set -u
name=oracle/list.sh
# shellcheck source=oracle/build.sh
. "$(dirname "$0")/build.sh"
build oracle "$root/oracle/src/main.rs" || exit 1
exec "$out/oracle" --work "$out" --inputs 4000000 --seed 1 --list "$root/cases/oracle.txt" "$@"
