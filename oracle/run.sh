#!/bin/sh
# Compares claxon 0.4.3 with this repository's reader on pseudorandom inputs, and with the program 'runner' on some:
#     sh oracle/run.sh [--claxon DIR] [--inputs N] [--seconds N] [--seed N]
# Without a number it reads five million inputs. Status 1 at the first difference that docs/DIFFERENCES.md does not
# list.
set -u
name=oracle/run.sh
compared="claxon with this reader ($name)"
# shellcheck source=oracle/build.sh
. "$(dirname "$0")/build.sh"
build oracle "$root/oracle/src/main.rs" || exit 1
runner=''
if [ -f "$root/crates/runner/out/runner" ]; then runner="sh '$root/run.sh' runner"; fi
exec "$out/oracle" --work "$out" --runner "$runner" "$@"
