#!/bin/sh
# Runs the binding's tests and the examples in its documentation, and packs the crate, all offline:
#     sh bindings/rust/test.sh
# If cargo or a linker is missing, a line that starts with 'not compared: ' says so, and the status is 0.
set -u
name=bindings/rust/test.sh
root=$(cd "$(dirname "$0")/../.." && pwd) || exit 2
missing=''
cargo --version >/dev/null 2>&1 || missing="$missing, no cargo that runs"
command -v cc >/dev/null 2>&1 || missing="$missing, no linker cc on the PATH"
if [ -n "$missing" ]; then
    echo "not compared: the Rust binding with its tests ($name), since there is${missing#,}"
    exit 0
fi
# shellcheck source=bindings/library.sh
. "$root/bindings/library.sh"
export THRIFTACORN_LIB="$library"
cd "$root/bindings/rust" || exit 2
if ! cmp -s NOTICE "$root/NOTICE"; then
    echo "$name: bindings/rust/NOTICE is no longer a copy of NOTICE" >&2
    exit 1
fi
cargo test --offline --quiet || exit 1
cargo package --offline --allow-dirty --quiet || exit 1
if ! cargo package --offline --allow-dirty --quiet --list | grep -qx NOTICE; then
    echo "$name: the package has no NOTICE" >&2
    exit 1
fi
