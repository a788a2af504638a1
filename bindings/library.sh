# Finds libthriftacorn.a, and builds it if it is missing or a source is newer. Sourced by the scripts that link it,
# which set 'name' (their own name) and 'root' (the repository). It sets 'library' to the library's folder: the one
# that THRIFTACORN_LIB names, or else crates/thriftacorn/out. If there is no library and none can be built, it ends the
# script with status 1.
# shellcheck shell=sh
no_library() { # WORDS
    echo "$name: $1" >&2
    exit 1
}

make_library() { # COMMAND
    command -v rt >/dev/null 2>&1 || no_library "$library has no up-to-date libthriftacorn.a, and there is no 'rt' to build it"
    echo "$name: proving and building the library (some minutes on a fresh clone)" >&2
    mkdir -p "$root/target" || exit 2
    (cd "$root" && "$@") >"$root/target/library.log" 2>&1 || {
        tail -n 5 "$root/target/library.log" >&2
        no_library "the library could not be built ('$*')"
    }
}

if [ -n "${THRIFTACORN_LIB:-}" ]; then
    library=$(cd "$THRIFTACORN_LIB" && pwd) || no_library "THRIFTACORN_LIB names '$THRIFTACORN_LIB', which is not a folder"
else
    library=$root/crates/thriftacorn/out
    newer=none
    [ -f "$library/libthriftacorn.a" ] &&
        newer=$(find "$root/crates" "$root/crates.txt" -name out -prune -o -type f -newer "$library/libthriftacorn.a" -print | head -n 1)
    [ -z "$newer" ] || make_library sh build.sh thriftacorn
fi
[ -f "$library/libthriftacorn.a" ] || no_library "$library has no libthriftacorn.a"
