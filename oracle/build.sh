# Builds claxon from its source, an extended copy of claxon, the binding, and a program that uses these, with rustc
# alone. Sourced by the scripts here and in bench/, which set 'name' to their own name and 'compared' to what they
# compare. It takes '--claxon DIR' out of the arguments and sets 'root' (the repository), 'out' (a folder for the build)
# and 'library' (the folder of libthriftacorn.a). If Rust, a linker or claxon's source is missing, it says so and ends
# the script with status 0; a library that cannot be built ends it with status 1.
# shellcheck shell=sh
root=$(cd "$(dirname "$0")/.." && pwd) || exit 2
out=$root/target/oracle
claxon=$root/../shared/docs/src
left=$#
while [ "$left" -gt 0 ]; do
    case $1 in
    --claxon)
        claxon=${2:?"$name: --claxon needs a folder"}
        shift 2
        left=$((left - 2))
        ;;
    *)
        set -- "$@" "$1"
        shift
        left=$((left - 1))
        ;;
    esac
done

skip() { # WORDS: this script is left out, and the gate repeats the line at its end
    echo "not compared: ${compared:-$name}, since $1"
    exit 0
}

missing=''
rustc --version >/dev/null 2>&1 || missing="$missing, no rustc that runs"
command -v cc >/dev/null 2>&1 || missing="$missing, no linker cc on the PATH"
[ -f "$claxon/src/lib.rs" ] || missing="$missing, no claxon 0.4.3 at $claxon (oracle/README.md says how to get it)"
[ -z "$missing" ] || skip "there is${missing#,}"
# shellcheck source=bindings/library.sh
. "$root/bindings/library.sh"
mkdir -p "$out" || exit 2

build() { # PROGRAM SOURCE WORDS: the program, with claxon, the binding and what the programs share; WORDS are for rustc
    program=$1
    source=$2
    shift 2
    rust 2015 --crate-type rlib --crate-name claxon --cap-lints allow "$claxon/src/lib.rs" &&
        extend &&
        rust 2015 --crate-type rlib --crate-name claxon_extended --cap-lints allow "$out/extended/lib.rs" &&
        rust 2021 --crate-type rlib --crate-name thriftacorn -L "native=$library" "$root/bindings/rust/src/lib.rs" &&
        rust 2021 --crate-type rlib --crate-name common --extern claxon --extern claxon_extended --extern thriftacorn \
            "$root/oracle/common/lib.rs" &&
        rust 2021 --crate-name "$program" --extern claxon --extern thriftacorn --extern common "$source" "$@"
}

# A copy of claxon that reads escaped partitions: the two lines that refuse them call escaped.claxon instead. All else
# is claxon's, so that the judge can tell what claxon would have answered after such a partition.
extend() {
    refusal='return Err(Error::Unsupported("unencoded binary is not yet implemented"))'
    rm -rf "$out/extended" && cp -r "$claxon/src" "$out/extended" &&
        sed "s/$refusal/return decode_escaped_partition(input, buffer)/" "$claxon/src/subframe.rs" |
        cat - "$root/oracle/escaped.claxon" >"$out/extended/subframe.rs" || return 1
    [ "$(grep -c 'return decode_escaped_partition(input, buffer)' "$out/extended/subframe.rs")" -eq 2 ] || {
        echo "$name: $claxon/src/subframe.rs does not refuse escaped partitions in two places" >&2
        return 1
    }
}

rust() { # EDITION WORDS: in one codegen unit, which makes claxon fastest
    edition=$1
    shift
    rustc --edition "$edition" -C opt-level=3 -C codegen-units=1 -L "$out" --out-dir "$out" "$@"
}
