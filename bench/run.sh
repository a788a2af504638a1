#!/bin/sh
# Measures reading against claxon 0.4.3 and libFLAC on the same input, in one process, and then writing:
#     sh bench/run.sh [--claxon DIR] [--seconds N] [--hours N]
# N is the length of the sound, by default 240 seconds, and how long it is read in a row, by default 12 hours (0: not at
# all). The output is for docs/SPEED.md. It needs 'flac' to make the input, and perf or valgrind to count instructions.
# libFLAC has its columns if its headers are there (Debian: libflac-dev).
set -u
name=bench
# shellcheck source=oracle/build.sh
. "$(dirname "$0")/../oracle/build.sh"
command -v flac >/dev/null 2>&1 || skip "there is no flac on the PATH to make the material"
seconds=240 hours=12
while [ $# -gt 0 ]; do
    case $1 in
    --seconds) seconds=${2:?"bench: --seconds needs a number"} && shift 2 ;;
    --hours) hours=${2:?"bench: --hours needs a number"} && shift 2 ;;
    *) echo "usage: sh bench/run.sh [--claxon DIR] [--seconds N] [--hours N]" >&2 && exit 2 ;;
    esac
done

instructions() { # WHO: how many instructions one reading of the short stream takes, program start included
    if [ "$counter" = perf ]; then
        perf stat -x , -e instructions:u -o "$out/count" "$out/reading" once "$1" "$out/material.flac" >/dev/null
        sed -n 's/^\([0-9]*\),.*instructions.*/\1/p' "$out/count"
    else
        valgrind --tool=cachegrind --cache-sim=no --cachegrind-out-file=/dev/null \
            "$out/reading" once "$1" "$out/material.flac" 2>&1 >/dev/null | sed -n 's/.*I *refs: *//p' | tr -d ,
    fi
}

count() { # SECONDS OPTIONS: a row of the table
    length=$1
    shift
    "$out/reading" make "$out" "$length" "$@" || exit 1
    bytes=$("$out/reading" once none "$out/material.flac")
    start=$(instructions none)
    ours=$(($(instructions ours) - start))
    theirs=$(($(instructions claxon) - start))
    libflac=0
    [ "$has_libflac" = no ] || libflac=$(($(instructions libflac) - start))
    echo "$length $bytes $ours $theirs $libflac $*" | awk '{
        options = $6
        for (i = 7; i <= NF; i++) options = options " " $i
        printf "| flac %s, %d seconds | %.1f | %.1f | ", options, $1, $3 / $2, $4 / $2
        printf $5 ? sprintf("%.1f", $5 / $2) : "-"
        printf " | %.2f |\n", $3 / $4
    }'
}

in_a_row() { # OPTIONS: a row of the table of hours
    "$out/reading" make "$out" "$seconds" "$@" && "$out/reading" hours "flac $*" "$out/material.flac" "$hours" || exit 1
}

# libFLAC's side is C.
with_libflac=''
if echo '#include <FLAC/stream_decoder.h>' | cc -E - >/dev/null 2>&1; then
    cc -std=c99 -O2 -Wall -Wextra -c "$root/bench/src/libflac.c" -o "$out/libflac.o" || exit 1
    with_libflac="--cfg libflac -C link-arg=$out/libflac.o -C link-arg=-lFLAC"
fi
# shellcheck disable=SC2086
build reading "$root/bench/src/reading.rs" --check-cfg 'cfg(libflac)' $with_libflac || exit 1
has_libflac=$("$out/reading" has-libflac)
model=$(sed -n 's/^model name[[:space:]]*: //p' /proc/cpuinfo | head -n 1)
echo "$(date -u +%Y-%m-%d), $(uname -m), ${model:-processor unknown}, $(rustc --version | cut -d ' ' -f 1-2), $(flac --version)"
[ "$has_libflac" = yes ] || echo "libFLAC is not measured, since its headers are not there."
echo
"$out/reading" tables "$out" "$seconds" || exit 1
if [ "$hours" -gt 0 ]; then
    echo "The same sound read in a row for $hours hours, frame by frame by turns:"
    echo
    echo "| input | sound | bytes | ours | claxon | ours / claxon | peak memory after the first round | at the end |"
    echo "|---|---|---|---|---|---|---|---|"
    in_a_row -5
    in_a_row -8
    in_a_row -0
    in_a_row --lax -l 32
    echo
fi
counter=''
if perf stat -e instructions:u true 2>&1 | grep -q '[0-9] .*instructions'; then
    counter=perf
elif command -v valgrind >/dev/null 2>&1; then
    counter=valgrind
fi
if [ -z "$counter" ]; then
    echo "Instructions: not counted, since there are neither perf's counters nor valgrind."
else
    echo "Instructions a byte, counted with $counter:"
    echo
    echo "| input | ours | claxon | libFLAC | ours / claxon |"
    echo "|---|---|---|---|---|"
    for length in 5 10 20 40; do count "$length" -5; done
    count 5 -8
    count 5 -0
    count 5 --lax -l 32
    count 5 --lax -5 -b 192
    count 5 --lax -5 -b 65535
fi
echo
build writing "$root/bench/src/writing.rs" || exit 1
"$out/writing" "$out" $((seconds / 4 + 1))
