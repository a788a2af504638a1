#!/bin/sh
# The gate. From a fresh clone: sh test.sh
# It checks that the kit is the one README.md names. Then it proves every crate, tries every must-fail edit and runs every
# program (rt ci), and runs the programs on their stored cases. Its last line is 'N passed, M failed'.
# Lines above it that start with 'not compared: ' say what was left out, and what was missing for it.
set -u
cd "$(dirname "$0")" || exit 2

. ./kit.sh
hold_kit test.sh
work=$(mktemp -d) || exit 2
trap 'rm -rf "$work"' EXIT
log=$work/log missing=$work/missing
: >"$missing"
passed=0 failed=0

fail() { # WORDS
    failed=$((failed + 1))
    echo "test.sh: $1"
}

run() { # COMMAND: shows its output, and adds up the counts of its last line, '[NAME: ]N passed, M failed'
    {
        "$@" 2>&1
        echo "$?" >"$work/status"
    } | tee "$log"
    line=$(tail -n 1 "$log" | sed -n 's/^\([a-z_]*: \)\{0,1\}\([0-9]*\) passed, \([0-9]*\) failed$/\2 \3/p')
    if [ -z "$line" ]; then
        fail "'$*' does not end by saying how many passed and failed"
        return
    fi
    passed=$((passed + ${line% *})) failed=$((failed + ${line#* }))
    if [ "${line#* }" -eq 0 ] && [ "$(cat "$work/status")" -ne 0 ]; then
        fail "'$*' ended with status $(cat "$work/status")"
    elif [ "$line" = '0 0' ]; then
        fail "'$*' had nothing to try"
    fi
}

# A script that had to leave something out says so in lines 'not compared: ...'. It is not counted as passed, and the
# lines are repeated at the end.
compare() { # SCRIPT WORDS
    sh "$@" >"$log" 2>&1
    count_compared $? "$1" "$log"
}

count_compared() { # STATUS SCRIPT LOG
    if [ "$1" -ne 0 ]; then
        fail "$2 failed"
    elif ! grep -q '^not compared: ' "$3"; then
        passed=$((passed + 1))
    fi
    grep '^not compared: ' "$3" >>"$missing"
    grep -v '^not compared: ' "$3"
}

run rt ci
# An edit that no longer fits the text shows nothing, and rt ci passes all the same.
if grep -q -e '^rt: ok.*, [1-9][0-9]* bad' -e 'refused, as it must be (only ' "$log"; then
    fail 'a must-fail edit is not refused for what it means'
fi
# The programs, for their stored cases and for the comparisons.
for program in runner read_probe stream_probe write_probe frame_list; do
    sh build.sh "$program" || fail "$program does not build"
done
# Comparisons with claxon and flac, and the bindings, if Rust, claxon's source, flac and cc are available. The longest of
# them runs on one processor while the stored cases run on another.
sh oracle/run.sh --seconds 90 >"$work/oracle" 2>&1 &
oracle=$!
for program in runner read_probe stream_probe write_probe; do
    run sh cases/run.sh "$program"
done
# Cards of realistic sizes, for the main command.
run sh cases/frames.sh
# The fixed list of claxon's answers, which needs no Rust.
run sh cases/run.sh runner oracle
wait "$oracle"
count_compared $? oracle/run.sh "$work/oracle"
compare oracle/streams.sh
compare oracle/written.sh
compare oracle/escaped.sh
compare bindings/rust/test.sh
compare bindings/c/test.sh
# A CI that has what most of these need must have the rest too.
if [ "${CI:-}" = true ] && [ -s "$missing" ] && ! grep -q -e 'no rustc' -e 'no claxon' "$missing"; then
    fail "this is CI, with Rust and claxon available, and still something was not compared"
fi
cat "$missing"
echo "$passed passed, $failed failed"
[ "$failed" -eq 0 ] && [ "$passed" -gt 0 ]
