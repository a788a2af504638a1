#!/bin/sh
# Runs a built program on stored cases: sh cases/run.sh NAME [LIST]. The list is cases/LIST.txt, by default
# cases/NAME.txt. Each line is a case: its name, its input and the output that it must give, in hex ('-' for none).
# cases/COUNTS says how many cases a list has. A list fails if it is missing or empty, ends without a newline or has
# another number of cases. A case also fails if the program ends with a status other than 0. The last line says how many
# passed and failed.
set -u
cd "$(dirname "$0")/.." || exit 2
program=${1:?"usage: sh cases/run.sh NAME [LIST]"}
list=${2:-$program}
file=cases/$list.txt
passed=0 failed=0 ran=0

fail() { # WORDS
    failed=$((failed + 1))
    echo "$list: $1"
}

finish() {
    echo "$list: $passed passed, $failed failed"
    [ "$failed" -eq 0 ] && [ "$passed" -gt 0 ]
    exit
}

put() { # ESCAPED: the bytes
    # shellcheck disable=SC2059
    [ "$1" = - ] || printf "$1"
}

show() { # FILE: the beginning of its bytes, in hex
    [ -s "$1" ] || printf -- -
    od -An -v -tx1 "$1" | tr -d ' \n' | cut -c 1-400
}

counted=$(sed -n "s/^$list \([1-9][0-9]*\)\$/\1/p" cases/COUNTS)
[ -n "$counted" ] || fail "cases/COUNTS has no line for this list"
if [ ! -f "$file" ]; then
    fail "there is no list $file"
elif [ ! -s "$file" ]; then
    fail "the list $file is empty"
elif [ -n "$(tail -c 1 "$file")" ]; then
    fail "the last line of $file has no newline at its end, so some of it may be missing"
fi
[ -f "crates/$program/out/$program" ] || fail "there is no program crates/$program/out/$program: sh build.sh $program"
[ "$failed" -eq 0 ] || finish

scratch=$(mktemp -d) || exit 2
trap 'rm -rf "$scratch"' EXIT
# Turns the input and output of all lines into escapes for printf at once, so that a case takes only two processes.
awk '
    BEGIN {
        digits = "0123456789abcdef"
        for (i = 0; i < 256; i++)
            octal[substr(digits, int(i / 16) + 1, 1) substr(digits, i % 16 + 1, 1)] = sprintf("\\%03o", i)
    }
    function is_hex(text) { return text == "-" || (text !~ /[^0-9a-f]/ && length(text) % 2 == 0) }
    function escape(text, i) {
        if (text == "-") printf " -"
        else for (i = 1; i < length(text); i += 2) printf "%s%s", i == 1 ? " " : "", octal[substr(text, i, 2)]
    }
    NF != 3 || !is_hex($2) || !is_hex($3) { print "line ? " NR; next }
    { printf "%s", $1; escape($2); escape($3); print "" }
' "$file" >"$scratch/cases" || exit 2
command=$(sh run.sh --say "$program") || exit 2
while read -r name input wanted; do
    ran=$((ran + 1))
    if [ "$input" = '?' ]; then
        fail "line $wanted is not a name, an input and an output in hex"
        continue
    fi
    put "$input" >"$scratch/input"
    put "$wanted" >"$scratch/wanted"
    eval "$command" <"$scratch/input" >"$scratch/wrote"
    status=$?
    if [ "$status" -ne 0 ]; then
        fail "case $name: $program ended with status $status"
    elif cmp -s "$scratch/wanted" "$scratch/wrote"; then
        passed=$((passed + 1))
    else
        fail "case $name: $program wrote $(show "$scratch/wrote"), and not $(show "$scratch/wanted")"
    fi
done <"$scratch/cases"
[ "$ran" -eq "$counted" ] || fail "$ran cases, and cases/COUNTS says $counted"
finish
