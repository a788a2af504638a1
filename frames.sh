#!/bin/sh
# Lists a FLAC file (a stream header and its frames), or a card of bare frames, and says how it ended:
# sh frames.sh [FILE | -]. First it proves and builds what changed.
#
# The last line starts with one word, and the exit status goes by it:
#     0   ended:              the card ends after a frame
#     1   stopped: empty:     something on the card is no frame, or no stream header; there is no frame
#     2   unread: limit:      the card could not be read; a limit of the program ended the run
# Status 2 is also for bad usage, a missing file, another kit, or a program that does not build.
set -u
usage="usage: sh frames.sh [FILE | -]
Lists the stream header and the frames of the FLAC file FILE, or the frames of a card of bare frames; of standard input
for '-', or of the repository's cases/card.bin.
Status 0: it ends after a frame. 1: something on it is refused, or it has no frame. 2: it could not be read, or a limit of
the program ended the run."

fail() { # WORDS
    echo "frames.sh: $1" >&2
    exit 2
}

here=$(cd "$(dirname "$0")" && pwd) || exit 2
[ $# -gt 0 ] || set -- "$here/cases/card.bin"
[ $# -eq 1 ] || {
    echo "$usage" >&2
    exit 2
}
case $1 in
-h | --help)
    echo "$usage"
    exit
    ;;
-) card='' ;;
-*)
    echo "$usage" >&2
    exit 2
    ;;
'') fail "the file's name is empty" ;;
/*) card=$1 ;;
*) card=$PWD/$1 ;;
esac
if [ -n "$card" ]; then
    [ -e "$card" ] || fail "there is no file '$card'"
    [ ! -d "$card" ] || fail "'$card' is a directory"
    [ -r "$card" ] || fail "'$card' may not be read"
fi

cd "$here" || exit 2
. ./kit.sh
hold_kit frames.sh
program=crates/frame_list/out/frame_list
if [ ! -f "$program" ] || [ -n "$(find crates crates.txt -name out -prune -o -type f -newer "$program" -print | head -n 1)" ]; then
    echo "frames.sh: proving and building the reader (some minutes on a fresh clone)" >&2
    sh build.sh frame_list || fail "the reader does not build"
fi
# The card is the program's standard input, whatever its name: the program itself opens only names that are text.
[ -z "$card" ] || exec <"$card"
sh run.sh frame_list | awk '
    { print; word = $1 }
    END {
        if (word == "ended:") exit 0
        if (word == "stopped:" || word == "empty:") exit 1
        if (word != "unread:" && word != "limit:") print "frames.sh: the program ended badly, without a last line" > "/dev/stderr"
        exit 2
    }'
