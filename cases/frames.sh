#!/bin/sh
# Cards of realistic sizes, for frames.sh: cases/frames.py makes each card, works out by itself what must be said of it,
# and runs 'sh frames.sh' on it. The last line is 'frames: N passed, M failed'.
set -u
cd "$(dirname "$0")" || exit 2
if ! command -v python3 >/dev/null 2>&1; then
    echo "frames: python3, which makes the cards, is missing"
    echo "frames: 0 passed, 1 failed"
    exit 1
fi
exec python3 -B frames.py
