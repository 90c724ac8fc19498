#!/bin/sh
# Tries the program st80 as people use it, on real files and streams: topic by topic, each in a file of tests/desk/. Prints a line for each
# case; the last line is 'N passed, N failed'.
#
#     tests/desk.sh [PROGRAM [TOPIC..]]      all topics without one
#
#     mistakes  the mistakes of people: each command with a word missing, misspelt, empty or out of range, and each file missing or of another kind
#     runs      what a run says, writes and leaves, which files it touches, and streams in place of files
#     stops     runs that an error stops, and the machine as it was before
#     looks     what is shown of images, texts and runs, and pictures
#     traces    the lines of a trace beside those of `loom trace`
#     progress  what a terminal shows of a run that takes more than a second
set -u
top=$(cd "$(dirname "$0")/.." && pwd) || exit 1
st80=${1:-$top/crates/st80/out/st80}
[ -x "$st80" ] || { echo "desk: there is no program $st80; ./demo builds it" >&2; exit 1; }
[ $# -gt 0 ] && shift
[ $# -gt 0 ] || set -- mistakes runs stops looks traces progress
lines=$(mktemp) || exit 1
trap 'rm -f "$lines"' EXIT

passed=0
failed=0
for topic in "$@"; do
    "$top/tests/desk/$topic.sh" "$st80" >"$lines" 2>&1
    grep -v '^[0-9]* passed, [0-9]* failed$' "$lines"
    figure=$(grep '^[0-9]* passed, [0-9]* failed$' "$lines" | tail -n 1)
    if [ -n "$figure" ]; then
        passed=$((passed + ${figure%% *}))
        figure=${figure#*, }
        failed=$((failed + ${figure%% *}))
    else
        failed=$((failed + 1))
        echo "FAILED  $topic: it came to no end"
    fi
done
echo "desk: $passed passed, $failed failed"
[ "$failed" = 0 ]
