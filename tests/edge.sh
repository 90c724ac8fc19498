#!/bin/sh
# Tries the program at its edge, on real files and streams, where no contract speaks: topic by topic, each in a file of tests/edge/. Prints a
# line for each case; the last line is 'N passed, N failed'.
#
#     tests/edge.sh [PROGRAM [TOPIC..]]      all topics without one
#
#     streams   standard streams that are closed or full, what is said on them and when, and too few descriptors
#     files     files that can't be read or written, sizes that are too small, and event files
#     work      what may be WORK and what may not, by whatever path, and what becomes of an old one
#     saved     SAVED and what it takes the place of: IMAGE and EVENTS, other names of one file, what it is written under, and closed folders
#     disks     limits on the size of files, and disks that are full
#     syncs     calls of the system that fail, by a tracer that answers them: syncs, writes and reads
#     kills     a run that is killed at fifty moments of saving over IMAGE
#     texts     images that are made, listed and assembled
#     traces    runs that are traced
#     vaults    runs that keep checkpoints, and runs that go on from them
#     claims    files that can't be a vault, and vaults that claim a length that can't be so
#     words     words that are missing, extra or bad
set -u
top=$(cd "$(dirname "$0")/.." && pwd) || exit 1
loom=${1:-$top/crates/loom_cli/out/loom_cli}
[ -x "$loom" ] || { echo "edge: there is no program $loom; ./demo builds it" >&2; exit 1; }
[ $# -gt 0 ] && shift
[ $# -gt 0 ] || set -- streams files work saved disks syncs kills texts traces vaults claims words
lines=$(mktemp) || exit 1
trap 'rm -f "$lines"' EXIT

passed=0
failed=0
for topic in "$@"; do
    "$top/tests/edge/$topic.sh" "$loom" >"$lines" 2>&1
    grep -v '^[0-9]* passed, [0-9]* failed$' "$lines"
    figure=$(grep '^[0-9]* passed, [0-9]* failed$' "$lines" | tail -n 1)
    if [ -n "$figure" ]; then
        passed=$((passed + ${figure%% *}))
        figure=${figure#*, }
        failed=$((failed + ${figure%% *}))
    else
        failed=$((failed + 1))
        echo "FAILED  $topic: it came to no end"
    fi
done
echo "edge: $passed passed, $failed failed"
[ "$failed" = 0 ]
