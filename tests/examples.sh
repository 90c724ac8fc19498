#!/usr/bin/env bash
# Assembles and runs each image of examples/, in the smallest machine, and compares what it prints, its last line and its picture with what the
# reference machine gives. Prints a line for each example; the last line is 'N passed, N failed'.
#
#     tests/examples.sh [PROGRAM]
set -u
top=$(cd "$(dirname "$0")/.." && pwd) || exit 1
loom=$(realpath "${1:-$top/loom}") || exit 1
[ -x "$loom" ] || { echo "examples: there is no program $loom; ./demo builds it" >&2; exit 1; }
work=$(mktemp -d) || exit 1
trap 'rm -rf "$work"' EXIT
cd "$work" || exit 1

passed=0
failed=0

# tell NAME WHY: prints the line of a case, which failed where there is a reason.
tell() {
    if [ -z "$2" ]; then
        passed=$((passed + 1))
        echo "ok      $1"
    else
        failed=$((failed + 1))
        echo "FAILED  $1: $2"
    fi
}

# example NAME EVENTS STEPS LINE PICTURE: runs one. Where there is no picture, the file is empty.
example() {
    local name=$1 events=$2 steps=$3 line=$4 picture=$5 why=
    local text=$top/examples/$name.text
    "$loom" asm "$text" objects image 2>notes || why="it isn't assembled: $(cat notes); "
    "$loom" run image "$events" objects saved display 4096 512 1024 "$steps" >said 2>notes || why+="the exit status is $?; "
    [ "$(cat notes)" = "$line" ] || why+="it says '$(cat notes)'; "
    cmp -s said "$top/examples/$name.out" || why+='it prints something else; '
    cmp -s display "$picture" || why+='the picture is another; '
    "$loom" list image objects again 2>/dev/null && cmp -s again "$text" || why+='its text is another; '
    tell "$name" "$why"
}

example hello /dev/null 9999 'quit after 2056' "$top/tests/hello.pbm"
example blit /dev/null 9999 'quit after 11' "$top/tests/blit.pbm"
example tour /dev/null 9 'ran 9' /dev/null
example counter /dev/null 9999 'ran 9999' /dev/null
example factorial /dev/null 99999 'quit after 20161' /dev/null
example semaphore /dev/null 9999 'quit after 330' /dev/null
example sketch "$top/examples/sketch.events" 99999 'quit after 13634' "$top/examples/sketch.pbm"

for text in "$top"/examples/*.text; do
    name=$(basename "$text" .text)
    kept=$top/crates/loom_images/data/$name.text
    [ -e "$kept" ] || continue
    tell "$name is the text of loom_images" "$(cmp "$text" "$kept" 2>&1)"
done
echo "$passed passed, $failed failed"
[ "$failed" = 0 ]
