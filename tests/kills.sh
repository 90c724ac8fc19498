#!/bin/sh
# Kills runs that keep checkpoints, at a hundred moments from their start on, and goes on from each vault; then kills one run and those
# that go on from it, one after the other, at twenty moments more. Prints a line for each moment.
#
#     tests/kills.sh [PROGRAM]
#
# examples/counter.text is an image that counts: it adds 1 to a number, has the machine kept (primitive 97), says the number on a line, and does so
# again. So a vault whose run said N last has checkpoint N, or N + 1, which was under way; and none only where nothing was said. The whole
# image of a checkpoint follows from its number, and SAVED of a run that goes on for no bytecode has to be that image. At every second
# moment the image has a megabyte more, which lies in 15 blocks of the vault, so that most kills fall into the writing of an image.
#
# These are stops between two calls of the process alone: what it wrote stays with the system. What a loss of power may leave is tried by the
# crate loss_tests, on a record of what runs do to their files.
set -u
top=$(cd "$(dirname "$0")/.." && pwd) || exit 1
loom=${1:-$top/crates/loom_cli/out/loom_cli}
case $loom in
    /*) ;;
    *) loom=$(pwd)/$loom ;;
esac
[ -x "$loom" ] || { echo "kills: there is no program $loom; ./demo builds it" >&2; exit 1; }
work=$(mktemp -d) || exit 1
run=
trap '[ -z "$run" ] || kill -9 "$run" 2>/dev/null; rm -rf "$work"' EXIT
trap 'exit 130' INT
trap 'exit 143' TERM
cd "$work" || exit 1

passed=0
failed=0

# How large the machine is (CORE, ENTRIES and ROOM), and more bytecodes than a run comes to before it is killed. The image says a number
# each 125 bytecodes.
sizes='4096 512 1024'
steps=2147483647
round=125

# The images: the text as it is, and with 16 objects of 60,000 bytes each, which its array 88 holds.
cp "$top/examples/counter.text" light.text || exit 1
{
    sed '1s/^loom 90 /loom 122 /; /^88 /d' light.text
    echo "88 16 pointers $(seq -s ' ' 90 2 120)"
    for name in $(seq 90 2 120); do
        printf '%d 14 bytes' "$name"
        yes " $(printf '%02x' "$name")" | head -n 60000 | tr -d '\n'
        echo
    done
} >heavy.text
for image in light heavy; do
    "$loom" asm $image.text objects $image.loom 2>notes || { echo "kills: $image.text isn't assembled: $(cat notes)" >&2; exit 1; }
done
: >none.events

now() {
    echo $(($(date +%s%N) / 1000000))
}

# tell NAME WHY: prints the line of a case, which failed where there is a reason.
tell() {
    if [ -z "$2" ]; then
        passed=$((passed + 1))
        echo "ok      $1"
    else
        failed=$((failed + 1))
        echo "FAILED  $1: ${2#; }"
    fi
}

# begin WORDS..: begins a run of these words.
begin() {
    rm -f saved.loom display.pbm
    : >said
    "$loom" "$@" </dev/null >said 2>notes &
    run=$!
}

# guard IMAGE: begins a guarded run of it, into a vault that is empty. resume: begins one that goes on from the vault.
guard() {
    : >vault
    begin guard "$1.loom" none.events objects saved.loom display.pbm $sizes $steps vault
}

resume() {
    begin resume vault none.events objects saved.loom display.pbm $sizes $steps
}

# stop: kills the run. Nothing but the vault and WORK may have been written.
stop() {
    kill -9 "$run" 2>/dev/null
    wait "$run" 2>/dev/null
    code=$?
    run=
    [ "$code" = 137 ] || why="$why; the run ended with $code before it was killed: $(cat notes)"
    [ ! -e saved.loom ] && [ ! -e display.pbm ] || why="$why; the run made a file"
}

# pause MILLISECONDS
pause() {
    sleep "$(printf '%d.%03d' $(($1 / 1000)) $(($1 % 1000)))"
}

# image_text IMAGE N: the text of checkpoint N of it. The machine stands behind the 97 of round N, and what it said last was N - 1.
image_text() {
    awk -v n="$2" -v round=$round '
        NR == 1 { print $1, $2, (n - 1) * round + 8, $4, $5, $6, $7; next }
        /^66 / { print "66 22 pointers 2 25i 3i 64 2 68", n "i 0i 68", n "i", 48 + int((n - 1) / 10000) "i 48i 2 2 2 2 2 2"; next }
        /^68 / { print "68 16 pointers", n "i 70 88"; next }
        /^70 / {
            digits = sprintf("%05d", n - 1)
            line = "70 14 bytes"
            for (i = 1; i <= 5; i++) line = line " 3" substr(digits, i, 1)
            print line " 0a"
            next
        }
        { print }' "$1.text"
}

# go_on STEPS: goes on from the vault for so many bytecodes, and leaves what was said in `out`. The image afterwards is in saved.loom.
go_on() {
    rm -f saved.loom display.pbm
    "$loom" resume vault none.events objects saved.loom display.pbm $sizes "$1" </dev/null >out 2>notes
    code=$?
}

# find IMAGE: what the vault keeps: sets `kept`, to 0 for nothing. Its image is whole.
find() {
    kept=0
    go_on 0
    [ ! -s out ] || why="$why; a run of no bytecode said something"
    if [ "$code" = 16 ] && [ "$(cat notes)" = 'no checkpoint' ]; then
        [ ! -e saved.loom ] || why="$why; there is no checkpoint, and SAVED was made"
        return
    fi
    if [ "$code" != 0 ] || [ "$(cat notes)" != 'ran 0' ]; then
        why="$why; the run that goes on ended with $code: $(cat notes)"
        return
    fi
    "$loom" list saved.loom objects saved.text 2>/dev/null
    kept=$(sed -n 's/^68 16 pointers \([0-9]*\)i .*/\1/p' saved.text)
    kept=${kept:-0}
    image_text "$1" "$kept" | cmp -s - saved.text || why="$why; the image isn't that of checkpoint $kept"
}

# judge IMAGE FIRST START: judges the vault of a run that was killed, whose first number was to be FIRST, and which began with checkpoint
# START, 0 for none.
judge() {
    lines=$(($(wc -l <said)))
    head -n "$lines" said >whole
    seq -f '%05.0f' "$2" $(($2 + lines - 1)) | cmp -s - whole || why="$why; the numbers that were said aren't one after the other"
    last=$3
    [ "$lines" = 0 ] || last=$(($2 + lines - 1))
    find "$1"
    [ "$kept" = "$last" ] || [ "$kept" = $((last + 1)) ] || why="$why; $last was said, and $kept was kept"
}

# How long it takes a run to say its first number.
for image in light heavy; do
    begun=$(now)
    guard $image
    until [ -s said ] || [ $(($(now) - begun)) -gt 20000 ]; do
        pause 1
    done
    eval "$image=$(($(now) - begun))"
    why=
    stop
    [ -s said ] || why="$why; nothing was said in 20 seconds"
    tell "a run of the $image image says its first number" "$why"
done

# A run is killed at a hundred moments. What goes on from the vault says the last number that was kept, and keeps the next one.
early=0
beside=0
for moment in $(seq 1 100); do
    why=
    image=light
    first=$light
    [ $((moment % 2)) = 0 ] || { image=heavy; first=$heavy; }
    delay=$((moment * (first + (first > 300 ? first : 300)) / 100))
    guard $image
    pause $delay
    stop
    judge $image 1 0
    [ "$lines" != 0 ] || early=$((early + 1))
    [ "$kept" = "$last" ] || beside=$((beside + 1))
    found=$kept
    if [ -z "$why" ] && [ "$found" != 0 ]; then
        go_on $round
        [ "$code" = 0 ] && [ "$(cat notes)" = "ran $round" ] || why="$why; $round bytecodes from there ended with $code: $(cat notes)"
        [ "$(cat out)" = "$(printf '%05d' "$found")" ] || why="$why; they said '$(cat out)', not $found"
        find $image
        [ "$kept" = $((found + 1)) ] || why="$why; they kept $kept, not $((found + 1))"
    fi
    tell "the $image image, killed after $delay ms: $last was said last, $found was kept" "$why"
done
echo "        nothing was said yet at $early moments, and at $beside the checkpoint under way was kept already"
why=
[ "$early" -lt 60 ] || why="; at $early moments of 100 nothing was said yet"
tell 'most runs were killed behind their first checkpoint' "$why"

# One run, and those that go on from it.
why=
guard heavy
pause $((heavy + 50))
stop
judge heavy 1 0
tell "a run, killed: $last was said last, $kept was kept" "$why"
for moment in $(seq 1 20); do
    why=
    start=$kept
    if [ "$start" = 0 ]; then
        guard heavy
        pause $((heavy + moment * 15))
        stop
        judge heavy 1 0
    else
        resume
        pause $((heavy / 2 + moment * (heavy * 3 / 2 + 150) / 20))
        stop
        judge heavy "$start" "$start"
    fi
    tell "what goes on from checkpoint $start, killed: $last was said last, $kept was kept" "$why"
done

echo "kills: $passed passed, $failed failed"
[ "$failed" = 0 ]
