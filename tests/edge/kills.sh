#!/bin/sh
# Tries the program at its edge: a run that is killed at fifty moments of saving over IMAGE.
#
#     tests/edge/kills.sh [PROGRAM]
. "$(dirname "$0")/common.sh"

# span: how many thousandths of a second it takes to save a large image over itself.
display=old
span() {
    save_over
    begun=$(now)
    wait "$run"
    echo $(($(now) - begun))
}

# save_over: begins a run that saves a large image over itself, and waits until it has begun to save.
save_over() {
    rm -f both.loom both.loom.part display.pbm
    cp large.loom both.loom
    touch -t 200001010000 both.loom mark
    "$loom" run both.loom none.events objects both.loom display.pbm $sizes 2 </dev/null >out 2>notes &
    run=$!
    turns=0
    until [ -e both.loom.part ] || [ both.loom -nt mark ] || [ "$turns" -gt 1000000 ]; do
        turns=$((turns + 1))
    done
}

now() {
    echo $(($(date +%s%N) / 1000000))
}

# A run that is killed at fifty moments, from where it begins to save until a little after its end. The image is so large
# that saving it takes a while.
for count in 1 8 64; do
    large_image "$count"
    span=$(span)
    [ "$span" -lt 100 ] || break
done
cmp -s both.loom larger.loom
tell 'a large image is saved over IMAGE' "${?#0}"
why=
for moment in $(seq 0 49); do
    save_over
    delay=$((moment * span / 45))
    sleep "$(printf '%d.%03d' $((delay / 1000)) $((delay % 1000)))"
    kill -9 "$run" 2>/dev/null
    wait "$run" 2>/dev/null
    cmp -s both.loom large.loom || cmp -s both.loom larger.loom || why="$why $moment"
done
tell 'killed at fifty moments of saving over IMAGE' "${why:+; it is neither the old image nor the new one at the moments$why}"
rm -f both.loom.part

finish
