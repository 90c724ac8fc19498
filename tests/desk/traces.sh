#!/bin/sh
# The lines of `st80 trace` beside those of `loom trace`: as many, and each at the same place of its method. Topic of tests/desk.sh.
#
#     tests/desk/traces.sh PROGRAM [LOOM]
set -u
top=$(cd "$(dirname "$0")/../.." && pwd) || exit 1
st80=$(realpath "${1:-$top/crates/st80/out/st80}")
loom=${2:-$top/loom}
work=$(mktemp -d) || exit 1
trap 'rm -rf "$work"' EXIT
passed=0
failed=0

# places FILE: the place of each bytecode. What the machine said may stand in front of a line.
places() {
    sed -nE 's/^.* ([0-9]+)  (push|pop|send|jump|return|store|duplicate|bytecode|unused).*$/\1/p' "$1"
}

if [ ! -x "$loom" ]; then
    echo "skipped: there is no program $loom"
    echo "0 passed, 0 failed"
    exit 0
fi
cd "$work" || exit 1
for name in factorial tour counter hello semaphore; do
    "$loom" asm "$top/examples/$name.text" work "$name.loom" 2>/dev/null
    "$loom" trace "$name.loom" /dev/null work "$name.trace" 65536 32767 8192 20000 >/dev/null 2>loom.said
    "$st80" trace "$name.loom" --to 20000 >"$name.lines" 2>st80.said </dev/null
    cut -d ' ' -f 3 "$name.trace" >wanted
    places "$name.lines" >came
    if [ -s wanted ] && cmp -s wanted came && [ "$(tail -n 1 loom.said)" = "$(tail -n 1 st80.said)" ]; then
        passed=$((passed + 1))
    else
        failed=$((failed + 1))
        echo "FAILED  the trace of $name"
    fi
done
echo "$passed passed, $failed failed"
[ "$failed" = 0 ]
