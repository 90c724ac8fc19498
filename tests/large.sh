#!/bin/sh
# The large job: makes the image of 19, runs 999,961 bytecodes of it in a core of 65,536 words and in one of 16,777,216, and compares what
# comes out with what the machine has to give, and the one with the other. Then a text of a million objects is assembled, in 256 MB of address
# space, and its image is listed again, and so is the image of 19. Says how many seconds each took. Not in the gate.
#
#     tests/large.sh [PROGRAM]
set -u
top=$(cd "$(dirname "$0")/.." && pwd) || exit 1
loom=${1:-$top/crates/loom_cli/out/loom_cli}
case $loom in
    /*) ;;
    *) loom=$(pwd)/$loom ;;
esac
[ -x "$loom" ] || { echo "large: there is no program $loom; ./demo builds it" >&2; exit 1; }
work=$(mktemp -d) || exit 1
trap 'rm -rf "$work"' EXIT
cd "$work" || exit 1

passed=0
failed=0

# check NAME CONDITION..: one thing that has to come out.
check() {
    name=$1
    shift
    if "$@"; then
        passed=$((passed + 1))
    else
        failed=$((failed + 1))
        echo "  failed: $name"
    fi
}

# head_of FILE: how many objects an image states, and its next name.
head_of() { od -An -v -tu1 -j8 -N8 "$1" | awk '{ print (($1 * 256 + $2) * 256 + $3) * 256 + $4, (($5 * 256 + $6) * 256 + $7) * 256 + $8 }'; }

# zeros N: so many bytes that are 0.
zeros() { head -c "$1" /dev/zero; }

# picture: 640 by 480 pixels, white but for columns 3 to 102 of rows 4 to 53.
picture() {
    printf 'P4\n640 480\n'
    zeros 320
    row=4
    while [ $row -le 53 ]; do
        printf '\037\377\377\377\377\377\377\377\377\377\377\377\376'
        zeros 67
        row=$((row + 1))
    done
    zeros 34080
}

# run CORE: the job in a core of so many words. What comes out is left under that name.
run() {
    began=$(date +%s)
    "$loom" run g.loom none objects "$1.saved" "$1.pbm" "$1" 4096 65536 999961 >"$1.transcript" 2>"$1.notes"
    code=$?
    seconds=$(($(date +%s) - began))
    check "$1: the exit status, $code" [ "$code" = 0 ]
    check "$1: the line" [ "$(cat "$1.notes")" = 'ran 999961' ]
    check "$1: the transcript" [ "$(wc -c <"$1.transcript")" -eq 131705 ]
    check "$1: what it says" [ "$(sort "$1.transcript" | uniq -c | tr -s ' ')" = ' 26341 tick' ]
    check "$1: the saved image" [ "$(head_of "$1.saved")" = '40327 144034' ]
    check "$1: the picture" cmp "$1.pbm" wanted.pbm
    echo "a core of $1 words: $seconds seconds"
}

: >none
picture >wanted.pbm
check 'the exit status of the making' "$loom" make 19 g.loom 2>made
check 'its line' [ "$(cat made)" = 'made 20327 objects' ]
check 'the image' [ "$(head_of g.loom)" = '20327 40670' ]
run 65536
run 16777216
for part in saved pbm transcript; do
    check "the same $part in both" cmp "65536.$part" "16777216.$part"
done

# million: a text of 1,000,000 objects: those of the base image, and a chain that its context holds, each of which holds the next one.
million() {
    names=$((1000000 - 26))
    echo "loom $((68 + 2 * names)) 0 0 0 0 0"
    sed -e 1d -e '$s/2$/68/' "$top/crates/loom_images/data/base.text"
    seq 68 2 $((64 + 2 * names)) | awk '{ print $1, "16 pointers", $1 + 2 }'
    echo "$((66 + 2 * names)) 16 pointers"
}

# convert COMMAND FILE FILE LINE: a listing or an assembling that says this line.
convert() {
    began=$(date +%s)
    (
        ulimit -v 262144
        exec "$loom" "$1" "$2" objects "$3"
    ) 2>notes
    code=$?
    seconds=$(($(date +%s) - began))
    check "$1 $2: the exit status, $code" [ "$code" = 0 ]
    check "$1 $2: the line" [ "$(cat notes)" = "$4" ]
    echo "$1 $2: $seconds seconds"
}

million >million.text
convert asm million.text million.loom 'assembled 1000000 objects'
check 'the image of a million objects' [ "$(head_of million.loom)" = '1000000 2000016' ]
convert list million.loom again.text 'listed 1000000 objects'
check 'the text of a million objects' cmp million.text again.text
convert list g.loom g.text 'listed 20327 objects'
convert asm g.text again.loom 'assembled 20327 objects'
convert list again.loom again.text 'listed 20327 objects'
check 'the text of the image of 19' cmp g.text again.text
echo "large: $passed passed, $failed failed"
[ "$failed" = 0 ]
