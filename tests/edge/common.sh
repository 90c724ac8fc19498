# What the topics of tests/edge.sh have in common: the program, a folder of their own, the files that they begin with, and how a case is tried.
# Each topic reads it with its own words.
set -u
top=$(cd "$(dirname "$0")/../.." && pwd) || exit 1
loom=${1:-$top/crates/loom_cli/out/loom_cli}
case $loom in
    /*) ;;
    *) loom=$(pwd)/$loom ;;
esac
[ -x "$loom" ] || { echo "edge: there is no program $loom; ./demo builds it" >&2; exit 1; }
work=$(mktemp -d) || exit 1
trap 'umount "$work/small" 2>/dev/null; rm -rf "$work"' EXIT
chmod 755 "$work"
cd "$work" || exit 1

exec 3>&- 4>&- 5>&- 6>&- 7>&- 8>&- 9>&- # what the caller left open

passed=0
failed=0

# patch FILE PLACE BYTES: writes bytes, as printf has them, over those at a place.
patch() {
    printf "$3" | dd of="$1" bs=1 seek="$2" conv=notrunc 2>/dev/null
}

# version_2 FILE CLOCK: makes of an image of version 1 one of version 2, with this clock (four bytes, as printf has them), no display, no
# input and no timer. Its records begin 20 bytes later.
version_2() {
    {
        head -c 7 "$1"
        printf '\002'
        head -c 16 "$1" | tail -c 8
        printf "$2"
        head -c 16 /dev/zero
        tail -c +17 "$1"
    } >made
    mv made "$1"
}

# How large the machine is: CORE, ENTRIES and ROOM.
sizes='65536 4096 1024'

# The base image, and what two bytecodes make of it: the instruction pointer of its context is 5 in place of 3, and the clock is 2. After
# any number of pairs of bytecodes only the clock is another than in the base image.
base=$top/crates/loom_images/data/base.loom
cp "$base" base.loom && cp "$base" after.loom && cp "$base" million.loom || exit 1
patch after.loom 587 '\013'
version_2 after.loom '\000\000\000\002'
version_2 million.loom '\000\017\102\077'

# The base image with another first bytecode: one that no machine has.
cp "$base" unused.loom || exit 1
patch unused.loom 556 '\176'

# An image that says `hi` and a newline in its third bytecode, and has no fourth; and one that says `loom`, draws a picture and quits.
cp "$top/crates/loom_cli/data/say.loom" "$top/crates/loom_images/data/hello.loom" . || exit 1
cp "$top/tests/hello.pbm" . && cp say.loom unsaid.loom || exit 1
version_2 unsaid.loom '\000\000\000\000'

# An image that draws by BitBlt and quits. What is traced of it, of the base image for four bytecodes, and of the one that says `hi`; and the
# first lines of these two.
cp "$top/crates/loom_images/data/blit.loom" . || exit 1
printf '1 66 2 112\n2 66 3 135\n3 66 4 163\n4 66 2 112\n' >base.trace
printf '1 66 6 112\n2 66 7 33\n3 66 8 224\n' >say.trace
{
    printf '1 66 14 32\n2 66 15 209\n3 66 16 135\n4 66 17 34\n5 66 18 209\n6 66 19 135\n'
    printf '7 66 20 35\n8 66 21 212\n9 66 22 135\n10 66 23 112\n11 66 24 213\n'
} >blit.trace
head -n 1 base.trace >first.trace && head -n 2 say.trace >unsaid.trace

# Event files.
: >none.events
printf '0 word 7\n1 purge\n1 compact\n' >good.events
printf '0 word 7\n1 purge\n0 compact\n' >falls.events
printf '0 word 65536\n' >large.events
printf '0 purge' >cut.events

# The base image and two more objects. A field above the stack pointer of the context holds 68, which holds 70 twice; the
# first bytecode pushes nil there. So both are dead when the image is saved, which has 652 bytes again in place of 728.
dead_image() {
    cp "$base" "$1" || exit 1
    patch "$1" 11 '\034'    # 28 objects
    patch "$1" 15 '\110'    # the next name is 72
    patch "$1" 31 '\022'    # the count of nil, 18
    patch "$1" 139 '\001'   # of 14, the class of 70
    patch "$1" 159 '\031'   # of 16, 25
    patch "$1" 607 '\104'   # the field holds 68
    {
        printf '\000\000\000\104\000\000\000\020\000\000\000\000\000\000\000\001\000\000\000\002'
        printf '\000\000\000\106\000\000\000\106'
        printf '\000\000\000\106\000\000\000\016\000\000\000\000\000\000\000\002\000\002\000\034'
        printf 'held by a dead object alone\n'
    } >>"$1"
}
cp after.loom swept.loom
patch swept.loom 15 '\110'

# byte NUMBER: a byte as printf has it.
byte() {
    printf '\\%03o' "$1"
}

# large_image COUNT: makes large.loom, the base image and an array of so many arrays of 65,000 zeros each (at most 64), and
# larger.loom, what two bytecodes make of it.
large_image() {
    cp "$base" large.loom || exit 1
    patch large.loom 11 "$(byte $((27 + $1)))"      # so many objects
    patch large.loom 15 "$(byte $((70 + 2 * $1)))"  # the next name
    patch large.loom 31 '\022'                      # the count of nil, 18
    patch large.loom 159 "$(byte $((25 + $1)))"     # of 16
    patch large.loom 651 '\104'                     # the context's last field holds 68
    {
        printf '\000\000\000\104\000\000\000\020\000\000\000\000\000\000\000\001\000\000\000'
        printf "$(byte "$1")"
        for name in $(seq 70 2 $((68 + 2 * $1))); do
            printf "\\000\\000\\000$(byte "$name")"
        done
        for name in $(seq 70 2 $((68 + 2 * $1))); do
            printf "\\000\\000\\000$(byte "$name")"
            printf '\000\000\000\020\000\000\000\000\000\000\000\001\000\000\375\350'
            cat zeros
        done
    } >>large.loom
    cp large.loom larger.loom && patch larger.loom 587 '\013'
    version_2 larger.loom '\000\000\000\002'
}
printf '\000\000\000\001' >zeros
for _ in 1 2 3 4 5 6 7 8 9 10 11 12 13 14 15 16; do
    cat zeros zeros >more && mv more zeros
done
dd if=zeros of=more bs=26000 count=10 2>/dev/null && mv more zeros
large_image 4

# An image whose first bytecode reads a field of an array of 5,000 numbers, and what two bytecodes make of it; one whose second does; and one
# that states 1,025 objects.
cp "$base" wide.loom && cp "$base" many.loom || exit 1
patch wide.loom 11 '\033'       # 27 objects
patch wide.loom 15 '\106'       # the next name is 70
patch wide.loom 31 '\022'       # the count of nil, 18
patch wide.loom 159 '\031'      # of 16, 25
patch wide.loom 556 '\000'      # push field 0 of the receiver
patch wide.loom 603 '\104'      # which is 68
{
    printf '\000\000\000\104\000\000\000\020\000\000\000\000\000\000\000\001\000\000\023\210'
    head -c 20000 zeros
} >>wide.loom
cp wide.loom wider.loom
patch wider.loom 31 '\021'      # nil stands in one place less
patch wider.loom 587 '\013'
patch wider.loom 607 '\001'     # where the field was pushed
version_2 wider.loom '\000\000\000\002'
cp wide.loom late.loom
patch late.loom 556 '\160\000'  # push the receiver, and then its field 0
patch many.loom 10 '\004\001'

# snap FILE CLOCK IP SP TOP: makes an image whose second and fifth bytecode have its machine kept (primitive 97), and which has no seventh,
# at this clock, with these fields 1 and 2 of its context, and with this value in the first of its stack. Then what is kept at bytecode 2
# and at 5, and what a run saves after 3 and 6.
snap() {
    {
        echo "loom 78 $2 0 0 0 0"
        sed "1d; s/^16 .*/16 16 pointers 2 68 0i/; s/^64 .*/64 34 method 2i 72 76 code 21 d0 87 21 d0 87/
            s/^66 .*/66 22 pointers 2 $3i $4i 64 2 2 $5 2 2 2 2 2 2 2 2 2 2 2/" "$top/crates/loom_images/data/base.text"
        printf '68 16 pointers 1i 70 72\n70 16 pointers 74\n72 14 bytes 73 6e 61 70\n74 34 method -4094i 97i 2 code 78\n76 16 pointers\n'
    } >snap.text
    "$loom" asm snap.text objects "$1" 2>/dev/null
}
snap snap.loom 0 7 0 2
snap kept1.loom 2 9 1 76
snap snap3.loom 3 10 0 76
snap kept2.loom 5 12 1 76
snap snap6.loom 6 13 0 76
cp snap.loom snap.same

# keep VAULT SERIAL IMAGE: puts a checkpoint into a vault, with its gate.
keep() {
    place=$(($2 % 2))
    size=$(($(wc -c <"$3")))
    patch "$1" $((512 * place)) '\001'
    patch "$1" $((512 * place + 8)) "\\000\\000\\000\\000\\000\\000\\000$(byte "$2")"
    patch "$1" $((512 * place + 16)) "\\000\\000\\000\\000\\000\\000$(byte $((size / 256)))$(byte $((size % 256)))"
    dd if="$3" of="$1" bs=512 seek=$((8 + 128 * place)) conv=notrunc 2>/dev/null
}

# Vaults: with both gates closed, with the first checkpoint, and with both.
head -c 513 /dev/zero >none.vault
cp none.vault one.vault && keep one.vault 1 kept1.loom
cp one.vault two.vault && keep two.vault 2 kept2.loom

# What stands in SAVED and DISPLAY before each run: text that is no image, and longer than any file that is written here.
yes 'this is not an image' | head -n 100 >old.loom
mkdir directory

# What a run is tried with, beside its words: how many descriptors it may have, what the shell does that becomes the program,
# the command that runs it, what is done just before, what has to be said on standard output, and what has to be in DISPLAY:
# 'old' for what was there before, 'empty', or a file. Where `killed` isn't empty, a file beside SAVED may be left.
most=
inner=
as=
before=
said=
display=empty
killed=

# try NAME STREAMS WORDS CODE LINE FILE WANTED: runs the program on the words, with its standard streams redirected as
# STREAMS says. It has to end with the code, say this line alone on standard error ('' for none), leave FILE the bytes of
# WANTED ('none' for no file), and leave base.loom as it was.
try() {
    rm -f saved.loom display.pbm objects
    cp old.loom saved.loom
    cp old.loom display.pbm
    rm -f new.loom new.pbm out notes wanted_notes wanted_out
    : >out
    : >notes
    : >empty
    eval "$before"
    { eval "( ${most:+ulimit -n $most;} $inner exec $as \"\$loom\" $3 ) </dev/null >out 2>notes $2"; } 2>/dev/null
    code=$?
    if [ -n "$5" ]; then echo "$5" >wanted_notes; else : >wanted_notes; fi
    if [ -n "$said" ]; then echo "$said" >wanted_out; else : >wanted_out; fi
    case $display in
        old) picture=old.loom ;;
        *) picture=$display ;;
    esac
    why=
    [ "$code" = "$4" ] || why="$why; it ended with $code, not $4"
    cmp -s notes wanted_notes || why="$why; standard error has '$(cat notes)', not '$5'"
    cmp -s out wanted_out || why="$why; standard output has '$(cat out)', not '$said'"
    cmp -s display.pbm "$picture" || why="$why; display.pbm isn't $display"
    if [ "$7" = none ]; then
        [ ! -e "$6" ] || why="$why; there is a file $6"
    else
        cat "$6" 2>/dev/null | cmp -s - "$7" || why="$why; $6 isn't $7"
    fi
    cmp -s base.loom "$base" || { why="$why; base.loom was changed"; cp "$base" base.loom; }
    parts=$(find . -name '*.part' -type f)
    if [ -n "$parts" ] && [ -z "$killed" ]; then why="$why; there is $parts"; fi
    tell "$1" "$why"
}

# tell NAME WHY: prints the line of a case, which failed where there is a reason.
tell() {
    if [ -z "$2" ]; then
        passed=$((passed + 1))
        echo "ok      $1"
    else
        failed=$((failed + 1))
        echo "FAILED  $1: ${2#; }"
    fi
}

# holds NAME FILE WANTED: what the run that was just tried left in one more file.
holds() {
    cmp -s "$2" "$3"
    tell "$1" "${?#0}"
}

# skip NAME WHY: says that cases can't be tried here.
skip() {
    echo "skipped $1: $2"
}

# mode FILE: what may be done with it, as letters.
mode() {
    ls -l "$1" | cut -c1-10
}

good='run base.loom none.events objects saved.loom display.pbm $sizes 2'

# The text of the base image, and that image as version 2.
cp "$top/crates/loom_images/data/base.text" . && cp base.loom second.loom && version_2 second.loom '\000\000\000\000'

# What runs of hello.loom and say.loom save, and a file that may only be read.
"$loom" run say.loom none.events objects said.loom said.pbm $sizes 3 >/dev/null 2>&1
"$loom" run hello.loom none.events objects drawn.loom drawn.pbm $sizes 9999 >/dev/null 2>&1
cat /proc/version >version

# What is tried from here on leaves a picture where it goes through, and none where it is refused: `display` says which.
display=empty

# finish: says how many cases passed. The exit status is 1 where one failed.
finish() {
    echo "$passed passed, $failed failed"
    [ "$failed" = 0 ]
}
