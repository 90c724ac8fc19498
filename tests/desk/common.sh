# What the topics of tests/desk.sh have in common: the program, a folder of their own, the files that they begin with, and how a case is tried.
# Each topic reads it with its own words.
set -u
top=$(cd "$(dirname "$0")/../.." && pwd) || exit 1
st80=${1:-$top/crates/st80/out/st80}
case $st80 in
    /*) ;;
    *) st80=$(pwd)/$st80 ;;
esac
[ -x "$st80" ] || { echo "desk: there is no program $st80; ./demo builds it" >&2; exit 1; }
work=$(mktemp -d) || exit 1
trap 'umount "$work/small" 2>/dev/null; rm -rf "$work"' EXIT
chmod 755 "$work"
cd "$work" || exit 1

passed=0
failed=0

# The temporary folder, in which nothing may be left.
mkdir temporary
export TMPDIR="$work/temporary"

# patch FILE PLACE BYTES: writes bytes, as printf has them, over those at a place.
patch() {
    printf "$3" | dd of="$1" bs=1 seek="$2" conv=notrunc 2>/dev/null
}

# Texts and images: the examples, a stuck one, and some that are no images.
for name in hello blit tour counter factorial semaphore sketch; do
    cp "$top/examples/$name.text" . || exit 1
    "$st80" asm "$name.text" "$name.loom" 2>/dev/null || exit 1
done
cp "$top/examples/sketch.events" "$top/tests/hello.pbm" . || exit 1
sed 's/^68 .*/68 16 pointers 1i 70 2 2/' tour.text >stuck.text
"$st80" asm stuck.text stuck.loom 2>/dev/null || exit 1
: >empty
mkdir folder
echo 'this is no image' >other
head -c 513 /dev/zero >none.vault
"$st80" guard counter.loom one.vault --steps 300 --no-save >/dev/null 2>&1 </dev/null
head -c 500 hello.loom >cut.loom
{ cat hello.loom; printf '\000\000\000\000'; } >padded.loom
cp hello.loom third.loom && patch third.loom 7 '\003'
cp tour.loom count.loom && patch count.loom 179 '\077'

# try NAME CODE WORDS NEEDLE..: runs the program on the words, which the shell reads. It has to end with the code, and what it says on both
# streams has to contain each needle. Nothing may be left in the temporary folder, and no file beside another one.
try() {
    name=$1
    wanted=$2
    words=$3
    shift 3
    { eval "\"\$st80\" $words" </dev/null >said 2>&1; } 2>/dev/null
    code=$?
    why=
    [ "$code" = "$wanted" ] || why="$why; it ended with $code, not $wanted"
    for needle in "$@"; do
        grep -qF -- "$needle" said || why="$why; '$needle' isn't said"
    done
    [ -z "$(ls -A temporary)" ] || { why="$why; the temporary folder has $(ls -A temporary)"; rm -rf temporary/*; }
    left=$(find . \( -name '*.part' -o -name '*.try' \) -print)
    [ -z "$left" ] || { why="$why; there is $left"; rm -f $left; }
    tell "$name" "$why"
    [ -z "$why" ] || sed 's/^/            /' said | head -n 12
}

# tell NAME WHY: prints the line of a case, which failed where there is a reason.
tell() {
    if [ -z "$2" ]; then
        passed=$((passed + 1))
        echo "ok      $1"
    else
        failed=$((failed + 1))
        echo "FAILED  $1: ${2#; }"
    fi
}

# same NAME FILE WANTED: two files have the same bytes.
same() {
    why=
    cmp -s "$2" "$3" || why="; $2 isn't $3"
    tell "$1" "$why"
}

# absent NAME FILE..: none of the files is there.
absent() {
    name=$1
    shift
    why=
    for file in "$@"; do
        [ ! -e "$file" ] || why="$why; there is $file"
    done
    tell "$name" "$why"
}

# skip NAME WHY: says that cases can't be tried here.
skip() {
    echo "skipped $1: $2"
}

# finish: says how many cases passed. The exit status is 1 where one failed.
finish() {
    echo "$passed passed, $failed failed"
    [ "$failed" = 0 ]
}
