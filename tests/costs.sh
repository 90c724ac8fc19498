#!/usr/bin/env bash
# Counts what the built program costs, and prints the tables of docs/COSTS.md: instructions (valgrind) and calls of the system (strace), as
# differences of two lengths of a run, so that loading and saving don't show. Not in the gate; it takes some minutes.
#
#   tests/costs.sh LOOM [PLAIN] [PART..]
#
# LOOM is the program as `rt ci` builds it. PLAIN is another interpreter with the words `run IMAGE EVENTS SAVED DISPLAY STEPS` over one heap
# in memory, to be compared with; `-` for none. PART is loops, job, load, dying, keep, path or full; all of them if none is named. The images are
# made here, as texts.
set -u
[ $# -ge 1 ] || { sed -n '2,9s/^# \{0,1\}//p' "$0" >&2; exit 2; }
loom=$(realpath "$1") || exit 2
plain=${2:--}
[ "$plain" = - ] || plain=$(realpath "$plain") || exit 2
shift $(($# > 1 ? 2 : 1))
parts=${*:-loops job load dying keep path full}
for tool in valgrind strace; do
    command -v $tool >/dev/null || { echo "costs: there is no $tool" >&2; exit 2; }
done
top=$(cd "$(dirname "$0")/.." && pwd)
where=$(mktemp -d)
trap 'rm -rf "$where"' EXIT
cd "$where" || exit 2

# ---- images

# The known objects that an image has to have, but those whose names are given.
known() {
    local name
    for name in 2 4 6 8 12 14 16 22 24 26 28 30 32 34 38 40 42 44 48 50 52 58; do
        case " $* " in *" $name "*) ;; *) echo "$name 16 pointers" ;; esac
    done
}

# One process on the method 64: its line behind `method`, the context's instruction pointer, stack pointer and fields from the receiver on.
process() {
    cat <<END
60 16 pointers 2 62
62 16 pointers 2 66 1i 2
64 34 method $1
66 22 pointers 2 $2 $3 64 2 $4
END
}

# An image by its name out of the lines of its objects, in any order.
image() {
    local lines
    lines=$(sort -n)
    { echo "loom $(($(tail -n 1 <<<"$lines" | cut -d' ' -f1) + 2)) 0 0 0 0 0"; echo "$lines"; } >"$1.text"
    "$loom" asm "$1.text" objects "$1.loom" 2>notes || { echo "costs: $1: $(cat notes)" >&2; exit 1; }
}

nils='2 2 2 2 2 2 2 2 2 2 2'

# A class 16 that understands one message, whose method is the object 74.
understands() { printf '16 16 pointers 2 68 -4096i 2\n68 16 pointers 1i 70 72\n70 16 pointers 74\n72 14 bytes 73 65 6e 64\n74 34 method %s\n' "$1"; }

# The special selectors at: and at:put:.
at_selectors() {
    printf '48 16 pointers'
    printf ' 2%.0s' $(seq 32)
    echo ' 72 1i 76 2i'
    printf '72 14 bytes 61 74 3a\n76 14 bytes 61 74 3a 70 75 74 3a\n'
}

words() { printf '%s 30 words' "$1"; printf " $3%.0s" $(seq "$2"); echo; }

{ known 8; echo '8 16 pointers 2 60'; process '0i code 70 87 a3 fc' 3i 0i "2 $nils 2"; } | image base
{ known 8; echo '8 16 pointers 2 60'; process '0i code 76 77 b0 87 a3 fa' 3i 0i "2 $nils 2"; } | image arithmetic
{ known 8 16; echo '8 16 pointers 2 60'; understands '-12288i code 78'; process '1i 72 code 70 d0 87 a3 fb' 5i 0i "2 $nils 2"; } | image answers
{ known 8 16; echo '8 16 pointers 2 60'; understands '0i code 78'; process '1i 72 code 70 d0 87 a3 fb' 5i 0i "2 $nils 2"; } | image sends
{ known 8; echo '8 16 pointers 2 60'; process '128i code 10 c9 87 a3 fb 76 7d' 3i 1i "2 80 $nils"; echo "80 24 pointers 2 8i 0i 0i 8i 66 $nils 2"; } | image blocks
{ known 8 16 48; echo '8 16 pointers 2 60'; at_selectors; process '128i code 10 76 c0 87 a3 fa' 3i 1i "2 80 $nils"; echo '80 16 pointers 1i'
    printf '16 16 pointers 2 68 -4096i\n68 16 pointers 1i 70 72\n70 16 pointers 74\n74 34 method -4094i 316i 2 code 78\n'; } | image elements
{ known 8 16 48; echo '8 16 pointers 2 60'; at_selectors; process '128i code 10 76 77 c1 87 a3 f9' 3i 1i "2 80 $nils"; echo '80 16 pointers 1i'
    printf '16 16 pointers 2 68 -4096i\n68 16 pointers 1i 70 76\n70 16 pointers 74\n74 34 method -4094i 573i 2 code 78\n'; } | image stores
# Two processes: one signals a semaphore, the other, of a higher priority, waits on it.
{ known 8 16; echo '8 16 pointers 2 60'
    printf '60 16 pointers 90 62\n62 16 pointers 2 66 1i 2\n64 34 method 129i 72 code 10 d0 87 a3 fb\n66 22 pointers 2 5i 1i 64 2 2 80 %s\n' "$nils"
    printf '72 14 bytes 73 69 67 6e 61 6c\n74 34 method -4094i 85i 2 code 78\n76 14 bytes 77 61 69 74\n78 34 method -4094i 86i 2 code 78\n'
    printf '68 16 pointers 2i 70 2 2 2 2\n'
    printf '80 16 pointers 98 98 0i\n90 16 pointers 92 94\n92 16 pointers 2 2\n94 16 pointers 2 2\n'
    printf '96 34 method 129i 76 code 10 d0 87 a3 fb\n98 16 pointers 2 88 2i 80\n88 22 pointers 2 5i 1i 96 2 2 80 %s\n' "$nils"
    echo '16 16 pointers 2 68 -4096i'; } >switches.lines
# The dictionary's two selectors stand where their indexes, modulo 4, say: 72 / 2 is 0 and 76 / 2 is 2.
sed -e 's/^68 .*/68 16 pointers 2i 70 72 2 76 2/' switches.lines >switches.new
{ cat switches.new; echo '70 16 pointers 74 2 78 2'; } | image switches
# A blit into a form of 640 by 480: the image's name, the source (84 is the form itself, 88 another one, 2 none), the halftone (92, or 2 for
# none), and the fields from the rule to the place in the source.
blit() {
    { known 8 16; echo '8 16 pointers 2 60'; process '129i 72 code 10 d0 87 a3 fb' 5i 1i "2 80 $nils"
        printf '16 16 pointers 2 68 -4096i\n68 16 pointers 1i 70 72\n70 16 pointers 74\n72 14 bytes 63 6f 70 79 42 69 74 73\n74 34 method -4094i 96i 2 code 78\n'
        words 82 19200 f0f0
        echo '84 16 pointers 82 640i 480i 2'
        if [ $2 = 88 ]; then
            words 86 19200 3333
            echo '88 16 pointers 86 640i 480i 2'
        fi
        if [ $3 = 92 ]; then
            words 90 16 5a3c
            echo '92 16 pointers 90 16i 16i 2'
        fi
        echo "80 16 pointers 84 $2 $3 $4 0i 0i 640i 480i"; } | image $1
}
blit fills 2 2 '10i 0i 0i 640i 480i 0i 0i'
blit tones 2 92 '3i 0i 0i 640i 480i 0i 0i'
blit copies 88 2 '6i 3i 0i 600i 480i 8i 0i'
blit mixes 88 92 '7i 5i 0i 600i 480i 0i 0i'
blit moves 84 2 '3i 3i 1i 600i 479i 8i 0i'
blit scrolls 84 2 '3i 0i 0i 640i 464i 0i 16i'
blit glyphs 88 2 '7i 5i 9i 16i 16i 0i 0i'
blit squares 2 2 '12i 16i 16i 16i 16i 0i 0i'
blit spots 2 92 '3i 5i 9i 16i 16i 0i 0i'
# A send whose row is cached, and a store into a variable of its class.
{ known 8 16; echo '8 16 pointers 2 60'; understands '-12288i code 78'; process '129i 72 code 76 63 10 d0 87 a3 f9' 5i 1i "16 2 $nils"; } | image path
# A chain of so many objects behind the base image.
chain() {
    { known 8 4; echo '8 16 pointers 2 60'; echo '4 16 pointers 100'; process '0i code 70 87 a3 fc' 3i 0i "2 $nils 2"
        awk -v n="$1" 'BEGIN { for (i = 0; i < n; i++) print 100 + 2 * i, 16, "pointers", i + 1 < n ? 102 + 2 * i : 2 }'; } | image "$2"
}

for name in base arithmetic answers sends blocks elements stores switches fills tones copies mixes moves scrolls glyphs squares spots path; do
    [ -s $name.loom ] || exit 1
done

# ---- measures

# run PROGRAM IMAGE STEPS CORE ENTRIES ROOM, under the words that come before it.
run() {
    local program=$1 image=$2 steps=$3
    shift 3
    if [ "$program" = "$plain" ]; then
        "${before[@]}" "$program" run "$image" /dev/null saved.plain display.plain "$steps" >said 2>notes
    else
        "${before[@]}" "$program" run "$image" /dev/null objects saved.loom display.pbm "$@" "$steps" >said 2>notes
    fi
}

instructions() {
    before=(valgrind --tool=callgrind --callgrind-out-file=/dev/null)
    run "$@"
    sed -n 's/^==[0-9]*== Collected : //p' notes
}

calls() {
    before=(strace -f -c -o counts)
    run "$@"
    awk '$NF == "total" { print $4 }' counts | head -n 1
}

# by FEW MANY COUNT MEASURE PROGRAM IMAGE STEPS..: what one of COUNT costs, of two lengths of a run
difference() {
    local measure=$1 program=$2 image=$3 few=$4 many=$5 one two
    shift 5
    one=$($measure "$program" "$image" "$few" "$@")
    two=$($measure "$program" "$image" "$many" "$@")
    awk -v a="${one:-0}" -v b="${two:-0}" -v n=$((many - few)) 'BEGIN { printf "%.4f", (b - a) / n }'
}

small='4096 512 8192' middle='65536 4096 65536' large='1048576 32767 1048576'

loops() {
    printf '| loop | bytecodes a round | plain, instructions | loom, instructions: %s | calls of the system for 1,000 bytecodes |\n' "$small; $middle; $large"
    local row name round few many cells count size
    while read -r name round few many; do
        cells=
        count=
        for size in "$small" "$middle" "$large"; do
            case $name:$size in fills:4096*|tones:4096*|copies:4096*|mixes:4096*|moves:4096*|scrolls:4096*|glyphs:4096*|squares:4096*|spots:4096*) cells="$cells -;" count="$count -;"; continue ;; esac
            cells="$cells $(difference instructions "$loom" $name.loom $few $many $size | awk '{ printf "%d", $1 }');"
            count="$count $(difference calls "$loom" $name.loom $few $many $size | awk '{ printf "%.2f", 1000 * $1 }');"
        done
        row=-
        [ "$plain" = - ] || row=$(difference instructions "$plain" $name.loom $few $many | awk '{ printf "%d", $1 }')
        echo "| $name | $round | $row |$cells |$count |"
    done <<END
base 3 100000 400000
arithmetic 5 100000 400000
answers 4 100000 400000
sends 5 200000 800000
blocks 6 100000 400000
elements 5 100000 400000
stores 6 100000 400000
switches 8 100000 400000
fills 4 400 800
tones 4 400 800
copies 4 400 800
mixes 4 400 800
moves 4 400 800
scrolls 4 400 800
glyphs 4 4000 8000
squares 4 4000 8000
spots 4 4000 8000
END
}

# The middle of five times by the clock, in seconds.
seconds() {
    local i
    for i in 1 2 3 4 5; do
        { /usr/bin/time -f %e "$@" >said 2>notes; } 2>/dev/null
        tail -n 1 notes
    done | sort -n | sed -n 3p
}

job() {
    local core
    "$loom" make 19 large.loom 2>notes
    echo "| the large job, 999,961 bytecodes of \`make 19\`, at core, entries, room | seconds, the middle of five | million instructions | calls of the system |"
    for core in 24576 65536 262144 16777216; do
        echo "| $core 32767 65536 | $(seconds "$loom" run large.loom /dev/null objects saved.loom display.pbm $core 32767 65536 999961) | $(instructions "$loom" large.loom 999961 $core 32767 65536 | awk '{ printf "%d", $1 / 1e6 }') | $(calls "$loom" large.loom 999961 $core 32767 65536) |"
    done
    [ "$plain" = - ] || echo "| plain | $(seconds "$plain" run large.loom /dev/null saved.plain display.plain 999961) | $(instructions "$plain" large.loom 999961 | awk '{ printf "%d", $1 / 1e6 }') | |"
    local fetches=$top/crates/fetches/out/fetches
    [ -x "$fetches" ] || return 0
    for core in 24576 65536 262144 16777216; do
        echo "| fetches at $core 32767 65536 | $("$fetches" 19 $core 32767 65536 999961) | | |"
    done
}

load() {
    local n room few
    chain 100 few
    few=$(instructions "$loom" few.loom 0 1048576 32767 1048576)
    echo "| loading and saving, objects | room | seconds, the middle of five | instructions an object | calls of the system | kilobytes of WORK |"
    for n in 65536 800000; do
        chain $n chain
        for room in $((n + 100)) $((n + n / 8)) 1048576; do
            rm -f objects
            echo "| $((n + 26)) | $room | $(seconds "$loom" run chain.loom /dev/null objects saved.loom display.pbm 1048576 32767 $room 0) | $(instructions "$loom" chain.loom 0 1048576 32767 $room | awk -v few="$few" -v n=$n '{ printf "%d", ($1 - few) / n }') | $(calls "$loom" chain.loom 0 1048576 32767 $room) | $(du -k objects | cut -f1) |"
        done
        [ "$plain" = - ] || echo "| $((n + 26)) plain | | $(seconds "$plain" run chain.loom /dev/null saved.plain display.plain 0) | $(instructions "$plain" chain.loom 0 | awk -v n=$n '{ printf "%d", $1 / n }') | | |"
    done
}

# A chain that dies at once: its one holder lets it go, and the end of the run frees it. The links stand in names that rise, fall or are
# scattered.
dying() {
    local order n
    echo "| a chain that dies at once, in names that | objects | seconds, the middle of five | with nothing let go |"
    for order in rise fall scatter; do
        for n in 25000 50000 100000; do
            { known 8; echo '8 16 pointers 2 60'; process '0i code 73 60 a3 fc' 3i 0i "90 $nils 2"
                awk -v n=$n -v order=$order '
                    function name(i) { return 100 + 2 * (order == "rise" ? i : order == "fall" ? n - 1 - i : i * 61803 % n) }
                    BEGIN {
                        print 90, 16, "pointers", name(0)
                        for (i = 0; i < n; i++) print name(i), 16, "pointers", (i + 1 < n ? name(i + 1) : 2), 2
                    }'; } | image dying
            echo "| $order | $n | $(seconds "$loom" run dying.loom /dev/null objects saved.loom display.pbm 1048576 32767 131072 2) | $(seconds "$loom" run dying.loom /dev/null objects saved.loom display.pbm 1048576 32767 131072 0) |"
        done
    done
}

keep() {
    local size one two
    "$loom" asm "$top/examples/counter.text" objects counter.loom 2>notes
    echo "| one checkpoint of examples/counter.text, at core, entries, room | instructions | calls of the system |"
    for size in "$small" "$middle" "$large" "16777216 32767 1048576"; do
        one=$(guard_instructions 1300 $size) two=$(guard_instructions 11300 $size)
        echo "| $size | $(awk -v a="$one" -v b="$two" 'BEGIN { printf "%d", (b - a) / 80 }') | $(awk -v a="$(guard_calls 1300 $size)" -v b="$(guard_calls 11300 $size)" 'BEGIN { printf "%.1f", (b - a) / 80 }') |"
    done
}

guarded() { "${before[@]}" "$loom" guard counter.loom /dev/null objects saved.loom display.pbm "$2" "$3" "$4" "$1" vault >said 2>notes; }
guard_instructions() { before=(valgrind --tool=callgrind --callgrind-out-file=/dev/null); guarded "$@"; sed -n 's/^==[0-9]*== Collected : //p' notes; }
guard_calls() { before=(strace -f -c -o counts); guarded "$@"; awk '$NF == "total" { print $4 }' counts | head -n 1; }

path() {
    echo "| a round of a cached send and a store into its class's variable, 6 bytecodes, at core, entries, room | instructions a round |"
    for size in "$small" "$middle" "$large"; do
        echo "| $size | $(difference instructions "$loom" path.loom 60000 120000 $size | awk '{ printf "%d", 6 * $1 }') |"
    done
}

full() {
    chain 991 nearly
    echo "| a bytecode of the base loop where the living fill ROOM to its last eight, at core, entries, room | instructions |"
    for size in "65536 512 1024" "65536 4096 1024" "1048576 32767 1024"; do
        echo "| $size | $(difference instructions "$loom" nearly.loom 1000 3000 $size | awk '{ printf "%d", $1 }') |"
    done
}

for part in $parts; do
    case $part in
        loops|job|load|dying|keep|path|full) $part; echo ;;
        *) echo "costs: $part is no part" >&2; exit 2 ;;
    esac
done
