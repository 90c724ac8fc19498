#!/bin/sh
# Tries `st80 build` and `st80 eval` on the kernel, the examples in Smalltalk, methods at random, and sources with mistakes. Prints a line for each case; the last line
# is 'N passed, N failed'.
#
#     tests/build.sh [PROGRAM]
#
# Each example is run in the smallest core that a run may have and in a large one. Where REFERENCE names a second machine that takes the words
# `run IMAGE EVENTS SAVED DISPLAY STEPS --v 2 --large --become`, what it says, saves and draws of the same images has to be the same.
set -u
top=$(cd "$(dirname "$0")/.." && pwd) || exit 1
st80=$(realpath "${1:-$top/st80}") || exit 1
[ -x "$st80" ] || { echo "build: there is no program $st80; ./demo builds it" >&2; exit 1; }
work=$(mktemp -d) || exit 1
trap 'rm -rf "$work"' EXIT
cd "$work" || exit 1
cp -R "$top/kernel" kernel
mkdir temporary
export TMPDIR="$work/temporary"
: >none

passed=0
failed=0

# tell NAME WHY: prints the line of a case, which failed where there is a reason.
tell() {
    if [ -z "$2" ]; then
        passed=$((passed + 1))
        echo "ok      $1"
    else
        failed=$((failed + 1))
        echo "FAILED  $1: ${2#; }"
    fi
}

# same NAME FILE WANTED: two files have the same bytes.
same() {
    why=
    cmp -s "$2" "$3" || why="; $2 isn't $3"
    tell "$1" "$why"
}

# runs NAME SOURCE WANTED [PICTURE]: an image is made of a source, and says what is wanted in a small core and in a large one, with the same image and
# the same picture afterwards. The picture is that of a file, where one is named.
runs() {
    name=$1
    "$st80" build "$2" -o made.loom --kernel kernel 2>said </dev/null
    code=$?
    [ "$code" = 0 ] || { tell "$name: it is built" "it ended with $code: $(head -n 1 said)"; return; }
    tell "$name: it is built" ""
    "$st80" check made.loom >said 2>&1 </dev/null || { tell "$name: it is an image" "$(head -n 1 said)"; return; }
    printf '%s\n' "$3" >wanted
    for size in small large; do
        case $size in
            small) words='--core 4096 --entries 512' ;;
            *) words='--core 1048576' ;;
        esac
        "$st80" run made.loom --save "$size.loom" --picture "$size.pbm" $words >"$size.said" 2>"$size.error" </dev/null
        code=$?
        why=
        [ "$code" = 0 ] || why="it ended with $code: $(tail -n 1 "$size.error")"
        cmp -s "$size.said" wanted || why="$why; it said '$(head -n 2 "$size.said")'"
        tell "$name: in a $size core" "$why"
    done
    same "$name: the same image in both" small.loom large.loom
    if [ $# -gt 3 ]; then same "$name: its picture" small.pbm "$4"; fi
    [ -n "${REFERENCE-}" ] || return
    "$REFERENCE" run made.loom none other.loom other.pbm 2147483647 --v 2 --large --become >other.said 2>other.error </dev/null
    same "$name: the reference machine says the same" large.said other.said
    same "$name: the reference machine saves the same" large.loom other.loom
    if [ $# -gt 3 ]; then same "$name: the reference machine draws the same" large.pbm other.pbm; fi
}

# refuses NAME PLACE WORDS: the file wrong.st isn't built: what is said has to begin with its place and these words, and no image may be written.
refuses() {
    rm -f made.loom
    "$st80" build wrong.st -o made.loom --kernel kernel >said 2>&1 </dev/null
    code=$?
    why=
    [ "$code" = 25 ] || why="; it ended with $code"
    grep -qF -- "st80: wrong.st:$2: $3" said || why="$why; 'wrong.st:$2: $3' isn't said, but '$(head -n 1 said)'"
    [ ! -e made.loom ] || why="$why; there is an image"
    tell "$1" "$why"
}

# evaluates NAME STATEMENTS WANTED
evaluates() {
    "$st80" eval "$2" --kernel kernel >came 2>said </dev/null
    code=$?
    why=
    [ "$code" = 0 ] || why="; it ended with $code: $(head -n 1 said)"
    [ "$(cat came)" = "$3" ] || why="$why; it printed '$(head -n 1 came)'"
    tell "$1" "$why"
}

# The kernel by its own tests, and the examples.
runs 'the kernel' kernel/tests.st '72 checks, 0 failed'
runs 'factorial' kernel/examples/factorial.st '2432902008176640000'
runs 'hanoi' kernel/examples/hanoi.st '1->2 1->3 2->3 1->2 3->1 3->2 1->2 1->3 2->3 2->1 3->1 2->3 1->2 1->3 2->3 
15 moves'
runs 'queens' kernel/examples/queens.st '4 ways for 6 queens'
runs 'processes' kernel/examples/processes.st 'ping pong ping pong ping pong '
runs 'drawing' kernel/examples/drawing.st 'drawn' "$top/tests/build/drawing.pbm"

# Methods at random, against what the evaluation of their trees comes to.
for seed in 1 2; do
    awk -v seed=$seed -v methods=1000 -v source=generated.st -v wanted=wanted -f "$top/tests/build/generated.awk"
    "$st80" build generated.st -o made.loom --kernel kernel 2>said </dev/null
    tell "a thousand generated methods: they are built, seed $seed" "$(cat said)"
    for words in '--core 4096 --entries 512' '--core 1048576'; do
        "$st80" run made.loom --no-save --room 131072 $words >came 2>said </dev/null
        same "a thousand generated methods: what they print with $words" came wanted
    done
done

# What statements come to.
evaluates 'factorial evaluated' '20 factorial printString' 2432902008176640000
evaluates 'a number' '3 + 4' 7
evaluates 'a string as it is' "'it''s'" "it's"
evaluates 'temporaries' '| x | x := 3. x * x' 9
evaluates 'a mark' '$! value' 33
evaluates 'an array' '#(1 $a sym) printString' '(1 $a #sym )'

# A trace shows the names of methods.
"$st80" build kernel/examples/factorial.st -o made.loom --kernel kernel 2>/dev/null </dev/null
"$st80" trace made.loom --sends --to 300 >said 2>/dev/null </dev/null
grep -q 'SmallInteger(Integer)>>recursiveFactorial .*send #\*, 1 argument' said
tell 'a trace names the methods' "${?#0}"

# Mistakes, each at its place.
printf 'Transcrpt show: 20 factorial printString; cr!\n' >wrong.st
refuses 'an unknown name' 1:1 'unknown name; is Transcript meant?'
printf 'Transcript show: 20 factorial\n\tprintSting; cr!\n' >wrong.st
refuses 'a misspelt selector' 2:2 'no class has a method of this selector; is printString meant?'
sed 's/recursiveFactorial$/recursiveFactoria/' kernel/examples/factorial.st | sed '3s/Factoria$/Factorial/' >wrong.st
refuses 'a misspelt selector in the factorial' 5:21 'no class has a method of this selector; is recursiveFactorial meant?'
printf '3 + !\n' >wrong.st
refuses 'an expression that is missing' 1:5 'an expression is expected'
printf '(3 + 4!\n' >wrong.st
refuses 'a parenthesis that is missing' 1:7 ') is expected'
printf '3 + 4\n' >wrong.st
refuses 'a mark that is missing' 1:1 'no ! ends this'
printf '1.5 printNl!\n' >wrong.st
refuses 'a float' 1:1 'a float; numbers are integers here'
printf "'abc printNl!\n" >wrong.st
refuses 'a string without its end' 1:1 'a string without its last quote'
printf '12rZ printNl!\n' >wrong.st
refuses 'a digit behind its radix' 1:1 'no integer of this radix'
printf '170141183460469231731687303715884105729 printNl!\n' >wrong.st
refuses 'an integer that is too large' 1:1 'no integer of this radix'
printf "Objct subclass: #Foo instanceVariableNames: '' classVariableNames: '' poolDictionaries: '' category: ''!\n" >wrong.st
refuses 'an unknown superclass' 1:1 'unknown class; is Object meant?'
printf "Object subclass: #Point instanceVariableNames: '' classVariableNames: '' poolDictionaries: '' category: ''!\n" >wrong.st
refuses 'a class twice' 1:1 'a class of this name was defined before'
printf '!Object methodsFor: '"''"'!\nisNil\n\t^true\n! !\n3 printNl!\n' >wrong.st
refuses 'a method twice' 2:1 'the class has a method of this selector already'
printf '!Objct methodsFor: '"''"'!\nfoo\n\t^true\n! !\n' >wrong.st
refuses 'a header of an unknown class' 1:2 'unknown class; is Object meant?'
printf '!Object methodsFor: '"''"'!\nfoo: x\n\tx := 3\n! !\n3 printNl!\n' >wrong.st
refuses 'an argument that is assigned' 3:2 "this can't be assigned"
printf '| x x | x!\n' >wrong.st
refuses 'a temporary twice' 1:5 'this name is taken'
printf '!Object methodsFor: '"''"'!\nfoo\n\t<primitive: 300>\n! !\n3 printNl!\n' >wrong.st
refuses 'a primitive that is none' 3:14 '<primitive: n> is expected'
printf 'super!\n' >wrong.st
refuses 'super by itself' 1:1 'super stands where it receives no message'
printf '3 printNl!\n4 printNl!\n' >wrong.st
refuses 'two beginnings' 2:1 'there are statements to begin with already'
{
    printf '#(0) size'
    i=1
    while [ $i -le 70 ]; do printf '. #(%s) size' $i; i=$((i + 1)); done
    printf '!\n'
} >wrong.st
refuses 'too many literals' 1:1 'more than 63 literals'
{
    printf '|'
    i=1
    while [ $i -le 32 ]; do printf ' t%s' $i; i=$((i + 1)); done
    printf ' | t1!\n'
} >wrong.st
refuses 'too many temporaries' 1:118 'more than 31 temporaries'
{
    printf '3 > 2 ifTrue: ['
    i=1
    while [ $i -le 400 ]; do printf '3 foo: 4. '; i=$((i + 1)); done
    printf '0]!\n'
} | sed 's/foo:/max:/g' >wrong.st
refuses 'a jump that is too long' 1:1 'a jump over more than 1,023 bytes'
{
    i=1
    while [ $i -le 40 ]; do printf '(1 + '; i=$((i + 1)); done
    printf '1'
    i=1
    while [ $i -le 40 ]; do printf ')'; i=$((i + 1)); done
    printf '!\n'
} >wrong.st
refuses 'a stack that is too deep' 1:1 'more than 32 temporaries and values on the stack'

# words CODE WORDS NEEDLE: the program ends so on these words, which the shell reads, and says that.
words() {
    eval "\"\$st80\" $2" >said 2>&1 </dev/null
    code=$?
    why=
    [ "$code" = "$1" ] || why="; it ended with $code, not $1"
    grep -qF -- "$3" said || why="$why; '$3' isn't said, but '$(head -n 1 said)'"
    tell "$2" "$why"
}

# Files and words.
: >empty.st
mkdir folder
printf 'a: 3!' >keyword.st
printf '\377\376 foo!' >bytes.st
words 2 'build empty.st' '--output <IMAGE>'
words 2 'build -o made.loom' '<SOURCE>...'
words 2 "build '' -o made.loom" 'the word for source is empty'
words 2 "build empty.st -o ''" 'the word for output is empty'
words 2 'eval' '<STATEMENTS>'
words 25 "eval '' --kernel kernel" 'no statements to begin with'
words 25 'build empty.st -o made.loom --kernel kernel' 'no statements to begin with'
words 25 'build --bare empty.st -o made.loom' 'no statements to begin with'
words 25 'build keyword.st -o made.loom --kernel kernel' 'keyword.st:1:1: a period or ! is expected'
words 25 'build bytes.st -o made.loom --kernel kernel' 'bytes.st:1:1: no token begins with this character'
words 21 'build folder -o made.loom --kernel kernel' "folder can't be read"
words 20 'build empty.st -o folder --kernel kernel' "folder can't be written: it is a folder"
words 0 'build --help' 'Make an image from sources in Smalltalk'
words 0 'eval --help' 'Print what statements in Smalltalk come to'
"$st80" build nothere.st -o made.loom --kernel kernel >said 2>&1 </dev/null
code=$?
[ $code = 21 ] && grep -q "nothere.st can't be read" said
tell 'a file that is not there' "${?#0}"
"$st80" build kernel/tests.st -o made.loom --kernel nowhere >said 2>&1 </dev/null
code=$?
[ $code = 21 ] && grep -q 'nowhere/object.st' said
tell 'a kernel that is not there' "${?#0}"
cp kernel/examples/factorial.st own.st
"$st80" build own.st -o own.st --kernel kernel >said 2>&1 </dev/null
[ $? = 2 ] && cmp -s own.st kernel/examples/factorial.st
tell 'an image over its source' "${?#0}"
cp kernel/object.st before
"$st80" build own.st -o kernel/object.st --kernel kernel >said 2>&1 </dev/null
[ $? = 2 ] && cmp -s before kernel/object.st
tell 'an image over the kernel' "${?#0}"
"$st80" build - -o - --kernel kernel <own.st >made.loom 2>/dev/null && "$st80" run - --no-save <made.loom 2>/dev/null | grep -qx 2432902008176640000
tell 'streams in place of files' "${?#0}"
[ -z "$(ls -A temporary)" ]
tell 'nothing is left in the temporary folder' "${?#0}"

echo "$passed passed, $failed failed"
[ "$failed" = 0 ]
