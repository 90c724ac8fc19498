#!/bin/sh
# Tries that methods are shown as source that is compiled to the same methods again. Prints a line for each case; the last line is
# 'N passed, N failed'.
#
#     tests/source.sh [PROGRAM]
#
# The kernel is built with its tests, with methods of every form, and with methods at random. Each method is shown as source. Out of these
# sources and the definitions of the classes, whose fields are called as `show` calls them, a second image is built. Each method has to have the
# same bytes and the same literals there.
set -u
top=$(cd "$(dirname "$0")/.." && pwd) || exit 1
st80=$(realpath "${1:-$top/st80}") || exit 1
[ -x "$st80" ] || { echo "source: there is no program $st80; ./demo builds it" >&2; exit 1; }
work=$(mktemp -d) || exit 1
trap 'rm -rf "$work"' EXIT
cd "$work" || exit 1

passed=0
failed=0

# tell NAME WHY: prints the line of a case, which failed where there is a reason.
tell() {
    if [ -z "$2" ]; then
        passed=$((passed + 1))
        echo "ok      $1"
    else
        failed=$((failed + 1))
        echo "FAILED  $1: ${2#; }"
    fi
}

# classes FILE..: the definitions of classes, with the fields field1, field2 and so on.
classes() {
    awk '
        /^[A-Za-z]+ [a-zA-Z]*[sS]ubclass: #[A-Za-z]+/ {
            above = $1
            name = substr($3, 2)
            inside = 1
        }
        inside && match($0, /instanceVariableNames: *\047[^\047]*\047/) {
            list = substr($0, RSTART, RLENGTH)
            before = substr($0, 1, RSTART - 1)
            behind = substr($0, RSTART + RLENGTH)
            sub(/^instanceVariableNames: *\047/, "", list)
            sub(/\047$/, "", list)
            n = split(list, each, " ")
            count[name] = count[above]
            fields = ""
            for (i = 1; i <= n; i++) {
                count[name]++
                fields = fields (i > 1 ? " " : "") "field" count[name]
            }
            $0 = before "instanceVariableNames: \047" fields "\047" behind
        }
        inside { print }
        inside && /!/ { inside = 0; print "" }
    ' "$@"
}

# method IMAGE NUMBER: a method bytecode by bytecode, without the numbers of objects.
method() {
    "$st80" show "$1" "$2" </dev/null | sed -e '/^held by/,$d' -e '1,2d' -e 's/^\(.*>>.*\) ([0-9]*)$/\1/' \
        -e 's/\(an\{0,1\} [A-Z][A-Za-z]*\) [0-9]*/\1/g'
}

# methods IMAGE: the numbers and the names of its methods, of all or of one class.
methods() {
    grep ">>" "$1.names" | grep -E "^[0-9]+ ${2:-.*}>>"
}

# again NAME FILE STATEMENTS [CLASS]: the methods of the kernel and a source, or those of a class, are shown and built again.
again() {
    "$st80" build "$2" -o first.loom --kernel "$top/kernel" 2>said </dev/null || { tell "$1: it is built" "$(head -n 1 said)"; return; }
    rm -f second.loom second.loom.names
    if [ -n "${4:-}" ]; then
        classes "$2" >second.st
    else
        classes "$top/kernel/object.st" "$top/kernel/boolean.st" "$top/kernel/number.st" "$top/kernel/collection.st" "$top/kernel/process.st" \
            "$top/kernel/graphics.st" "$top/kernel/end.st" "$2" >second.st
    fi
    methods first.loom "${4:-}" >list
    lost=
    while read -r number name; do
        class=${name%%>>*}
        "$st80" show first.loom method "$class" "${name#*>>}" 2>/dev/null </dev/null | sed 1d >shown
        case $(head -n 1 shown) in
            ''|' '*) lost="$lost; $name has no source"; continue ;;
        esac
        printf "!%s methodsFor: 'shown'!\n" "$class" >>second.st
        sed 's/!/!!/g' shown >>second.st
        printf '! !\n\n' >>second.st
    done <list
    tell "$1: each method has a source" "$lost"
    printf '%s\n' "$3" >>second.st
    bare=--bare
    [ -n "${4:-}" ] && bare="--kernel $top/kernel"
    "$st80" build $bare second.st -o second.loom 2>said </dev/null || { tell "$1: the sources are built" "$(head -n 1 said)"; return; }
    count=0
    why=
    while read -r number name; do
        method first.loom "$number" >before
        other=$(NAME=$name awk '{ n = $1; $1 = ""; if (substr($0, 2) == ENVIRON["NAME"]) print n }' second.loom.names)
        [ -n "$other" ] || { why="$why; $name isn't there"; continue; }
        method second.loom "$other" >after
        if cmp -s before after; then count=$((count + 1)); else why="$why; $name is another method"; fi
    done <list
    tell "$1: $count methods are the same again" "$why"
}

again "the kernel and its tests" "$top/kernel/tests.st" "KernelTests run!"
said=$("$st80" run second.loom --no-save 2>/dev/null </dev/null | grep "checks, ")
[ "${said#*, }" = "0 failed" ] && tell "the tests of the kernel pass again: $said" "" || tell "the tests of the kernel pass again" "$said"
again "methods of every form" "$top/tests/source/forms.st" "nil!" Forms
for seed in 5 6; do
    awk -v seed=$seed -v methods=100 -v source=generated.st -v wanted=wanted -f "$top/tests/build/generated.awk"
    again "methods at random, seed $seed" generated.st "nil!" Generated
done

echo "$passed passed, $failed failed"
[ "$failed" = 0 ]
