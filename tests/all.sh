#!/usr/bin/env bash
# All tests that aren't in the gate, one after the other: the documents themselves and the commands that they show, the examples, the cases of the
# reference machine over real files, and the program on real files and streams, with kills, losses, faults and large runs.
#
#     tests/all.sh [-q] [PART..]      PART: docs, reading, examples, typed, cases, edge, vaults, kills, losses, faults, large, desk, build, quick;
#                                 all without one
#
# The programs are ./loom and ./st80, which ./demo builds; LOOM, ST80, FILE_CASES and FAULT_RUNS may name others. Prints each part's lines, with -q only
# those that failed, and each part's figure. What a machine has no means for is skipped, with a line. The last line is 'N passed, N failed', and the exit status is 1 where
# something failed.
set -u
top=$(cd "$(dirname "$0")/.." && pwd) || exit 1
cd "$top" || exit 1
quiet=
if [ "${1-}" = -q ]; then
    quiet=yes
    shift
fi
parts=${*:-docs reading examples typed cases edge vaults kills losses faults large desk build quick}

# first NAME..: the first of these programs that is there; the first name where none is.
first() {
    local name
    for name in "$@"; do
        [ ! -x "$name" ] || { realpath "$name"; return; }
    done
    echo "$1"
}
loom=$(first "${LOOM:-./loom}" crates/loom_cli/out/loom_cli)
st80=$(first "${ST80:-./st80}" crates/st80/out/st80)
file_cases=$(first "${FILE_CASES:-crates/file_cases/out/file_cases}")
fault_runs=$(first "${FAULT_RUNS:-crates/fault_runs/out/fault_runs}")
work=$(mktemp -d) || exit 1
trap 'rm -rf "$work"' EXIT

passed=0
failed=0
figures=

# figure NAME SECONDS: adds up what a part printed, by the numbers in its last line that has them. A part that ends otherwise than by them failed.
figure() {
    local line ok bad
    line=$(grep -oE '[0-9]+ passed(, [0-9]+ failed)?$' "$work/lines" | tail -n 1)
    ok=${line%% *}
    bad=$(sed -n 's/.*, \([0-9]*\) failed$/\1/p' <<<"$line")
    if [ -z "$ok" ]; then ok=0 bad=1; fi
    bad=${bad:-0}
    [ "$3" = 0 ] || [ "$bad" -gt 0 ] || bad=1
    passed=$((passed + ok))
    failed=$((failed + bad))
    figures+="$(printf '%-9s %5d passed, %d failed, %d s' "$1" "$ok" "$bad" "$2")"$'\n'
}

# part NAME COMMAND..: runs a part, where it was asked for.
part() {
    local name=$1 began=$SECONDS status
    shift
    case " $parts " in *" $name "*) ;; *) return ;; esac
    echo "== $name"
    "$@" >"$work/lines" 2>&1 </dev/null
    status=$?
    if [ -n "$quiet" ]; then grep -iE '^(FAILED|skipped|  failed)|^[a-z]+: ' "$work/lines"; else cat "$work/lines"; fi
    figure "$name" $((SECONDS - began)) "$status"
}

# skip NAME WHY: says that a part can't be run here.
skip() {
    case " $parts " in *" $1 "*) ;; *) return ;; esac
    echo "== $1"
    echo "skipped: $2"
    figures+="$(printf '%-9s skipped: %s' "$1" "$2")"$'\n'
}

# cases_on_files: the cases of both programs over real files. Each of wrong.cases, which are wrong on purpose, has to be reported, but one: that
# a core is no number shows only where the case is run in a larger one, as `loom_cases` does.
cases_on_files() {
    local ok=0 bad=0 folder file
    for copy in crates/file_cases/data/*; do
        cmp "$copy" "crates/loom_cases/data/$(basename "$copy")" || bad=$((bad + 1))
    done
    mkdir "$work/files"
    for folder in loom_cases primitive_cases; do
        for file in crates/$folder/data/*.cases; do
            case $file in */wrong.cases) continue ;; esac
            (cd "$work/files" && "$file_cases" "$top/crates/$folder/data" "$(basename "$file")") >"$work/said"
            count=$(sed -n '$s/.*: \([0-9]*\) cases$/\1/p' "$work/said")
            wrong=$(($(wc -l <"$work/said") - 1))
            if [ -z "$count" ]; then count=1 wrong=1; fi
            [ "$wrong" = 0 ] || sed 's/^/FAILED  /' "$work/said"
            tail -n 1 "$work/said"
            ok=$((ok + count - wrong))
            bad=$((bad + wrong))
        done
    done
    (cd "$work/files" && "$file_cases" "$top/crates/loom_cases/data" wrong.cases) >"$work/said"
    if [ "$(sed -n '$s/.*: \([0-9]*\) cases$/\1/p' "$work/said")" = "$(wc -l <"$work/said")" ]; then
        ok=$((ok + 1))
    else
        bad=$((bad + 1))
        echo "FAILED  wrong.cases: of the cases that are wrong on purpose, these alone were seen:"
        cat "$work/said"
    fi
    echo "cases: $ok passed, $bad failed"
    [ "$bad" = 0 ]
}

# picture_first: what ./demo --quick shows, and within which time.
picture_first() {
    local began=$SECONDS
    if ./demo --quick >"$work/shown" 2>&1 && grep -q 'quit after 2056' "$work/shown" && cmp out/hello.pbm tests/hello.pbm; then
        echo "the picture after $((SECONDS - began)) s"
        echo "1 passed, 0 failed"
    else
        cat "$work/shown"
        echo "0 passed, 1 failed"
        return 1
    fi
}

part docs tests/docs.sh
part reading tests/reading.sh
if [ ! -x "$loom" ]; then
    for name in examples typed edge kills faults large; do skip $name "there is no program $loom; ./demo builds it"; done
else
    part examples tests/examples.sh "$loom"
    part typed env ST80="$st80" tests/typed.sh "$loom"
    part edge tests/edge.sh "$loom"
    part kills tests/kills.sh "$loom"
    part faults tests/faults.sh "$loom" "$fault_runs"
    part large tests/large.sh "$loom"
fi
if [ -x "$st80" ]; then
    part desk tests/desk.sh "$st80"
    part build tests/build.sh "$st80"
    part source tests/source.sh "$st80"
else
    for name in desk build source; do skip $name "there is no program $st80; ./demo builds it"; done
fi
if [ -x "$file_cases" ]; then part cases cases_on_files; else skip cases "there is no program $file_cases; rt ci builds it"; fi
if command -v rt >/dev/null; then part quick picture_first; else skip quick "the kit's command rt isn't on the path"; fi

echo "== all"
printf '%s' "$figures"
echo "$passed passed, $failed failed"
[ "$failed" = 0 ]
