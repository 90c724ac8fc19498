#!/bin/sh
# Tries again the wrong bodies that stand in `must-fail/TRIED.md` of a crate as the lines of an edit, beside its edits: the prover has to refuse
# each. The gate tries the edits alone. Prints a line for each; the last line is 'N passed, N failed'.
#
#     tests/wrong_bodies.sh [CRATE..]      all crates without one, which takes hours: each is proved once more from nothing
set -u
cd "$(dirname "$0")/.." || exit 1
[ $# -gt 0 ] || set -- $(cd crates && ls)
lines=$(mktemp) || exit 1
made=$(mktemp) || exit 1
clean() {
    while read -r edit; do rm -f "$edit"; done <"$made"
    : >"$made"
}
trap 'clean; rm -f "$lines" "$made"' EXIT
trap 'exit 1' HUP INT TERM

passed=0
failed=0
for crate in "$@"; do
    folder=crates/$crate/must-fail
    [ -f "$folder/TRIED.md" ] || continue
    # A name alone on its line, and the next block of lines, are an edit.
    awk -v folder="$folder" '
        /^`[A-Za-z0-9_]+`$/ { edit = folder "/" substr($0, 2, length($0) - 2) ".edit"; next }
        /^```$/ { amid = !amid; if (!amid) { close(edit); edit = "" } else if (edit != "") print edit; next }
        amid && edit != "" { print >edit }
    ' "$folder/TRIED.md" >"$made"
    rt must-fail "$crate" >"$lines" 2>&1
    clean
    grep 'must-fail ' "$lines" | cut -c 1-200
    refused=$(grep -c ': refused, as it must be' "$lines")
    others=$(grep 'must-fail ' "$lines" | grep -vc ': refused, as it must be')
    [ $((refused + others)) -gt 0 ] || { others=1; echo "FAILED  $crate: nothing was tried"; tail -n 3 "$lines"; }
    passed=$((passed + refused))
    failed=$((failed + others))
done
echo "wrong bodies: $passed passed, $failed failed"
[ "$failed" = 0 ]
