#!/usr/bin/env bash
# Checks the documents themselves: their English, their length, what they name, and that CRATES is current. Nothing has to be built.
#
#     tests/docs.sh            the last line is 'N passed, N failed'
#
# The pages for people (README, DESK, BUILD, PROGRAM, IMAGE, STATUS and PROMISE) have no sentence of more than 40 words, where code counts as one word and a
# cell of a table or an item of a list stands by itself, and none of the phrases that their readers stumbled over.
set -u
cd "$(dirname "$0")/.." || exit 1

passed=0
failed=0

# judge NAME FILE: a check passed where FILE, what it found, is empty.
judge() {
    if [ -s "$2" ]; then
        failed=$((failed + 1))
        echo "FAILED: $1"
        sed 's/^/    /' "$2"
    else
        passed=$((passed + 1))
        echo "passed: $1"
    fi
}

found=$(mktemp)
trap 'rm -f "$found"' EXIT
pages="README.md docs/DESK.md docs/BUILD.md docs/PROGRAM.md docs/IMAGE.md docs/STATUS.md docs/PROMISE.md"

# long FILE: its sentences of more than 40 words, each with the number of its words and the line that its paragraph ends at.
long() {
    awk '
        function flush(   n, i, words, sentence) {
            gsub(/`[^`]*`/, "code", text)
            gsub(/\]\([^)]*\)/, "]", text)
            n = split(text, sentence, /[.!?][")*]*( +|$)/)
            for (i = 1; i <= n; i++) {
                words = split(sentence[i], _, / +/)
                if (words > 40) printf "%s:%d: %d words: %s\n", FILENAME, NR, words, substr(sentence[i], 1, 90)
            }
            text = ""
        }
        /^ *```/ { flush(); fenced = !fenced; next }
        fenced || /^    / { flush(); next }
        /^$/ || /^#/ { flush(); next }
        /^\|/ { flush(); n = split($0, cell, /\|/); for (c = 2; c < n; c++) { text = cell[c]; sub(/^ +/, "", text); flush() }; next }
        /^ *([-*]|[0-9]+\.) / { flush() }
        { sub(/^ *([-*>]|[0-9]+\.) +/, ""); sub(/^> */, ""); text = text (text == "" ? "" : " ") $0 }
        END { flush() }' "$1"
}

for page in $pages; do
    long "$page" >"$found" 2>&1
    judge "$page has no sentence of more than 40 words" "$found"
done

grep -nEi "want of memory|wants? memory|memory (is|may be) wanted|gone on with|who doesn't care|can('t)? be had|could be had|is cut first|may be cut first|brought to the disk" $pages >"$found" 2>&1
judge "the pages for people use the terms of the field" "$found"

: >"$found"
[ "$(wc -l <README.md)" -le 100 ] || echo "README.md has $(wc -l <README.md) lines" >"$found"
judge "README.md has at most 100 lines" "$found"

# Each page and file that a document names is there. A name without a folder is a page beside the document, or one at the top.
for page in README.md docs/*.md; do
    grep -oE '`[A-Za-z0-9_./-]+\.(md|sh|svg|png|text)`|\]\([A-Za-z0-9_./-]+\)' "$page" | sed -E 's/^`|`$//g; s/^\]\(|\)$//g' | sort -u | while read -r name; do
        case $name in */*) ;; *.text) continue ;; esac
        [ -e "$name" ] || [ -e "docs/$name" ] || [ -e "$(dirname "$page")/$name" ] || echo "$page names $name, which isn't there"
    done
done >"$found"
judge "what the documents name is there" "$found"

# READING names definitions by their files.
grep -oE '`[a-z_]+/(specs|src|proofs)/[A-Za-z0-9_/]+\.(antt|rt)`' docs/READING.md docs/TOUR.md docs/CORE.md docs/CHANGING.md docs/ARCHITECTURE.md | sort -u | while IFS=: read -r page name; do
    name=${name//\`/}
    [ -e "crates/$name" ] || echo "$page names $name, which isn't there"
done >"$found"
judge "the files of definitions and code that READING, TOUR, CORE, CHANGING and ARCHITECTURE name are there" "$found"

tests/crates.sh --check >"$found" 2>&1 && : >"$found"
judge "docs/CRATES.md is current" "$found"

tests/layers.sh >"$found" 2>&1 && : >"$found"
judge "crates.txt, ARCHITECTURE and STATUS have the same layers" "$found"

echo "$passed passed, $failed failed"
[ "$failed" = 0 ]
