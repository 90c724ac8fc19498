#!/usr/bin/env bash
# Whether crates.txt, the map of docs/ARCHITECTURE.md and the table of docs/STATUS.md have the same layers with the same crates, in one order.
#
#     tests/layers.sh          says where the three differ; the last line is 'N passed, N failed'
set -u
cd "$(dirname "$0")/.." || exit 1

# Each prints 'layer: crate crate ..', a line a layer.
of_crates() {
    awk '
        /^# Each crate/ || /^$/ { next }
        /^# / { if (line != "") print line; layer = tolower(substr($0, 3, 1)) substr($0, 4); line = layer ":"; next }
        { sub(/:.*/, ""); line = line " " $0 }
        END { if (line != "") print line }' crates.txt
}

of_map() {
    awk '
        /^    long_names|^    [a-z]/ { started = 1 }
        !started { next }
        /^A crate sees/ { exit }
        /^    [a-z]/ { if (line != "") print line; layer = substr($0, 5); sub(/ \|.*/, "", layer); sub(/:.*/, "", layer); line = layer ":"; next }
        /^      [a-z]/ {
            names = substr($0, 7)
            while (match(names, /^[a-z0-9_]+, /)) { line = line " " substr(names, 1, RLENGTH - 2); names = substr(names, RLENGTH + 1) }
            sub(/ .*/, "", names); line = line " " names
        }
        END { if (line != "") print line }' docs/ARCHITECTURE.md
}

of_table() {
    awk -F' *\\| *' '
        /^\| layer / { started = 1; next }
        !started || /^\|---/ { next }
        !/^\|/ { exit }
        { crates = $3; gsub(/,/, "", crates); print $2 ": " crates }' docs/STATUS.md
}

found=$(mktemp)
trap 'rm -f "$found"' EXIT
passed=0
failed=0
# judge PAGE PRINTS: whether what PRINTS prints of the page is what crates.txt has.
judge() {
    if diff <(of_crates) <("$2") >"$found"; then
        passed=$((passed + 1))
    else
        failed=$((failed + 1))
        echo "FAILED: $1 has other layers than crates.txt"
        sed 's/^/    /' "$found"
    fi
}
judge docs/ARCHITECTURE.md of_map
judge docs/STATUS.md of_table
echo "$passed passed, $failed failed"
[ "$failed" = 0 ]
