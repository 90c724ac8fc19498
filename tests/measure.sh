#!/bin/sh
# How much is written, layer by layer of crates.txt: lines of code, of clauses, of definitions (specs/) and of proof (proofs/), functions, and
# functions with more than 15 clauses. Blank lines, comments and imports don't count; a clause counts with the lines that it goes on.
#
#     tests/measure.sh [FOLDER]     of the repository here, or of another checkout
#     tests/measure.sh --many       the functions with more than 15 clauses, by name
set -u
cd "$(dirname "$0")/.." || exit 1
many=0
case "${1:-}" in
--many) many=1 ;;
?*) cd "$1" || exit 1 ;;
esac

# Prints 'code clauses functions above'; with many=1 the functions above.
of_code() {
    awk -v many="$many" -v crate="$1" '
        function close_fn() { if (count > 15) { above++; if (many) print crate "::" name ": " count " clauses" }; count = 0 }
        /^[ \t]*(\/\/|$)/ { next }
        /^[ \t]*(ghost use|use|pub use) / { importing = !/;[ \t]*$/; next }
        importing { importing = !/;[ \t]*$/; next }
        clause { clauses++; depth += gsub(/[{]/, "{") - gsub(/[}]/, "}"); clause = depth > 0; next }
        /^[ \t]*(requires|ensures)[ \t]/ { clauses++; count++; depth = gsub(/[{]/, "{") - gsub(/[}]/, "}"); clause = depth > 0; next }
        { code++ }
        match($0, /(^|[ \t])fn [a-z_0-9]+/) { close_fn(); functions++; name = substr($0, RSTART, RLENGTH); sub(/.*fn /, "", name) }
        END { close_fn(); if (!many) print code + 0, clauses + 0, functions + 0, above + 0 }'
}

of_logic() {
    awk '/^[ \t]*(--|$)/ { next } /^(pub )?use / { next } { lines++ } END { print lines + 0 }'
}

files() { find "crates/$1/$2" -name "$3" -exec cat {} + 2>/dev/null; }

awk '/^# Each/ { next } /^# / { layer = substr($0, 3); next } /^[a-z]/ { sub(/[: ].*/, ""); print $0 "\t" layer }' crates.txt |
    while IFS="	" read -r crate layer; do
        if [ "$many" = 1 ]; then files "$crate" src '*.rt' | of_code "$crate"; continue; fi
        printf '%s\t%s %s %s\n' "$layer" "$(files "$crate" src '*.rt' | of_code "$crate")" "$(files "$crate" specs '*.antt' | of_logic)" "$(files "$crate" proofs '*.antt' | of_logic)"
    done |
    if [ "$many" = 1 ]; then cat; else
        awk -F'\t' '
            { if (!($1 in code)) { n++; order[n] = $1 }; split($2, x, " "); code[$1] += x[1]; clauses[$1] += x[2]; fns[$1] += x[3]; above[$1] += x[4]; specs[$1] += x[5]; proofs[$1] += x[6]
              for (k = 1; k <= 6; k++) all[k] += x[k] }
            END {
                print "| layer | code | clauses | definitions | proof | functions | above 15 clauses |"
                print "|---|---|---|---|---|---|---|"
                for (k = 1; k <= n; k++) { l = order[k]; printf "| %s | %d | %d | %d | %d | %d | %d |\n", l, code[l], clauses[l], specs[l], proofs[l], fns[l], above[l] }
                printf "| all | %d | %d | %d | %d | %d | %d |\n", all[1], all[2], all[5], all[6], all[3], all[4]
            }'
    fi
