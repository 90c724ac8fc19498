#!/usr/bin/env bash
# docs/CRATES.md, taken from the heads of the crates: three lines a crate.
#
#     tests/crates.sh                 the page, on standard output
#     tests/crates.sh --write         writes docs/CRATES.md
#     tests/crates.sh --check         says whether docs/CRATES.md is current; the last line is 'N passed, N failed'
#
# Each crate's root file, src/lib.rt or src/main.rt, ends its head with three paragraphs, which may go on in lines that begin with '//!   ':
#
#     //! - Proved: ..
#     //! - Tested: ..
#     //! - Not said: ..
set -eu
cd "$(dirname "$0")/.."

# lines CRATE: the three lines, each in one.
lines() {
    local root=crates/$1/src/lib.rt
    [ -f "$root" ] || root=crates/$1/src/main.rt
    awk '
        !/^\/\/!/ { exit }
        /^\/\/! - (Proved|Tested|Not said): / { count++; line[count] = substr($0, 5); next }
        count && /^\/\/!   [^ ]/ { line[count] = line[count] " " substr($0, 7); next }
        count { exit }
        END {
            if (count != 3 || line[1] !~ /^- Proved: / || line[2] !~ /^- Tested: / || line[3] !~ /^- Not said: /) exit 1
            for (i = 1; i <= 3; i++) { sub(/^- [A-Za-z ]*:/, "", line[i]); sub(/^/, i == 1 ? "- **Proved**:" : i == 2 ? "- **Tested**:" : "- **Not said**:", line[i]); print line[i] }
        }' "$root" || { echo "crates.sh: $root doesn't end its head with the three lines" >&2; return 1; }
}

page() {
    cat <<'HEAD'
# The crates

Three lines a crate, lowest crates first: what the gate has proved of it, what tests and cases show, and what isn't said. `tests/crates.sh` takes them from the head of each crate's root file; change them there, and run `tests/crates.sh --write`. `ARCHITECTURE.md` has the crates in their layers, and `STATUS.md` what isn't said of the whole.
HEAD
    local status=0 line
    while IFS= read -r line; do
        case $line in
        '#'*) topic=${line#\# } ;;
        *:*)
            if [ -n "$topic" ]; then
                printf '\n## %s\n' "${topic%.}"
                topic=
            fi
            printf '\n### %s\n\n' "${line%%:*}"
            lines "${line%%:*}" || status=1
            ;;
        esac
    done < <(tail -n +2 crates.txt)
    return $status
}

topic=
case ${1-} in
'') page ;;
--write) page >docs/CRATES.md.new && mv docs/CRATES.md.new docs/CRATES.md ;;
--check)
    new=$(mktemp)
    trap 'rm -f "$new"' EXIT
    if page >"$new" && diff "$new" docs/CRATES.md >&2; then
        echo "1 passed, 0 failed"
    else
        echo "crates.sh: docs/CRATES.md isn't current; tests/crates.sh --write writes it" >&2
        echo "0 passed, 1 failed"
        exit 1
    fi
    ;;
*)
    echo "usage: $0 [--write | --check]" >&2
    exit 2
    ;;
esac
