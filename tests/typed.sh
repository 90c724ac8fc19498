#!/usr/bin/env bash
# Types each command of README, DESK, BUILD, PROGRAM, TOUR and the page of the examples as it stands, and compares what comes out with what the page shows.
#
#     tests/typed.sh [PROGRAM [PAGE..]]
#
# A command is a line '    $ COMMAND'. What has to come out are the lines below it that are set in as far; a line '..' stands for any lines.
# All commands of a page are typed in one new folder, in their order, where everything of the repository's top but `out` is at hand. Prints a line
# for each command; the last line is 'N passed, N failed'. ./st80 is the program that ST80 names, where it is set.
set -u
top=$(cd "$(dirname "$0")/.." && pwd) || exit 1
loom=$(realpath "${1:-$top/loom}") || exit 1
st80=$(realpath "${ST80:-$top/st80}") || exit 1
[ -x "$loom" ] || { echo "typed: there is no program $loom; ./demo builds it" >&2; exit 1; }
[ $# -gt 0 ] && shift
[ $# -gt 0 ] || set -- README.md docs/DESK.md docs/BUILD.md docs/PROGRAM.md docs/TOUR.md examples/README.md
work=$(mktemp -d) || exit 1
trap 'rm -rf "$work"' EXIT

passed=0
failed=0

# matches WANTED CAME: whether what came is what is wanted, where a line '..' stands for any lines.
matches() {
    awk '
        NR == FNR { wanted[++count] = $0; next }
        { came[++lines] = $0 }
        function fits(i, j,   k) {
            if (i > count) return j > lines
            if (wanted[i] == "..") {
                for (k = j; k <= lines + 1; k++) if (fits(i + 1, k)) return 1
                return 0
            }
            return j <= lines && wanted[i] == came[j] && fits(i + 1, j + 1)
        }
        END { exit fits(1, 1) ? 0 : 1 }' "$1" "$2"
}

# type_it: runs the command that was read, and judges it.
type_it() {
    [ -n "$command" ] || return
    { (cd "$folder" && bash -c "$command" >"$work/came" 2>&1 </dev/null); } 2>/dev/null # what the shell says of a kill
    if matches "$work/wanted" "$work/came"; then
        passed=$((passed + 1))
        echo "ok      $page: $command"
    else
        failed=$((failed + 1))
        echo "FAILED  $page: $command"
        diff "$work/wanted" "$work/came" | sed 's/^/            /' | head -n 20
    fi
    command=
}

for page in "$@"; do
    folder=$work/${page//\//_}.folder
    mkdir "$folder"
    for thing in "$top"/*; do
        case $(basename "$thing") in
        out | loom | st80) ;;
        *) ln -s "$thing" "$folder/" ;;
        esac
    done
    ln -s "$loom" "$folder/loom"
    ln -s "$st80" "$folder/st80"
    command=
    before=$((passed + failed))
    while IFS= read -r line || [ -n "$line" ]; do
        case $line in
        '    $ '*)
            type_it
            command=${line#    \$ }
            : >"$work/wanted"
            ;;
        '    '*) [ -z "$command" ] || printf '%s\n' "${line#    }" >>"$work/wanted" ;;
        *) type_it ;;
        esac
    done <"$top/$page"
    type_it
    [ $((passed + failed)) -gt "$before" ] || { failed=$((failed + 1)); echo "FAILED  $page: it shows no command"; }
done
echo "$passed passed, $failed failed"
[ "$failed" = 0 ]
