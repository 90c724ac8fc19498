#!/usr/bin/env bash
# Checks docs/READING.md: that each file which has a definition that the promises cite, directly or by way of others, is named there.
#
#     tests/reading.sh            prints what isn't named; the last line is 'N passed, N failed'
#
# It reads text, not types: a name is followed where a file of specs/ defines or imports it. Operators aren't followed.
set -eu
cd "$(dirname "$0")/.."
roots="loom_guard.Promise:KeptPromise loom_guard.Headline:GuardedHeadline loom_run.Promise:Promise loom_run.Headline:Headline loom_run.Shows:Shows"

# Each line: a file of specs/, or of src/ where a type or constant is declared, that the promises reach.
find crates/*/specs -name '*.antt' -print0 | sort -z | xargs -0 awk -v roots="$roots" '
    FNR == 1 {
        n = split(FILENAME, part, "/")
        module = part[2]
        for (i = 4; i <= n; i++) module = module "." part[i]
        sub(/\.antt$/, "", module)
        file[module] = FILENAME
        here = ""
    }
    /^use / {
        here = ""
        if (!match($0, /^use Rattle\.[^{]*\.\{/)) next
        from = substr($0, 12, RLENGTH - 13)
        names = substr($0, RLENGTH + 1)
        sub(/\}.*/, "", names)
        sub(/\.specs\./, ".", from)
        count = split(names, each, /, */)
        for (i = 1; i <= count; i++) {
            first = second = each[i]
            if (match(each[i], / as /)) { first = substr(each[i], 1, RSTART - 1); second = substr(each[i], RSTART + 4) }
            imported[module, second] = from ":" first
        }
        next
    }
    { text = $0; sub(/^ +/, "", text) }
    text ~ /^--/ { next }
    text == "" { next }
    text ~ /^((unfoldable |abbrev )+(pub )?|(pub )?(record|data) )/ {
        name = text
        sub(/^(unfoldable |abbrev |pub |record |data )+/, "", name)
        sub(/[^A-Za-z0-9_].*/, "", name)
        here = module ":" name
        known[here] = 1
        data = text ~ /^(pub )?data /
    }
    here != "" {
        if (data && text ~ /^[A-Za-z_]+ :/) { maker = text; sub(/ .*/, "", maker); made[module, maker] = here }
        sub(/--.*/, "", text)
        gsub(/[^A-Za-z0-9_]+/, " ", text)
        words[here] = words[here] " " text
    }
    function reach(key) {
        if (key in seen) return
        seen[key] = 1
        queue[++last] = key
    }
    END {
        count = split(roots, each, " ")
        for (i = 1; i <= count; i++) {
            if (!(each[i] in known)) print "root " each[i] " isnt there"
            reach(each[i])
        }
        for (at = 1; at <= last; at++) {
            key = queue[at]
            split(key, side, ":")
            module = side[1]
            if (module in file) print file[module]
            else if (module ~ /\.declared\./) { place = module; sub(/\.declared\./, "/src/", place); sub(/\.[A-Z].*$/, "", place); gsub(/\./, "/", place); print "crates/" place ".rt" }
            count = split(words[key], each, " ")
            for (i = 1; i <= count; i++) {
                if ((module ":" each[i]) in known) reach(module ":" each[i])
                else if ((module, each[i]) in made) reach(made[module, each[i]])
                else if ((module, each[i]) in imported) {
                    to = imported[module, each[i]]
                    split(to, side, ":")
                    if ((side[1], side[2]) in made) reach(made[side[1], side[2]])
                    else reach(to)
                }
            }
        }
    }' | sort -u | {
    passed=0
    failed=0
    while IFS= read -r path; do
        if grep -qF "$(basename "$path")\`" docs/READING.md; then
            passed=$((passed + 1))
        else
            failed=$((failed + 1))
            echo "FAILED  docs/READING.md doesn't name $path"
        fi
    done
    echo "$passed passed, $failed failed"
    [ "$passed" -gt 20 ] && [ "$failed" = 0 ]
}
