#!/usr/bin/env bash
# Reckons how often other rules of eviction would bring an object in, from what one run touched: the oldest goes first; the oldest goes
# first that wasn't touched since it was last passed over; and what is needed again last goes first (Belady's rule, which no rule can know,
# and by which no others can be much better). Only words are reckoned, not entries, and every object goes that isn't touched at the moment.
# Not in the gate.
#
#   tests/evictions.sh LOOM FETCHES NUMBER STEPS CORE..     LOOM and FETCHES: the two programs, as rt ci builds them
set -eu
loom=$1 fetches=$2 number=$3 steps=$4
shift 4
where=$(mktemp -d)
trap 'rm -rf "$where"' EXIT

"$loom" make "$number" "$where/image" 2>/dev/null

# The words that each object of the image takes in a core, by its record.
od -An -v -tu1 -w1 "$where/image" | awk '
    { byte[NR - 1] = $1 }
    function number(at, size,    value, i) {
        value = 0
        for (i = 0; i < size; i++) value = 256 * value + byte[at + i]
        return value
    }
    END {
        for (at = 16; at < NR; at += 4 * int((bytes + 3) / 4)) {
            kind = number(at + 16, 2)
            size = number(at + 18, 2)
            if (kind == 0) { words = size; bytes = 20 + 4 * size }
            if (kind == 1) { words = size; bytes = 20 + 2 * size }
            if (kind == 2) { words = int((size + 1) / 2); bytes = 20 + size }
            if (kind == 3) {
                literals = number(at + 20, 4)
                words = 1 + literals + int((size + 1) / 2)
                bytes = 28 + 4 * literals + size
            }
            print number(at, 4), 4 + words
        }
    }' >"$where/sizes"

"$fetches" log "$number" 16777216 32767 65536 "$steps" |
    awk -v cores="$*" '
        !ran { size[$1] = $2; next }
        {
            if ($2 > 0) size[$1] = $2
            touched[++touches] = $1
        }
        # The oldest goes; with `again`, not before it was passed over once since it was touched.
        function by_age(core, again,    i, k, used, first, last, came, queue, is_in, flag) {
            first = 1
            last = used = came = 0
            for (i = 1; i <= touches; i++) {
                k = touched[i]
                if (k in is_in) { flag[k] = 1; continue }
                came++
                used += size[k]
                while (used > core && first <= last) {
                    old = queue[first]
                    delete queue[first++]
                    if (again && flag[old]) { flag[old] = 0; queue[++last] = old; continue }
                    used -= size[old]
                    delete is_in[old]
                }
                is_in[k] = 1
                flag[k] = 1
                queue[++last] = k
            }
            return came
        }
        # A heap: the greatest key first. A key that its name has no more is passed over when it comes to the top.
        function push(key, name,    at) {
            for (at = ++heaped; at > 1 && keys[int(at / 2)] < key; at = int(at / 2)) {
                keys[at] = keys[int(at / 2)]
                names[at] = names[int(at / 2)]
            }
            keys[at] = key
            names[at] = name
        }
        function pop(    key, name, at, down) {
            key = keys[heaped]
            name = names[heaped--]
            for (at = 1; (down = 2 * at) <= heaped; at = down) {
                if (down < heaped && keys[down + 1] > keys[down]) down++
                if (keys[down] <= key) break
                keys[at] = keys[down]
                names[at] = names[down]
            }
            keys[at] = key
            names[at] = name
        }
        # What was touched least recently goes.
        function by_use(core,    i, k, used, came, last) {
            used = came = heaped = 0
            for (i = 1; i <= touches; i++) {
                k = touched[i]
                if (k in last) { last[k] = i; continue }
                came++
                used += size[k]
                last[k] = i
                push(-i, k)
                while (used > core && names[1] != k) {
                    old = names[1]
                    if (keys[1] == -last[old]) { used -= size[old]; delete last[old]; pop() }
                    else { pop(); push(-last[old], old) }
                }
            }
            return came
        }
        # What is needed again last goes. What was touched since something went is put into the heap when the next goes.
        function by_need(core,    i, k, used, came, is_in, fresh, kept) {
            used = came = heaped = 0
            for (i = 1; i <= touches; i++) {
                k = touched[i]
                if (!(k in is_in)) { came++; used += size[k] }
                is_in[k] = again_at[i]
                fresh[k] = 1
                if (used <= core) continue
                for (old in fresh) if (old in is_in) push(is_in[old], old)
                split("", fresh)
                kept = 0
                while (used > core && heaped > 0) {
                    old = names[1]
                    if (!(old in is_in) || keys[1] != is_in[old]) { pop(); continue }
                    pop()
                    if (old == k) { kept = 1; continue }
                    used -= size[old]
                    delete is_in[old]
                }
                if (kept) push(is_in[k], k)
            }
            return came
        }
        END {
            for (i = touches; i > 0; i--) {
                k = touched[i]
                again_at[i] = (k in seen) ? seen[k] : touches + 1
                seen[k] = i
            }
            objects = 0
            for (k in seen) { objects++; words += size[k] }
            printf "%d touches of %d objects of %d words\n", touches, objects, words
            count = split(cores, core, " ")
            for (c = 1; c <= count; c++)
                printf "%d words: %d by age, %d by age and touch, %d by use, %d by need\n", core[c], by_age(core[c], 0), by_age(core[c], 1), by_use(core[c]), by_need(core[c])
        }' "$where/sizes" ran=1 -
