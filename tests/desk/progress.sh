#!/bin/sh
# What a terminal shows of a run that takes more than a second, and that nothing of it goes anywhere else.
#
#     tests/desk/progress.sh [PROGRAM]
. "$(dirname "$0")/common.sh"

if ! script -qec true /dev/null </dev/null >/dev/null 2>&1; then
    skip 'progress' 'script is not there, which stands for a terminal'
    finish
    exit
fi

# on_terminal WORDS: runs the program on the words, with standard output and standard error on a terminal, whose bytes go to `shown`. Each
# carriage return becomes a newline, and the blanks that take a line away are dropped.
on_terminal() {
    script -qec "'$st80' $1" /dev/null </dev/null 2>/dev/null | tr '\r' '\n' | sed 's/ *$//' | grep -v '^$' >shown
}

# shows NAME PATTERN, shows_no NAME PATTERN: whether a line of what was shown is this.
shows() {
    why=
    grep -q "$2" shown || why="; no line is $2"
    tell "$1" "$why"
    [ -z "$why" ] || head -c 600 shown
}
shows_no() {
    why=
    grep -q "$2" shown && why="; a line is $2"
    tell "$1" "$why"
}

# lasting WORDS LEAST: sets `many` to so many bytecodes that the command of WORDS, where @ stands for them, takes three seconds here, from LEAST
# on, and `long` to that command.
lasting() {
    many=$2
    while :; do
        long=$(echo "$1" | sed "s/@/$many/g")
        began=$(date +%s%N)
        "$st80" $long >/dev/null 2>&1 </dev/null
        millis=$((($(date +%s%N) - began) / 1000000))
        [ $millis -lt 3000 ] && [ "$many" -lt 1000000000 ] || return
        many=$((many * 2))
    done
}

line='^[0-9]* bytecodes, [0-9]*/s, [0-9]* names and [0-9]* ticks left$'

# A run that says nothing and doesn't end.
lasting 'run tour.loom --steps @ --no-save' 2000000
on_terminal "$long"
shows 'a long run tells how far it is'     "$line"
shows 'its last line stands alone'         "^ran $many$"
lines=$(grep -c "$line" shown)
why=
[ "$lines" -ge 1 ] && [ "$lines" -le $((millis / 250 + 4)) ] || why="; $lines lines in $millis milliseconds"
tell 'once a second, more or less'         "$why"
told=$(grep "$line" shown | head -n 1)
left=${told#*/s, }
names=${left%% *}
ticks=${left#*and }
why=
[ $((${told%% *} + ${ticks%% *})) = 4294967295 ] || why="; $told"
tell 'what was run and what is left are the whole clock' "$why"
# At most one object is made by a bytecode of this loop.
next=$("$st80" list tour.loom - 2>/dev/null | head -n 1 | cut -d ' ' -f 2)
spent=$(((4294967294 - ${next:-0}) / 2 - names))
why=
[ $spent -gt 0 ] && [ $spent -lt "${told%% *}" ] || why="; $told, and the next name was $next"
tell 'names are left, but for those that the run spent' "$why"
on_terminal "$long >out"
shows 'also where standard output is a file' "$line"
why=
grep -q 'ticks left' out && why='; it is there'
tell 'and that file has nothing of it'     "$why"
on_terminal "$long 2>notes"
shows_no 'not where standard error is a file' 'ticks left'
why=
grep -q 'ticks left' notes && why='; it is there'
tell 'and that file has nothing of it, either' "$why"
on_terminal 'run tour.loom --steps 1000 --no-save'
shows_no 'a short run tells nothing'       'ticks left'

# A trace of one line.
lasting 'trace tour.loom --from @ --to @' 200000
on_terminal "$long"
shows 'a long trace tells it, too'         "$line"

# A run that says a number behind each checkpoint.
lasting 'guard counter.loom long.vault --steps @ --no-save' 10000
"$st80" $long >wanted 2>/dev/null </dev/null
on_terminal "$long"
shows 'a guarded run tells it, or what was kept' "$line\\|^kept [0-9]* bytes$"
grep '^0' shown >said
same 'what the machine says stands in lines of its own, and all of it' said wanted

finish
