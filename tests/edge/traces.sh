#!/bin/sh
# Tries the program at its edge: runs that are traced.
#
#     tests/edge/traces.sh [PROGRAM]
. "$(dirname "$0")/common.sh"

# A run is traced. TEXT is the old file or the new one, whole, and has its name before the line is written, also after a stop. There is no
# picture.
display=old
trace='trace base.loom none.events objects saved.loom $sizes 4'
try 'TEXT of a trace is there'          ''            "$trace" 0 'ran 4' saved.loom base.trace
try 'TEXT of a trace is no file yet'    ''            'trace base.loom none.events objects new.loom $sizes 4' 0 'ran 4' new.loom base.trace
try 'no bytecode is traced'             ''            'trace base.loom none.events objects saved.loom $sizes 0' 0 'ran 0' saved.loom empty
try 'a trace under events'              ''            'trace base.loom good.events objects saved.loom $sizes 4' 0 'ran 4' saved.loom base.trace
try 'a trace up to the last bytecode'   ''            'trace blit.loom none.events objects saved.loom $sizes 99' 0 'quit after 11' saved.loom blit.trace
try 'a trace in the smallest core'      ''            'trace base.loom none.events objects saved.loom 4096 512 1024 4' 0 'ran 4' saved.loom base.trace
before='ln -sf saved.loom link.loom'
try 'TEXT of a trace is a symbolic link' ''           'trace base.loom none.events objects link.loom $sizes 4' 0 'ran 4' saved.loom base.trace
before='rm -f link.loom; echo left >saved.loom.part'
try 'TEXT.part was left by a trace that was killed' '' "$trace" 0 'ran 4' saved.loom base.trace
before='mkdir saved.loom.part'
try 'TEXT.part of a trace is a directory' ''          "$trace" 11 'write fault: Saved' saved.loom old.loom
rmdir saved.loom.part
before=
"$loom" trace base.loom none.events objects /dev/stdout $sizes 4 2>/dev/null | cmp -s - base.trace
tell 'TEXT of a trace is a pipe' "${?#0}"

# A stop leaves the lines of the bytecodes that were run.
try 'a trace that is stuck at once'     ''            'trace unused.loom none.events objects saved.loom $sizes 4' 5 'stuck: cause 2 after 0' saved.loom empty
try 'a trace that is stuck at once, TEXT is no file yet' '' 'trace unused.loom none.events objects new.loom $sizes 4' 5 'stuck: cause 2 after 0' new.loom empty
try 'a trace for which the core has no room' ''       'trace late.loom none.events objects saved.loom 4096 512 1024 4' 6 'core full after 1: object 68, 5033 words, 73 entries' saved.loom first.trace
said=hi
try 'a line is said in a trace'         ''            'trace say.loom none.events objects saved.loom $sizes 3' 0 'ran 3' saved.loom say.trace
try 'a line is said in a trace before a stop' ''      'trace say.loom none.events objects saved.loom $sizes 4' 5 'stuck: cause 1 after 3' saved.loom say.trace
try 'a trace that stops, stderr closed' '2>&-'        'trace say.loom none.events objects saved.loom $sizes 4' 5 '' saved.loom say.trace
try 'a trace, stderr closed'            '2>&-'        'trace say.loom none.events objects saved.loom $sizes 3' 11 '' saved.loom say.trace
said=
for streams in '1>&-' '1>/dev/full'; do
    try "$streams, a line is said in a trace" "$streams" 'trace say.loom none.events objects saved.loom $sizes 3' 11 'write fault: Transcript' saved.loom unsaid.trace
    try "$streams, nothing is said in a trace" "$streams" "$trace" 0 'ran 4' saved.loom base.trace
done
cp old.loom saved.loom
"$loom" trace base.loom none.events objects saved.loom $sizes 2147483647 </dev/null >out 2>notes &
run=$!
turns=0
until [ -s saved.loom.part ] || [ "$turns" -gt 1000000 ]; do
    turns=$((turns + 1))
done
kill -9 "$run" 2>/dev/null
wait "$run" 2>/dev/null
cmp -s saved.loom old.loom && [ -s saved.loom.part ]
tell 'a trace that is killed leaves TEXT as it was' "${?#0}"
rm -f saved.loom.part

# TEXT isn't touched where the trace ends before it is attached, and is as it was where it can't be written.
try 'a trace of a bad image'            ''            'trace old.loom none.events objects saved.loom $sizes 4' 3 'image: rule 1 at 0' saved.loom old.loom
try 'a trace of no image'               ''            'trace none.loom none.events objects saved.loom $sizes 4' 9 'read fault: Image' saved.loom old.loom
try 'a trace of more objects than ROOM' ''            'trace many.loom none.events objects saved.loom 4096 512 1024 4' 8 'work full: 1025 objects, room 1024' saved.loom old.loom
try 'a trace under bad events'          ''            'trace base.loom cut.events objects saved.loom $sizes 4' 4 'events: line 1' saved.loom old.loom
try 'a trace under bad events, TEXT is no file yet' '' 'trace base.loom cut.events objects new.loom $sizes 4' 4 'events: line 1' new.loom none
try 'a trace under no events'           ''            'trace base.loom no.events objects saved.loom $sizes 4' 9 'read fault: Events' saved.loom old.loom
try 'WORK of a trace is a directory'    ''            'trace base.loom none.events directory saved.loom $sizes 4' 10 'work fault' saved.loom old.loom
try 'TEXT of a trace is full'           ''            'trace say.loom none.events objects /dev/full $sizes 3' 11 'write fault: Saved' saved.loom old.loom
try 'TEXT of a trace is a directory'    ''            'trace base.loom none.events objects directory $sizes 4' 11 'write fault: Saved' saved.loom old.loom
try 'TEXT of a trace in no directory'   ''            'trace base.loom none.events objects none/new.text $sizes 4' 11 'write fault: Saved' none none
try 'TEXT of a trace is for reading only' ''          'trace base.loom none.events objects /proc/version $sizes 4' 11 'write fault: Saved' /proc/version version
try 'TEXT of a trace is standard output' ''           'trace say.loom none.events objects out $sizes 3' 11 'write fault: Saved' saved.loom old.loom
try 'TEXT of a trace is standard error' ''            'trace base.loom none.events objects notes $sizes 4' 11 'write fault: Saved' saved.loom old.loom

# WORK is none of the others, by whatever path, and TEXT is neither IMAGE nor EVENTS.
for file in base.loom kept.events saved.loom; do
    before='cp good.events kept.events'
    case $file in
        base.loom) role=IMAGE; wanted=$base ;;
        kept.events) role=EVENTS; wanted=good.events ;;
        saved.loom) role=TEXT; wanted=old.loom ;;
    esac
    try "WORK of a trace is $role, by another path" '' "trace base.loom kept.events ./$file saved.loom \$sizes 4" 10 'work fault' $file "$wanted"
    before="cp good.events kept.events; ln -sf $file alias"
    try "WORK of a trace is $role, by a symbolic link" '' "trace base.loom kept.events alias saved.loom \$sizes 4" 10 'work fault' $file "$wanted"
    rm -f alias
    before="cp good.events kept.events; ln -f $file alias"
    try "WORK of a trace is $role, by a hard link" '' "trace base.loom kept.events alias saved.loom \$sizes 4" 10 'work fault' $file "$wanted"
    rm -f alias
    cp "$base" base.loom
done
before='cp base.loom both.loom'
try 'TEXT of a trace is IMAGE, by another path' ''    'trace both.loom none.events objects ./both.loom $sizes 4' 11 'write fault: Saved' both.loom base.loom
before='cp base.loom both.loom; ln -sf both.loom alias'
try 'TEXT of a trace is IMAGE, by a symbolic link' '' 'trace both.loom none.events objects alias $sizes 4' 11 'write fault: Saved' both.loom base.loom
before='rm -f alias; cp base.loom both.loom; ln both.loom alias'
try 'TEXT of a trace is IMAGE, by a hard link' ''     'trace both.loom none.events objects alias $sizes 4' 11 'write fault: Saved' both.loom base.loom
before='rm -f alias; cp good.events both.events'
try 'TEXT of a trace is EVENTS, by another path' ''   'trace base.loom both.events objects ./both.events $sizes 4' 11 'write fault: Saved' both.events good.events
before='cp good.events both.events; ln -sf both.events alias'
try 'TEXT of a trace is EVENTS, by a symbolic link' '' 'trace base.loom both.events objects alias $sizes 4' 11 'write fault: Saved' both.events good.events
rm -f alias
before=

# Bad words of a trace: nothing is opened, and WORK isn't made.
try 'WORK of a trace is IMAGE'          ''            'trace base.loom none.events base.loom saved.loom $sizes 4' 2 'usage: word 4' base.loom "$base"
try 'WORK of a trace is EVENTS'         ''            'trace base.loom good.events good.events saved.loom $sizes 4' 2 'usage: word 4' saved.loom old.loom
try 'TEXT of a trace is IMAGE'          ''            'trace base.loom none.events objects base.loom $sizes 4' 2 'usage: word 5' objects none
try 'TEXT of a trace is EVENTS'         ''            'trace base.loom good.events objects good.events $sizes 4' 2 'usage: word 5' objects none
try 'TEXT of a trace is WORK'           ''            'trace base.loom none.events saved.loom saved.loom $sizes 4' 2 'usage: word 5' saved.loom old.loom
try 'a trace with the words of a run'   ''            'trace base.loom none.events objects saved.loom display.pbm $sizes 4' 2 'usage: word 6' objects none
try 'CORE of a trace is too small'      ''            'trace base.loom none.events objects saved.loom 4095 512 1024 4' 2 'usage: word 6' objects none
try 'a trace of eight words'            ''            'trace base.loom none.events objects saved.loom $sizes' 2 'usage: word 9' objects none
try 'a trace of ten words'              ''            "$trace 4" 2 'usage: word 10' saved.loom old.loom

finish
