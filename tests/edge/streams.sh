#!/bin/sh
# Tries the program at its edge: standard streams that are closed or full, what is said on them and when, and too few descriptors.
#
#     tests/edge/streams.sh [PROGRAM]
. "$(dirname "$0")/common.sh"

# A run that goes through. SAVED holds the image alone and DISPLAY nothing, whatever they held before.
try 'SAVED and DISPLAY are longer files' ''           "$good" 0  'ran 2' saved.loom after.loom
try 'events that change nothing'        ''            'run base.loom good.events objects saved.loom display.pbm $sizes 2' 0 'ran 2' saved.loom after.loom
display=old
try 'SAVED and DISPLAY are no files yet' ''           'run base.loom none.events objects new.loom new.pbm $sizes 2' 0 'ran 2' new.loom after.loom
try 'DISPLAY is no file yet'            ''            'run base.loom none.events objects saved.loom new.pbm $sizes 2' 0 'ran 2' new.pbm empty
display=empty

# Standard streams that are closed. A file must never take the place of one: the line of Done would go into it.
try 'stdin closed'                      '0<&-'        "$good" 0  'ran 2' saved.loom after.loom
try 'stdout closed'                     '1>&-'        "$good" 0  'ran 2' saved.loom after.loom
try 'stdin and stdout closed'           '0<&- 1>&-'   "$good" 0  'ran 2' saved.loom after.loom
try 'stderr closed'                     '2>&-'        "$good" 11 ''      saved.loom after.loom
try 'stdin and stderr closed'           '0<&- 2>&-'   "$good" 11 ''      saved.loom after.loom
try 'stdout and stderr closed'          '1>&- 2>&-'   "$good" 11 ''      saved.loom after.loom
try 'all three closed'                  '0<&- 1>&- 2>&-' "$good" 11 ''   saved.loom after.loom
display=old
try 'all three closed, no files yet'    '0<&- 1>&- 2>&-' 'run base.loom none.events objects new.loom new.pbm $sizes 2' 11 '' new.loom after.loom
for streams in '2>&-' '0<&- 2>&-' '1>&- 2>&-' '0<&- 1>&- 2>&-'; do
    try "$streams, words missing"       "$streams"    'run base.loom none.events objects saved.loom display.pbm $sizes' 2 '' saved.loom old.loom
    try "$streams, a missing image"     "$streams"    'run none.loom none.events objects saved.loom display.pbm $sizes 2' 9 '' saved.loom old.loom
    try "$streams, missing events"      "$streams"    'run base.loom no.events objects saved.loom display.pbm $sizes 2' 9 '' saved.loom old.loom
    try "$streams, wrong events"        "$streams"    'run base.loom cut.events objects saved.loom display.pbm $sizes 2' 4 '' saved.loom old.loom
    try "$streams, stuck"               "$streams"    'run unused.loom none.events objects saved.loom display.pbm $sizes 2' 5 '' saved.loom old.loom
done
display=empty

# Streams that can't be written. The image is saved before the line is written.
try 'stderr full'                       '2>/dev/full' "$good" 11 ''      saved.loom after.loom
try 'stderr for reading only'           '2<old.loom'  "$good" 11 ''      saved.loom after.loom
try 'stdout full'                       '1>/dev/full' "$good" 0  'ran 2' saved.loom after.loom

# What is said goes to standard output before SAVED is attached, also after a run that stopped.
say='run say.loom none.events objects saved.loom display.pbm $sizes'
said=hi
try 'a line is said'                    ''            "$say 3" 0  'ran 3' saved.loom said.loom
display=old
try 'a line is said before a stop'      ''            "$say 4" 5  'stuck: cause 1 after 3' saved.loom old.loom
try 'a line is said, SAVED is full'     ''            'run say.loom none.events objects /dev/full display.pbm $sizes 3' 11 'write fault: Saved' saved.loom old.loom
try 'a line is said before a stop, stderr closed' '2>&-' "$say 4" 5 ''   saved.loom old.loom
display=empty
try 'a line is said, stderr closed'     '2>&-'        "$say 3" 11 ''     saved.loom said.loom
said=
try 'nothing is said yet, stdout closed' '1>&-'       "$say 0" 0  'ran 0' saved.loom unsaid.loom
display=old
for streams in '1>&-' '1>/dev/full' '1<old.loom' '0<&- 1>&-'; do
    try "$streams, a line is said"      "$streams"    "$say 3" 11 'write fault: Transcript' saved.loom old.loom
    try "$streams, a line is said before a stop" "$streams" "$say 4" 11 'write fault: Transcript' saved.loom old.loom
done
try 'stdout and stderr closed, a line is said' '1>&- 2>&-' "$say 3" 11 '' saved.loom old.loom

# A picture. DISPLAY is written once the image is saved.
said=loom
display=hello.pbm
try 'a picture'                         ''            'run hello.loom none.events objects saved.loom display.pbm $sizes 9999' 0 'quit after 2056' saved.loom drawn.loom
try 'a picture, stderr closed'          '2>&-'        'run hello.loom none.events objects saved.loom display.pbm $sizes 9999' 11 '' saved.loom drawn.loom
display=empty
try 'no picture yet'                    ''            'run hello.loom none.events objects saved.loom display.pbm $sizes 2000' 0 'ran 2000' display.pbm empty
display=old
try 'a picture, DISPLAY is no file yet' ''            'run hello.loom none.events objects saved.loom new.pbm $sizes 9999' 0 'quit after 2056' new.pbm hello.pbm
try 'a picture, DISPLAY is full'        ''            'run hello.loom none.events objects saved.loom /dev/full $sizes 9999' 11 'write fault: Display' saved.loom drawn.loom
try 'a picture, DISPLAY is for reading only' ''       'run hello.loom none.events objects saved.loom /proc/version $sizes 9999' 11 'write fault: Display' saved.loom drawn.loom
try 'a picture, SAVED is full'          ''            'run hello.loom none.events objects /dev/full display.pbm $sizes 9999' 11 'write fault: Saved' saved.loom old.loom
said=
try 'no picture, DISPLAY is full'       ''            'run base.loom none.events objects saved.loom /dev/full $sizes 2' 0 'ran 2' saved.loom after.loom

# Too few descriptors to hold the places of the standard streams, and just enough: then there is none for WORK, for IMAGE, for EVENTS,
# for SAVED, and for what is written beside it.
# A descriptor past 9 that the caller left open would be one of them.
if ls /proc/self/fd 2>/dev/null | grep -q ..; then
    skip 'few descriptors' 'the caller left one past 9 open'
else
    most=4
    try 'four descriptors'                  ''            "$good" 1  ''      saved.loom old.loom
    most=6
    try 'six descriptors'                   ''            "$good" 10 'work fault' saved.loom old.loom
    most=7
    try 'seven descriptors'                 ''            "$good" 9  'read fault: Image' saved.loom old.loom
    most=8
    try 'eight descriptors'                 ''            "$good" 9  'read fault: Events' saved.loom old.loom
    most=9
    try 'nine descriptors'                  ''            "$good" 11 'write fault: Saved' saved.loom old.loom
    most=10
    try 'ten descriptors'                   ''            "$good" 11 'write fault: Saved' saved.loom old.loom
    most=11
    display=empty
    try 'eleven descriptors'                ''            "$good" 0  'ran 2' saved.loom after.loom
    display=old
    before='cp two.vault vault'
    guard='guard snap.loom none.events objects saved.loom display.pbm $sizes 3 vault'
    most=6
    try 'six descriptors, a guarded run'    ''            "$guard" 15 'vault fault' vault two.vault
    most=7
    try 'seven descriptors, a guarded run'  ''            "$guard" 10 'work fault' vault none.vault
    display=empty
    most=12
    try 'twelve descriptors, a guarded run' ''            "$guard" 0 'ran 3' vault one.vault
    before=
    most=
fi

# A file that a standard stream goes to.
display=old
said=hi
try 'DISPLAY is standard output'        '' 'run say.loom none.events objects saved.loom out $sizes 3'         11 'write fault: Display' saved.loom said.loom
try 'DISPLAY is /dev/stdout'            '' 'run say.loom none.events objects saved.loom /dev/stdout $sizes 3' 11 'write fault: Display' saved.loom said.loom
try 'DISPLAY is standard error'         '' 'run say.loom none.events objects saved.loom notes $sizes 3'       11 'write fault: Display' saved.loom said.loom
try 'SAVED is standard output'          '' 'run say.loom none.events objects out display.pbm $sizes 3'        11 'write fault: Saved'   saved.loom old.loom
said=

finish
