#!/bin/sh
# Tries the program at its edge: files that can't be read or written, sizes that are too small, and event files.
#
#     tests/edge/files.sh [PROGRAM]
. "$(dirname "$0")/common.sh"

# Files that can't be read or written.
display=old
try 'SAVED is full'                     '' 'run base.loom none.events objects /dev/full display.pbm $sizes 2'   11 'write fault: Saved' saved.loom old.loom
try 'SAVED is a directory'              '' 'run base.loom none.events objects directory display.pbm $sizes 2'   11 'write fault: Saved' saved.loom old.loom
try 'SAVED in no directory'             '' 'run base.loom none.events objects none/saved.loom display.pbm $sizes 2' 11 'write fault: Saved' none none
try 'DISPLAY is a directory'            '' 'run base.loom none.events objects saved.loom directory $sizes 2'    11 'write fault: Display' saved.loom after.loom
try 'DISPLAY in no directory'           '' 'run base.loom none.events objects saved.loom none/display $sizes 2' 11 'write fault: Display' saved.loom after.loom
try 'IMAGE is a directory'              '' 'run directory none.events objects saved.loom display.pbm $sizes 2'  9  'read fault: Image'  saved.loom old.loom
try 'IMAGE is no file'                  '' 'run none.loom none.events objects saved.loom display.pbm $sizes 2'  9  'read fault: Image'  saved.loom old.loom
try 'IMAGE is empty'                    '' 'run /dev/null none.events objects saved.loom display.pbm $sizes 2'  3  'image: rule 9 at 0' saved.loom old.loom
try 'IMAGE is no image'                 '' 'run old.loom none.events objects saved.loom display.pbm $sizes 2'   3  'image: rule 1 at 0' saved.loom old.loom
try 'IMAGE is no image, EVENTS no file' '' 'run old.loom no.events objects saved.loom display.pbm $sizes 2'     3  'image: rule 1 at 0' saved.loom old.loom
try 'IMAGE and EVENTS are no files'     '' 'run none.loom no.events objects saved.loom display.pbm $sizes 2'    9  'read fault: Image'  saved.loom old.loom
try 'SAVED is for reading only'         '' 'run base.loom none.events objects /proc/version display.pbm $sizes 2' 11 'write fault: Saved' /proc/version version
try 'stuck'                             '' 'run unused.loom none.events objects saved.loom display.pbm $sizes 2' 5 'stuck: cause 2 after 0' saved.loom old.loom
display=empty
try 'a million bytecodes'               '' 'run base.loom none.events objects saved.loom display.pbm $sizes 999999' 0 'ran 999999' saved.loom million.loom

# A core and a work file that are too small. The first bytecode reads an array of 5,000 numbers.
display=old
try 'the core has no room for an object' '' 'run wide.loom none.events objects saved.loom display.pbm 4096 512 1024 2' 6 'core full after 0: object 68, 5033 words, 73 entries' saved.loom old.loom
display=empty
try 'a larger core has room for it'     '' 'run wide.loom none.events objects saved.loom display.pbm 65536 512 1024 2' 0 'ran 2' saved.loom wider.loom
display=old
try 'IMAGE states more objects than ROOM' '' 'run many.loom none.events objects saved.loom display.pbm 4096 512 1024 2' 8 'work full: 1025 objects, room 1024' saved.loom old.loom

# Events.
display=empty
try 'EVENTS is the null device'         '' 'run base.loom /dev/null objects saved.loom display.pbm $sizes 2'       0 'ran 2' saved.loom after.loom
display=old
try 'EVENTS is a directory'             '' 'run base.loom directory objects saved.loom display.pbm $sizes 2'       9 'read fault: Events' saved.loom old.loom
try 'EVENTS is no file'                 '' 'run base.loom no.events objects saved.loom display.pbm $sizes 2'       9 'read fault: Events' saved.loom old.loom
try 'EVENTS has a count that falls'     '' 'run base.loom falls.events objects saved.loom display.pbm $sizes 2'    4 'events: line 3' saved.loom old.loom
try 'EVENTS has a word that is too large' '' 'run base.loom large.events objects saved.loom display.pbm $sizes 2'  4 'events: line 1' saved.loom old.loom
try 'EVENTS has no last newline'        '' 'run base.loom cut.events objects saved.loom display.pbm $sizes 2'      4 'events: line 1' saved.loom old.loom
try 'EVENTS is IMAGE'                   '' 'run base.loom base.loom objects saved.loom display.pbm $sizes 2'       4 'events: line 1' saved.loom old.loom
try 'EVENTS is SAVED'                   '' 'run base.loom saved.loom objects saved.loom display.pbm $sizes 2'      4 'events: line 1' saved.loom old.loom
try 'EVENTS has no end'                 '' 'run base.loom /dev/zero objects saved.loom display.pbm $sizes 2'       4 'events: line 1' saved.loom old.loom
try 'EVENTS is wrong, and stuck'        '' 'run unused.loom cut.events objects saved.loom display.pbm $sizes 2'    4 'events: line 1' saved.loom old.loom
display=empty
cp none.events both.events
try 'EVENTS is SAVED, and right'        '' 'run base.loom both.events objects both.events display.pbm $sizes 2'    0 'ran 2' both.events after.loom

finish
