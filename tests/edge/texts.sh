#!/bin/sh
# Tries the program at its edge: images that are made, listed and assembled.
#
#     tests/edge/texts.sh [PROGRAM]
. "$(dirname "$0")/common.sh"

# A large image is made. FILE is the old one or the new one, whole, and has its name before the line is written; nothing else is touched.
display=old
"$loom" make 0 made.loom 2>/dev/null
make='make 0 saved.loom'
try 'FILE is there'                     ''            "$make" 0  'made 1327 objects' saved.loom made.loom
try 'FILE is no file yet'               ''            'make 0 new.loom' 0 'made 1327 objects' new.loom made.loom
before='ln -sf saved.loom link.loom'
try 'FILE is a symbolic link'           ''            'make 0 link.loom' 0 'made 1327 objects' saved.loom made.loom
before='rm -f link.loom; echo left >saved.loom.part'
try 'FILE.part was left by a making that was killed' '' "$make" 0 'made 1327 objects' saved.loom made.loom
before='mkdir saved.loom.part'
try 'FILE.part is a directory'          ''            "$make" 11 'write fault: Saved' saved.loom old.loom
rmdir saved.loom.part
before=
for streams in '0<&-' '1>&-' '0<&- 1>&-' '1>/dev/full'; do
    try "an image is made, $streams"    "$streams"    "$make" 0  'made 1327 objects' saved.loom made.loom
done
for streams in '2>&-' '0<&- 1>&- 2>&-' '2>/dev/full'; do
    try "an image is made, $streams"    "$streams"    "$make" 11 ''      saved.loom made.loom
done
try 'FILE is full'                      ''            'make 0 /dev/full' 11 'write fault: Saved' saved.loom old.loom
try 'FILE is a directory'               ''            'make 0 directory' 11 'write fault: Saved' saved.loom old.loom
try 'FILE in no directory'              ''            'make 0 none/made.loom' 11 'write fault: Saved' none none
try 'FILE is for reading only'          ''            'make 0 /proc/version' 11 'write fault: Saved' /proc/version version
try 'a number that no image is made from' ''          'make 20 saved.loom' 2 'usage: word 2' saved.loom old.loom
try 'a making of two words'             ''            'make 0' 2 'usage: word 3' saved.loom old.loom
try 'a making of four words'            ''            'make 0 saved.loom display.pbm' 2 'usage: word 4' saved.loom old.loom

# An image is listed, and a text assembled. What is written is the old file or the new one, whole, and has its name before the line is
# written; it may be what is read. WORK is cut, and neither of the others, by whatever path.
sed 's/^2 16 /2 016 /' base.text >bad.text
list='list base.loom objects saved.loom'
asm='asm base.text objects saved.loom'
try 'TEXT is there'                     ''            "$list" 0  'listed 26 objects' saved.loom base.text
try 'TEXT is no file yet'               ''            'list base.loom objects new.loom' 0 'listed 26 objects' new.loom base.text
try 'IMAGE is there'                    ''            "$asm" 0   'assembled 26 objects' saved.loom second.loom
try 'IMAGE is no file yet'              ''            'asm base.text objects new.loom' 0 'assembled 26 objects' new.loom second.loom
try 'an image of version 2 is listed'   ''            'list second.loom objects saved.loom' 0 'listed 26 objects' saved.loom base.text
before='cp base.loom both.loom'
try 'a text takes the place of its image' ''          'list both.loom objects both.loom' 0 'listed 26 objects' both.loom base.text
before='cp base.text both.loom'
try 'an image takes the place of its text' ''         'asm both.loom objects both.loom' 0 'assembled 26 objects' both.loom second.loom
before='ln -sf saved.loom link.loom'
try 'TEXT is a symbolic link'           ''            'list base.loom objects link.loom' 0 'listed 26 objects' saved.loom base.text
before='rm -f link.loom; echo left >saved.loom.part'
try 'TEXT.part was left by a listing that was killed' '' "$list" 0 'listed 26 objects' saved.loom base.text
before='mkdir saved.loom.part'
try 'TEXT.part is a directory'          ''            "$list" 11 'write fault: Saved' saved.loom old.loom
rmdir saved.loom.part
before='cp base.loom both.loom; ln both.loom hard.loom'
try 'WORK is a hard link to what is listed' ''        'list both.loom hard.loom saved.loom' 10 'work fault' both.loom base.loom
rm -f hard.loom
before='cp old.loom new.loom; ln -s new.loom soft.loom'
try 'WORK is a symbolic link to what is written' ''   'asm base.text soft.loom new.loom' 10 'work fault' new.loom old.loom
rm -f soft.loom
before=
for streams in '0<&-' '1>&-' '0<&- 1>&-' '1>/dev/full'; do
    try "an image is listed, $streams"  "$streams"    "$list" 0  'listed 26 objects' saved.loom base.text
    try "a text is assembled, $streams" "$streams"    "$asm" 0   'assembled 26 objects' saved.loom second.loom
done
for streams in '2>&-' '0<&- 1>&- 2>&-' '2>/dev/full'; do
    try "an image is listed, $streams"  "$streams"    "$list" 11 ''      saved.loom base.text
    try "a text is assembled, $streams" "$streams"    "$asm" 11  ''      saved.loom second.loom
done
try 'a text that is full'               ''            'list base.loom objects /dev/full' 11 'write fault: Saved' saved.loom old.loom
try 'a text is a directory'             ''            'list base.loom objects directory' 11 'write fault: Saved' saved.loom old.loom
try 'a text in no directory'            ''            'list base.loom objects none/new.text' 11 'write fault: Saved' none none
try 'no image is listed'                ''            'list none.loom objects saved.loom' 9 'read fault: Image' saved.loom old.loom
try 'a directory is assembled'          ''            'asm directory objects saved.loom' 9 'read fault: Image' saved.loom old.loom
try 'no text is assembled'              ''            'asm none.text objects saved.loom' 9 'read fault: Image' saved.loom old.loom
try 'WORK of a listing is a directory'  ''            'list base.loom directory saved.loom' 10 'work fault' saved.loom old.loom
try 'a text is listed'                  ''            'list base.text objects saved.loom' 3 'image: rule 1 at 0' saved.loom old.loom
try 'an image is assembled'             ''            'asm base.loom objects saved.loom' 18 'text: line 1, rule 0' saved.loom old.loom
try 'an empty file is assembled'        ''            'asm /dev/null objects saved.loom' 18 'text: line 1, rule 0' saved.loom old.loom
try 'a text with a bad line'            ''            'asm bad.text objects saved.loom' 18 'text: line 2, rule 0' saved.loom old.loom
try 'WORK is what is listed'            ''            'list base.loom base.loom saved.loom' 2 'usage: word 3' saved.loom old.loom
try 'WORK is what is written'           ''            'asm base.text saved.loom saved.loom' 2 'usage: word 4' saved.loom old.loom
try 'a listing of three words'          ''            'list base.loom objects' 2 'usage: word 4' saved.loom old.loom
try 'an assembling of five words'       ''            "$asm display.pbm" 2 'usage: word 5' saved.loom old.loom

finish
