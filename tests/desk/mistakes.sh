#!/bin/sh
# The mistakes of people, a row each: what is wrong, the exit code, the words, and what has to be said so that it helps.
#
#     tests/desk/mistakes.sh [PROGRAM]
. "$(dirname "$0")/common.sh"

# The command.
try 'no words'                       2 ''                                   'Usage: st80 <COMMAND>' 'st80 make 0 ticks.loom'
try 'help is asked for'              0 '--help'                             'Usage: st80 <COMMAND>' 'First steps:'
try 'help as a word'                 0 'help'                               'Usage: st80 <COMMAND>'
try 'help for a command'             0 'help run'                           '--picture <FILE>' 'st80 run hello.loom'
try 'help behind a command'          0 'run --help'                         '--picture <FILE>' 'st80 run hello.loom'
try 'the codes'                      0 'help codes'                         ' 5  the machine was stopped' '24  the images differ'
try 'the version'                    0 'version'                            'st80 1.0'
try 'the version as an option'       0 '--version'                          'st80 1.0'
try 'a command misspelt'             2 'rum hello.loom'                     "unrecognized subcommand 'rum'" "'run'"
try 'a command in capitals'          2 'RUN hello.loom'                     'The command run was probably meant.'
try 'an image and no command'        2 'hello.loom'                         'st80 run hello.loom'
try 'an option before a command'     2 '--steps 5 run hello.loom'           "unexpected argument '--steps'"
try 'help for no command'            2 'help nothing'                       "unrecognized subcommand 'nothing'"

# run: words.
try 'run: no image'                  2 'run'                                '<IMAGE>' 'Usage: st80 run'
try 'run: an empty image'            2 'run ""'                             'is empty'
try 'run: two images'                2 'run hello.loom blit.loom'           "unexpected argument 'blit.loom'"
try 'run: the row of loom'           2 'run hello.loom /dev/null objects saved.loom picture.pbm 4096 512 1024 9' "unexpected argument '/dev/null'"
try 'run: an option misspelt'        2 'run hello.loom --stps 5'            "'--steps'"
try 'run: --save and --in-place'     2 'run hello.loom --save a --in-place' "cannot be used with"
try 'run: --in-place and --no-save'  2 'run hello.loom --in-place --no-save' "cannot be used with"
try 'run: --steps twice'             2 'run hello.loom --steps 5 --steps 6' "cannot be used multiple times"
try 'run: --steps without a number'  2 'run hello.loom --steps'             'a value is required' '--steps <NUMBER>'
try 'run: --steps is a word'         2 'run hello.loom --steps many'        '--steps is "many"' 'from 0 to 2147483647'
try 'run: --steps has a comma'       2 'run hello.loom --steps 1,000'       'tip: 1000 was probably meant'
try 'run: --steps has underlines'    2 'run hello.loom --steps 1_000'       'tip: 1000 was probably meant'
try 'run: --steps has a space'       2 'run hello.loom --steps "1 000"'     'tip: 1000 was probably meant'
try 'run: --steps has a unit'        2 'run hello.loom --steps 2k'          'tip: 2048 was probably meant'
try 'run: --steps is a time'         2 'run hello.loom --steps 10s'         '--steps is "10s"' 'in digits alone'
try 'run: --steps is negative'       2 'run hello.loom --steps -5'          '--steps is "-5"' 'from 0 to 2147483647'
try 'run: --steps has a sign'        2 'run hello.loom --steps +5'          'tip: 5 was probably meant'
try 'run: --steps has a zero'        2 'run hello.loom --steps 05'          'tip: 5 was probably meant'
try 'run: --steps has a point'       2 'run hello.loom --steps 1.5'         '--steps is "1.5"'
try 'run: --steps is empty'          2 'run hello.loom --steps ""'          '--steps is ""'
try 'run: --steps is one too large'  2 'run hello.loom --steps 2147483648'  'tip: 2147483647 was probably meant'
try 'run: --core is one too small'   2 'run hello.loom --core 4095'         'from 4096 to 16777216' 'tip: 4096'
try 'run: --core is one too large'   2 'run hello.loom --core 16777217'     'tip: 16777216'
try 'run: --core has a unit'         2 'run hello.loom --core 64k'          'tip: 65536 was probably meant'
try 'run: --core in megawords'       2 'run hello.loom --core 1M'           'tip: 1048576 was probably meant'
try 'run: --entries is one too small' 2 'run hello.loom --entries 511'      'from 512 to 32767' 'tip: 512'
try 'run: --entries is one too large' 2 'run hello.loom --entries 32768'    'tip: 32767'
try 'run: --room is one too small'   2 'run hello.loom --room 1023'         'from 1024 to 1048576' 'tip: 1024'
try 'run: --room is one too large'   2 'run hello.loom --room 1048577'      'tip: 1048576'
try 'run: --save without a file'     2 'run hello.loom --save'              'a value is required' '--save <FILE>'
try 'run: --save is empty'           2 'run hello.loom --save ""'           'is empty'

# run: the image.
try 'run: no such image'             9 'run nothere.loom'                   'read fault: Image' 'nothere.loom: No such file or directory'
try 'run: a folder'                  9 'run folder'                         'read fault: Image' 'folder: Is a directory'
try 'run: a folder in between'       9 'run other/hello.loom'               'other/hello.loom: Not a directory'
try 'run: an empty file'             3 'run empty'                          'image: rule' 'empty: This is an empty file' 'st80 make 0 FILE'
try 'run: a text'                    3 'run hello.text'                     'image: rule' 'hello.text: This is the text of an image' 'st80 asm'
try 'run: a picture'                 3 'run hello.pbm'                      'hello.pbm: This is a picture'
try 'run: events'                    3 'run sketch.events'                  'sketch.events: This is an event file' '--events'
try 'run: a vault'                   3 'run one.vault'                      'one.vault: This is a vault' 'st80 resume'
try 'run: another file'              3 'run other'                          'other: This is none of the files that this program writes'
try 'run: a device'                  3 'run /dev/null --no-save'            '/dev/null: This is an empty file'
try 'run: an image that is cut'      3 'run cut.loom'                       'image: rule 9' 'it is cut'
try 'run: an image with more behind' 3 'run padded.loom'                    'image: rule 9'
try 'run: an image of version 3'     3 'run third.loom'                     'image: rule 2' 'the version is 1 or 2' 'the number 3'
try 'run: a count that is wrong'     3 'run count.loom'                     'image: rule 11' 'Rule 11'

# run: files that are written.
try 'run: no folder for the image'   20 'run hello.loom --save nowhere/a'   'there is no folder nowhere' 'mkdir -p nowhere'
try 'run: a folder as the image'     20 'run hello.loom --save folder'      'folder can' 'it is a folder'
try 'run: a file as a folder'        20 'run hello.loom --save other/a'     'other/a' 'Not a directory'
try 'run: over the image'            20 'run hello.loom --save hello.loom'  'hello.loom is the image itself' '--in-place'
try 'run: no folder for the picture' 20 'run hello.loom --no-save --picture nowhere/a.png' 'there is no folder nowhere'
try 'run: a folder as the picture'   20 'run hello.loom --no-save --picture folder' 'it is a folder'
try 'run: the picture over the image' 2 'run hello.loom --no-save --picture hello.loom' 'the picture and the image are one file'
cp hello.loom image.png
try 'run: a PNG over the image'      20 'run image.png --no-save --picture image.png' 'image.png is the image itself' '--in-place'
try 'run: the stop over the image'   20 'run hello.loom --on-stop hello.loom' 'hello.loom is the image itself' '--in-place'
try 'run: the picture is what is saved' 2 'run hello.loom --save a --picture a' 'the picture and the saved image are one file'
cp sketch.events kept.events
ln -s kept.events link.events
try 'run: the stop over the events'  2 'run sketch.loom --events kept.events --on-stop kept.events --no-save' 'the file of --on-stop and the events are one file'
try 'run: the stop over them by a link' 2 'run sketch.loom --events kept.events --on-stop link.events --no-save' 'the file of --on-stop and the events are one file'
try 'run: the image over the events' 2 'run sketch.loom --events kept.events --save link.events' 'the saved image and the events are one file'
try 'run: the picture over the events' 2 'run sketch.loom --events kept.events --no-save --picture link.events' 'the picture and the events are one file'
cp sketch.events events.png
try 'run: a PNG over the events'     2 'run sketch.loom --events events.png --no-save --picture events.png' 'the picture and the events are one file'
same 'the events are as they were'   kept.events sketch.events
same 'those beside a PNG, too'       events.png sketch.events
try 'run: a PNG over what is saved'  2 'run hello.loom --save both.png --picture both.png' 'the picture and the saved image are one file'
try 'run: the stop over what is saved' 2 'run hello.loom --save both --on-stop both' 'the file of --on-stop and the saved image are one file'
cp hello.pbm drawn
try 'run: the stop over the picture' 2 'run hello.loom --no-save --picture drawn --on-stop drawn' 'the picture and the file of --on-stop are one file'
try 'run: the stop over the work file' 2 'run hello.loom --no-save --work scratch --on-stop scratch' 'the work file and the file of --on-stop are one file'
same 'that picture is as it was'     drawn hello.pbm
absent 'none of these came'          both both.png scratch
try 'run: no folder for the stop'    20 'run hello.loom --on-stop nowhere/a' 'there is no folder nowhere'
try 'run: the work file is the image' 2 'run hello.loom --work hello.loom'  'the work file and the image are one file'
try 'run: the work file is an image' 10 'run hello.loom --no-save --work blit.loom' 'work fault' 'blit.loom is an image, a text or a picture'
try 'run: the work file is a device' 10 'run hello.loom --no-save --work /dev/zero' 'work fault' 'no regular file'
try 'run: the work file is the null device' 2 'run hello.loom --no-save --work /dev/null' 'the work file and the events are one file'
try 'run: the work file is a folder' 20 'run hello.loom --no-save --work folder' 'it is a folder'
ln -s hello.loom link.loom
try 'run: over the image by a link'  20 'run hello.loom --save link.loom'   'link.loom is the image itself'
try 'run: the work file by a link'   10 'run hello.loom --no-save --work link.loom' 'work fault' 'link.loom is'
try 'run: two files from one stream' 2 'run - --events -'                   'only one file can come from standard input'
try 'run: two files to one stream'   2 'run hello.loom --save - --picture -' 'only one file can go to standard output'
try 'run: over standard input'       2 'run - --in-place'                   "can't write over standard input"
try 'run: nothing comes'             3 'run -'                              'This is an empty file'

# run: events.
try 'run: no such events'            9 'run hello.loom --events nothere'    'read fault: Events' 'nothere: No such file or directory'
try 'run: a folder of events'        9 'run hello.loom --events folder'     'folder: Is a directory'
try 'run: an image as events'        4 'run hello.loom --events blit.loom'  'events: line 1'
printf '5 word 7\n3 purge\n' >falling.events
try 'run: events that fall'          4 'run hello.loom --events falling.events' 'events: line 2'
printf '5 word 7\r\n' >returns.events
try 'run: events with returns'       4 'run hello.loom --events returns.events' 'events: line 1'

# run: sizes that are too small.
"$st80" make 3 large.loom 2>/dev/null
try 'run: too little room'           8 'run large.loom --no-save --room 1024' 'work full' '4,327' 'Try: --room 16846'

# make.
try 'make: no words'                 2 'make'                               '<NUMBER>' '<IMAGE>'
try 'make: no file'                  2 'make 0'                             '<IMAGE>'
try 'make: the words in another order' 2 'make a.loom 0'                    'NUMBER is "a.loom"' 'from 0 to 19'
try 'make: one too large'            2 'make 20 a.loom'                     'tip: 19 was probably meant'
try 'make: a negative number'        2 'make -- -1 a.loom'                  'NUMBER is "-1"'
try 'make: a folder'                 20 'make 0 folder'                     'it is a folder'
try 'make: no folder'                20 'make 0 nowhere/a.loom'             'there is no folder nowhere'
try 'make: a word more'              2 'make 0 a.loom b.loom'               "unexpected argument 'b.loom'"

# list.
try 'list: no words'                 2 'list'                               '<IMAGE>'
try 'list: no such image'            9 'list nothere.loom'                  'nothere.loom: No such file or directory'
try 'list: a text'                   3 'list hello.text'                    'hello.text: This is the text of an image'
try 'list: no folder'                20 'list hello.loom nowhere/a.text'    'there is no folder nowhere'
try 'list: a folder'                 20 'list hello.loom folder'            'it is a folder'

cp hello.loom twice.loom
try 'list: over its image'           2 'list twice.loom twice.loom'         'the image and the text are one file'
ln -s twice.loom twice.link
try 'list: over its image by a link' 2 'list twice.loom twice.link'         'the image and the text are one file'
same 'its image is as it was'        twice.loom hello.loom

# asm.
try 'asm: no words'                  2 'asm'                                '<TEXT>' '<IMAGE>'
try 'asm: no image'                  2 'asm hello.text'                     '<IMAGE>'
try 'asm: no such text'              9 'asm nothere.text a.loom'            'nothere.text: No such file or directory'
try 'asm: an image'                  18 'asm hello.loom a.loom'             'text: line 1' 'hello.loom: This is an image' 'st80 list'
try 'asm: an empty text'             18 'asm empty a.loom'                  'empty: This is an empty file'
try 'asm: another file'              18 'asm other a.loom'                  'other: This is none of the files that this program writes'
tr ' ' '\t' <hello.text >tabs.text
try 'asm: tabs'                      18 'asm tabs.text a.loom'              'text: line 1' 'tab'
sed 's/$/\r/' hello.text >returns.text
try 'asm: lines with returns'        18 'asm returns.text a.loom'           'text: line 1' 'carriage return'
sed '3s/.*/# a comment/' hello.text >comment.text
try 'asm: a comment'                 18 'asm comment.text a.loom'           'text: line 3' 'comment'
sed '3s/$/ /' hello.text >space.text
try 'asm: a space at the end'        18 'asm space.text a.loom'             'text: line 3' 'Column 15'
sed '3d' hello.text >lacks.text
try 'asm: a known object lacks'      18 'asm lacks.text a.loom'             'text: line'
{ sed -n 1p hello.text; sed -n 3p hello.text; sed -n 2p hello.text; sed '1,3d' hello.text; } >lower.text
try 'asm: a lower line first'        18 'asm lower.text a.loom'             'text: line 3'
sed 's/ 16383i/ 16384i/; 5s/pointers.*/pointers 16384i/' hello.text >range.text
try 'asm: a value out of range'      18 'asm range.text a.loom'             'text: line 5' '16384i' 'from -16384i to 16383i'
cp hello.text twice.text
try 'asm: over its text'             2 'asm twice.text ./twice.text'        'the text and the image are one file'
same 'its text is as it was'         twice.text hello.text
{ cat tour.text; echo '90 16 pointers'; } | sed '1s/^loom [0-9]*/loom 92/' >alone.text
try 'asm: an object that nothing holds' 18 'asm alone.text a.loom'          'text: line 32, rule 11' 'Nothing holds object 90'
absent 'asm: no image came of these' a.loom

# guard and resume.
try 'guard: no vault'                2 'guard counter.loom'                 '<VAULT>'
try 'guard: the image as the vault'  2 'guard counter.loom counter.loom'    'the vault and the image are one file'
try 'guard: an image as the vault'   15 'guard counter.loom blit.loom --no-save' 'vault fault' 'blit.loom is no vault: it is an image'
try 'guard: no folder for the vault' 20 'guard counter.loom nowhere/vault --no-save' 'there is no folder nowhere'
cp one.vault kept.vault
try 'guard: the stop over the vault' 2 'guard counter.loom kept.vault --no-save --on-stop kept.vault' 'the vault and the file of --on-stop are one file'
try 'guard: a picture over the vault' 2 'guard counter.loom kept.vault --no-save --picture ./kept.vault' 'the vault and the picture are one file'
try 'resume: an image over the vault' 2 'resume kept.vault --save ./kept.vault' 'the vault and the saved image are one file'
same 'the vault is as it was'        kept.vault one.vault
try 'resume: no words'               2 'resume'                             '<VAULT>'
try 'resume: no such vault'          15 'resume nothere --no-save'          'vault fault' 'nothere: No such file or directory'
try 'resume: no such vault, and where to save' 15 'resume nothere'          'nothere: No such file or directory'
try 'resume: no checkpoint'          16 'resume none.vault --no-save'       'no checkpoint' 'guard'
try 'resume: an image'               16 'resume hello.loom --no-save'       'hello.loom is no vault: it is an image'
try 'resume: in place'               2 'resume none.vault --in-place'       '--in-place'

# show, diff and check.
try 'show: no words'                 2 'show'                               '<IMAGE>'
try 'show: no such image'            21 'show nothere.loom'                 'nothere.loom' 'No such file or directory'
try 'show: a folder'                 21 'show folder'                       'Is a directory'
try 'show: a text'                   3 'show hello.text'                    'st80 asm'
try 'show: no such object'           23 'show hello.loom 9998'              '9998'
try 'show: no name'                  23 'show hello.loom 7'                 'even'
try 'show: no such class'            23 'show hello.loom class Nothing'     'Nothing'
try 'show: no such method'           23 'show hello.loom method Array nothing' 'nothing'
try 'show: what is no word'          2 'show hello.loom proceses'           'st80 show IMAGE processes'
try 'show: a class without a name'   2 'show hello.loom class'              'st80 show IMAGE class NAME'
try 'show: an image that is cut'     3 'show cut.loom'                      'Rule 9' 'it is cut'
try 'diff: one image'                2 'diff hello.loom'                    '<B>'
try 'diff: no such image'            21 'diff hello.loom nothere.loom'      'nothere.loom' 'No such file or directory'
try 'diff: twice standard input'     2 'diff - -'                           'only one file can come from standard input'
try 'check: no words'                2 'check'                              '<FILE>'
try 'check: another file'            21 'check other'                       'other'
try 'check: a count that is wrong'   3 'check count.loom'                   'rule 11'
try 'check: a text that is wrong'    18 'check space.text'                  'Line 3' 'Column 15'

# trace and picture.
try 'trace: no words'                2 'trace'                              '<IMAGE>'
try 'trace: no such image'           21 'trace nothere.loom'                'No such file or directory'
try 'trace: from 0'                  2 'trace hello.loom --from 0'          'from 1 to 2147483647'
try 'trace: to before from'          2 'trace hello.loom --from 9 --to 8'   '--to is "8"' 'from 9 to'
try 'trace: half a method'           2 'trace hello.loom --method Object'   '--method'
try 'trace: no such class'           23 'trace hello.loom --method Nothing at' 'no class is called Nothing'
try 'picture: no words'              2 'picture'                            '<PBM>'
try 'picture: no such file'          21 'picture nothere.pbm'               'nothere.pbm' 'No such file or directory'
try 'picture: an image'              21 'picture hello.loom'                'P4'
try 'picture: an empty file'         21 'picture empty'                     'empty'
cp hello.pbm twice.pbm
try 'picture: over itself'           2 'picture twice.pbm twice.pbm'        'the PBM and the PNG are one file'
same 'that picture is as it was, too' twice.pbm hello.pbm
head -c 20 hello.pbm >cut.pbm
try 'picture: one that is cut'       21 'picture cut.pbm'                   'cut'
try 'picture: no scale'              2 'picture hello.pbm --scale 0'        'from 1 to 64' 'tip: 1'
try 'picture: too large a scale'     2 'picture hello.pbm --scale 65'       'tip: 64'
try 'picture: no width'              2 'picture hello.pbm --width 0'        'from 8 to 1000'

# Whoever may read and write everything sees no difference.
chmod 000 blit.text
if [ "$(id -u)" = 0 ] && command -v setpriv >/dev/null; then
    program=$st80
    chmod 777 . temporary
    printf '#!/bin/sh\nexec setpriv --reuid 65534 --regid 65534 --clear-groups -- "%s" "$@"\n' "$program" >as_nobody
    chmod 755 as_nobody
    st80=$work/as_nobody
    chmod 600 tour.loom
    mkdir closed && chmod 555 closed
    try 'run: an image that may not be read' 9 'run tour.loom --no-save'       'tour.loom: Permission denied'
    try 'asm: a text that may not be read' 9 'asm blit.text a.loom'            'blit.text: Permission denied'
    try 'run: a folder that may not be written' 20 'run hello.loom --save closed/a' 'closed/a' 'Permission denied'
    st80=$program
    chmod 644 tour.loom
else
    skip 'files that may not be read' 'only root can be somebody else'
fi

# A disk that has no room.
mkdir small
if mount -t tmpfs -o size=64k small small 2>/dev/null; then
    dd if=/dev/zero of=small/filler bs=4096 2>/dev/null
    try 'run: a full disk, the image'    11 'run hello.loom --save small/a'     'write fault: Saved' 'No space left on device'
    try 'run: a full disk, the work file' 10 'run large.loom --no-save --work small/work --steps 99999' 'work fault' 'No space left on device'
    try 'make: a full disk'              11 'make 0 small/a.loom'               'write fault: Saved' 'No space left on device'
    try 'run: a full disk, the stop'     5 'run stuck.loom --on-stop small/b'   'stuck: cause 5 after 2' "can't be kept: write fault: Saved" 'No space left on device'
    umount small
else
    skip 'a full disk' 'nothing can be mounted here'
fi
if [ -w /dev/full ]; then
    try 'run: standard output is full'   11 'run hello.loom --no-save >/dev/full 2>said' 'write fault: Transcript' 'standard output'
    try 'run: standard output is full for the stop' 5 'run stuck.loom --on-stop - >/dev/full 2>said' 'stuck: cause 5 after 2' 'standard output' 'No space left on device'
    try 'list: standard output is full'  11 'list hello.loom >/dev/full 2>said' 'standard output' 'No space left on device'
fi

finish
