#!/bin/sh
# Tries the program at its edge: files that can't be a vault, where a guarded run is to write one, and vaults that claim a length that can't be so.
#
#     tests/edge/claims.sh [PROGRAM]
. "$(dirname "$0")/common.sh"

guard='guard snap.loom none.events objects saved.loom display.pbm $sizes 3 vault'

# keeps_file NAME FILE: VAULT is a copy of this file. The run is refused before anything else is done, and the file stays.
keeps_file() {
    before="rm -f vault; cp $2 vault; cp old.loom objects"
    try "VAULT is $1"                       ''     "$guard" 15 'vault fault' vault "$2"
    holds "WORK was left alone, VAULT is $1"       objects old.loom
}

# takes_file NAME FILE: the same, and it is written afresh.
takes_file() {
    before="rm -f vault; cp $2 vault"
    try "VAULT is $1"                       ''     "$guard" 0 'ran 3' vault one.vault
}

# An image, an image's text, a picture and whatever else has a byte other than 0 or 1 where a gate of a vault has its own: at 0 and at 512.
display=old
head -c 600 /dev/zero >second.file && patch second.file 512 '\002'
head -c 513 /dev/zero >last.file && patch last.file 512 '\377'
printf '\002' >first.file
keeps_file 'an image of version 1'                 large.loom
keeps_file 'an image of version 2'                 snap3.loom
keeps_file "an image's text"                       snap.text
keeps_file 'a picture'                             hello.pbm
keeps_file 'a trace'                               base.trace
keeps_file 'another text'                          old.loom
keeps_file 'a file of one byte that is no gate'    first.file
keeps_file 'a file whose byte 512 is no gate'      second.file
keeps_file 'a file whose last byte is no gate'     last.file
before='rm -f vault; cp snap3.loom kept.loom; ln -s kept.loom vault'
try 'VAULT is a symbolic link to an image'  ''     "$guard" 15 'vault fault' kept.loom snap3.loom
rm -f vault kept.loom

# An empty file, a vault of an earlier run, and a file that has 0 or 1 in both places, or ends before them.
display=empty
head -c 512 /dev/zero >short.file && patch short.file 1 '\377' && patch short.file 511 '\377'
cp large.loom open.file && patch open.file 0 '\001' && patch open.file 512 '\000'
cp two.vault long.file && head -c 300000 /dev/zero >>long.file
takes_file 'an empty file'                         empty
takes_file 'a vault without a checkpoint'          none.vault
takes_file 'a vault with checkpoints'              two.vault
takes_file 'a longer file that begins as a vault'  long.file
takes_file 'a file that ends before byte 512'      short.file
takes_file 'a file with both gates'                open.file
rm -f first.file second.file last.file short.file open.file long.file

# A gate that says 2 to the 42 bytes. The answer is the one that the whole would get, with little memory, and WORK comes first as ever.
display=old
inner='ulimit -v 1000000;'
behind=$(($(wc -c <kept1.loom)))
claims() {
    before="cp one.vault vault; patch vault 530 '\\004\\000\\000\\000\\000\\000'; $2 cp vault kept.vault"
    try "a gate claims too much, $1"        ''     "resume vault none.events ${5:-objects} saved.loom display.pbm \$sizes 1" "$3" "$4" saved.loom old.loom
    holds "such a vault is as it was, $1"          vault kept.vault
}
claims 'and zeros stand behind the image'    ''                                              3  "image: rule 9 at $behind"
claims 'and rule 1 breaks'                   "patch vault 69632 X;" 3  'image: rule 1 at 0'
claims 'and rule 2 breaks'                   "patch vault 69639 '\\003';" 3  'image: rule 2 at 4'
claims 'and rule 3 breaks'                   "patch vault 69643 '\\025';" 3  'image: rule 3 at 8'
claims 'and rule 13 breaks'                  "patch vault 69655 '\\377';" 3  'image: rule 13 at 20'
claims 'and there is no room'                "patch vault 69642 '\\004\\001';" 8  'work full: 1025 objects, room 1024'
claims 'and there is no room and rule 13 breaks' "patch vault 69642 '\\004\\001'; patch vault 69655 '\\377';" 8 'work full: 1025 objects, room 1024'
claims 'and a record breaks rule 4'          "patch vault 69671 '\\003';" 3  'image: rule 4 at 36'
claims 'and WORK is a directory'             ''                                              10 'work fault' directory
claims 'and one object more'                 "patch vault 69643 '\\040';" 3  "image: rule 4 at $behind"

# As many objects as there may be can have so many bytes, so they are read where memory holds them, and else there is none.
before="cp one.vault vault; patch vault 530 '\\000\\040\\000\\000\\000\\000'; patch vault 69640 '\\000\\020\\000\\000'"
try 'a gate claims what no memory holds'    ''     'resume vault none.events objects saved.loom display.pbm 65536 4096 1048576 1' 12 'out of memory' saved.loom old.loom
inner=
before=
rm -f vault kept.vault

finish
