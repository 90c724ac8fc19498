#!/bin/sh
# Tries the program at its edge: what may be WORK and what may not, by whatever path, and what becomes of an old one.
#
#     tests/edge/work.sh [PROGRAM]
. "$(dirname "$0")/common.sh"

# WORK is another file by another path, a symbolic link or a hard link. It is made before the others are opened, and none of them is cut.
display=old
for file in base.loom kept.events saved.loom display.pbm; do
    before='cp good.events kept.events'
    wanted=old.loom
    case $file in
        base.loom) role=IMAGE; wanted=$base ;;
        kept.events) role=EVENTS; wanted=good.events ;;
        saved.loom) role=SAVED ;;
        display.pbm) role=DISPLAY ;;
    esac
    rest="saved.loom display.pbm \$sizes 2"
    try "WORK is $role, by another path"         '' "run base.loom kept.events ./$file $rest"            10 'work fault' $file "$wanted"
    try "WORK is $role, by a longer path"        '' "run base.loom kept.events directory/../$file $rest" 10 'work fault' $file "$wanted"
    try "WORK is $role, by its whole path"       '' "run base.loom kept.events \"\$work/$file\" $rest"  10 'work fault' $file "$wanted"
    before="cp good.events kept.events; ln -sf directory/../$file alias"
    try "WORK is $role, by a symbolic link"      '' "run base.loom kept.events alias $rest"              10 'work fault' $file "$wanted"
    rm -f alias
    before="cp good.events kept.events; ln -f $file alias"
    try "WORK is $role, by a hard link"          '' "run base.loom kept.events alias $rest"              10 'work fault' $file "$wanted"
    rm -f alias
    cp "$base" base.loom
done
before='ln -sf base.loom alias'
try 'WORK is IMAGE, which is a symbolic link' '' 'run alias none.events base.loom saved.loom display.pbm $sizes 2' 10 'work fault' base.loom "$base"
before=
rm -f alias

# WORK is no file yet, or one of another run, or can't be one.
display=empty
try 'WORK is no file yet'               '' "$good" 0 'ran 2' saved.loom after.loom
before='cp zeros objects'
try 'WORK has bytes'                    '' "$good" 0 'ran 2' saved.loom after.loom
before='ln -sf new.work objects'
try 'WORK is a link to no file'         '' "$good" 0 'ran 2' saved.loom after.loom
before='"$loom" run hello.loom none.events objects saved.loom display.pbm $sizes 9999 >/dev/null 2>&1; cp old.loom saved.loom; cp old.loom display.pbm'
try 'WORK was that of another run'      '' "$good" 0 'ran 2' saved.loom after.loom
before=
rm -f new.work
display=old
try 'WORK is a directory'               '' 'run base.loom none.events directory saved.loom display.pbm $sizes 2'     10 'work fault' saved.loom old.loom
try 'WORK in no directory'              '' 'run base.loom none.events none/objects saved.loom display.pbm $sizes 2'  10 'work fault' saved.loom old.loom
try 'WORK is for reading only'          '' 'run base.loom none.events /sys/kernel/uevent_seqnum saved.loom display.pbm $sizes 2' 10 'work fault' saved.loom old.loom
try 'WORK is full'                      '' 'run base.loom none.events /dev/full saved.loom display.pbm $sizes 2'     10 'work fault' saved.loom old.loom
try 'WORK is standard output'           '' 'run base.loom none.events out saved.loom display.pbm $sizes 2'           10 'work fault' saved.loom old.loom
try 'WORK is standard error'            '' 'run base.loom none.events notes saved.loom display.pbm $sizes 2'         10 'work fault' saved.loom old.loom
killed=yes
try 'WORK is SAVED.part'                '' 'run base.loom none.events saved.loom.part saved.loom display.pbm $sizes 2' 11 'write fault: Saved' saved.loom old.loom
rm -f saved.loom.part
killed=
try 'WORK can not be made, and IMAGE is no file'    '' 'run none.loom none.events none/objects saved.loom display.pbm $sizes 2'  10 'work fault' saved.loom old.loom

# works_of NAME WORK: tries each command that has a work file with this one, which none of them takes.
works_of() {
    work_word=$2
    try "$1, a run"           '' "run base.loom none.events $work_word saved.loom display.pbm \$sizes 2"         10 'work fault' saved.loom old.loom
    try "$1, a guarded run"   '' "guard snap.loom none.events $work_word saved.loom display.pbm \$sizes 3 vault" 10 'work fault' vault none.vault
    try "$1, a run goes on"   '' "resume kept.vault none.events $work_word saved.loom display.pbm \$sizes 1"     10 'work fault' kept.vault two.vault
    try "$1, a trace"         '' "trace base.loom none.events $work_word saved.loom \$sizes 4"                   10 'work fault' saved.loom old.loom
    try "$1, a listing"       '' "list base.loom $work_word saved.loom"                                          10 'work fault' saved.loom old.loom
    try "$1, an assembling"   '' "asm base.text $work_word saved.loom"                                           10 'work fault' saved.loom old.loom
}

# WORK is no regular file.
for file in /dev/null /dev/zero /dev/full pipe directory; do
    before='cp two.vault kept.vault; rm -f pipe; mkfifo pipe'
    works_of "WORK is $file" $file
done
before='ln -sf /dev/null alias'
try 'WORK is a link to a device'        '' 'run base.loom none.events alias saved.loom display.pbm $sizes 2' 10 'work fault' saved.loom old.loom
rm -f alias pipe

# WORK begins as an image, as the text of one or as a picture, by the whole head: it isn't taken, and is as it was.
head -c 16 base.loom >head1.kept && head -c 36 after.loom >head2.kept && head -n 1 base.text >head3.kept || exit 1
printf 'P4\n640 480\n' >head4.kept
printf 'loom 4294967295 4294967295 4294967295 4294967295 4294967295 4294967295\n' >head5.kept
{ cat head3.kept; echo 'this is no object'; } >text.kept
{ cat head1.kept; cat old.loom; } >image.kept
for kept in base.loom after.loom base.text hello.pbm; do
    before="cp two.vault kept.vault; cp $kept precious"
    works_of "WORK is $kept" precious
    holds "a WORK that is $kept is as it was"         precious $kept
done
for kept in head1.kept head2.kept head3.kept head4.kept head5.kept text.kept image.kept; do
    before="cp $kept precious"
    try "WORK begins as $kept"          '' 'run base.loom none.events precious saved.loom display.pbm $sizes 2' 10 'work fault' precious $kept
done
before='cp base.loom precious; ln -sf precious alias'
try 'WORK is a symbolic link to an image' '' 'run base.loom none.events alias saved.loom display.pbm $sizes 2' 10 'work fault' precious base.loom
before='cp base.loom precious; rm -f alias; ln precious alias'
try 'WORK is a hard link of an image'   '' 'run base.loom none.events alias saved.loom display.pbm $sizes 2' 10 'work fault' precious base.loom
rm -f alias
before='cp base.loom precious'
try 'an image is given as the WORK of an assembling' '' 'asm base.text precious new.loom' 10 'work fault' precious base.loom
before=
rm -f precious kept.vault vault

# It doesn't begin so, and is taken: a head that is cut off, or states what none may.
display=empty
changed() {
    before="cp $1 objects; patch objects $2 '$3'"
    try "WORK begins as $1, with $3 at $2" '' "$good" 0 'ran 2' saved.loom after.loom
}
changed head1.kept 0 l
changed head1.kept 7 '\003'
changed head1.kept 11 '\025'
changed head1.kept 8 '\001'
changed head1.kept 15 '\105'
changed head1.kept 15 '\072'
changed head2.kept 23 '\104'
changed head2.kept 27 '\105'
changed head2.kept 35 '\001'
for front in 'LOOM' 'loom 68 0 0 0 0 0' 'loom 68 0 0 0 0\n' 'loom 68 0 0 0 0 0 0\n' 'loom  68 0 0 0 0 0\n' 'loom 068 0 0 0 0 0\n' 'Loom 68 0 0 0 0 0\n' \
    'loom 4294967296 0 0 0 0 0\n' 'loom 68 0 0 0 0 -1\n' 'loom 68 0 0 0 0 0 \n' '2 16 pointers\n' 'P4' 'P4\n640 480' 'P4\n640\n480\n' 'P4 640 480\n' 'P5\n640 480\n' \
    'P4\n640 480 1\n' 'P4\n640 4x0\n' 'P4\n640  480\n' 'P4\n640\n' 'P4\n640 0480\n' '\n' ''; do
    before="printf '$front' >objects"
    name=$(printf '%s' "$front" | sed 's/\\n/, newline, /g')
    try "WORK is this text alone: $name" '' "$good" 0 'ran 2' saved.loom after.loom
done
before='head -c 15 head1.kept >objects'
try 'WORK is the first 15 bytes of an image of version 1' '' "$good" 0 'ran 2' saved.loom after.loom
before='head -c 35 head2.kept >objects'
try 'WORK is the first 35 bytes of an image of version 2' '' "$good" 0 'ran 2' saved.loom after.loom
before=

# An old WORK is removed and made anew, with its mode, where no other name leads to it: who still reads it finds it as it was.
for wanted in -rw------- -rw-r----- -rwxrwxrwx; do
    case $wanted in
        -rw-------) before='cp zeros objects; chmod 600 objects; exec 4<objects' ;;
        -rw-r-----) before='cp zeros objects; chmod 640 objects; exec 4<objects' ;;
        *) before='cp zeros objects; chmod 777 objects; exec 4<objects' ;;
    esac
    try "an old WORK of mode $wanted"   '' "$good" 0 'ran 2' saved.loom after.loom
    cat <&4 | cmp -s - zeros && [ -f objects ] && ! cmp -s objects zeros
    tell "it was made anew, $wanted" "${?#0}"
    [ "$(mode objects)" = "$wanted" ]
    tell "WORK may be used as $wanted still" "${?#0}"
    exec 4<&-
done
before='cp zeros new.work; ln -sf new.work objects; exec 4<new.work'
try 'WORK is a symbolic link to an old one' '' "$good" 0 'ran 2' saved.loom after.loom
cat <&4 | cmp -s - zeros && [ -h objects ] && [ -f new.work ] && ! cmp -s new.work zeros
tell 'what it led to was made anew, and it is a link still' "${?#0}"
exec 4<&-
before='cp zeros new.work; ln new.work objects; exec 4<new.work'
try 'an old WORK has two names'         '' "$good" 0 'ran 2' saved.loom after.loom
! cat <&4 | cmp -s - zeros && cmp -s objects new.work
tell 'it was cut, and has both' "${?#0}"
exec 4<&-
before=
rm -f new.work
display=old

finish
