#!/bin/sh
# Tries the program at its edge: SAVED and what it takes the place of: IMAGE and EVENTS, other names of one file, what it is written under, and closed folders.
#
#     tests/edge/saved.sh [PROGRAM]
. "$(dirname "$0")/common.sh"

# SAVED is IMAGE, and the new image is shorter: it is written from the start, and nothing of the old one is left.
dead_image both.loom
try 'IMAGE with two dead objects'       '' 'run both.loom none.events objects saved.loom display.pbm $sizes 2'  0 'ran 2' saved.loom swept.loom
try 'SAVED is IMAGE'                    '' 'run both.loom none.events objects both.loom display.pbm $sizes 2'   0 'ran 2' both.loom  swept.loom
dead_image both.loom
ln -s both.loom link.loom
try 'SAVED is a link to IMAGE'          '' 'run both.loom none.events objects link.loom display.pbm $sizes 2'   0 'ran 2' both.loom  swept.loom
display=old
dead_image both.loom
patch both.loom 556 '\176'
cp both.loom dead.loom
try 'SAVED is IMAGE, stuck'             '' 'run both.loom none.events objects both.loom display.pbm $sizes 3'   5 'stuck: cause 2 after 0' both.loom dead.loom
dead_image both.loom
cp both.loom dead.loom
try 'SAVED is IMAGE, wrong events'      '' 'run both.loom cut.events objects both.loom display.pbm $sizes 3'    4 'events: line 1' both.loom dead.loom
display=empty
try 'SAVED is IMAGE, streams closed'    '0<&- 1>&- 2>&-' 'run both.loom none.events objects both.loom display.pbm $sizes 2' 11 '' both.loom swept.loom

# One file that two words name in different ways: by another path, a symbolic link or a hard link. DISPLAY is then refused
# before it is cut, and SAVED is whole.
display=old
cp good.events kept.events
for file in base.loom kept.events saved.loom; do
    case $file in
        base.loom) role=IMAGE; wanted=$base ;;
        kept.events) role=EVENTS; wanted=good.events ;;
        saved.loom) role=SAVED; wanted=after.loom ;;
    esac
    words="run base.loom kept.events objects saved.loom"
    try "DISPLAY is $role, by another path"      '' "$words ./$file $sizes 2"             11 'write fault: Display' $file "$wanted"
    try "DISPLAY is $role, by a longer path"     '' "$words directory/../$file $sizes 2"  11 'write fault: Display' $file "$wanted"
    try "DISPLAY is $role, by its whole path"    '' "$words \"\$work/$file\" $sizes 2"    11 'write fault: Display' $file "$wanted"
    ln -s $file alias
    try "DISPLAY is $role, by a symbolic link"   '' "$words alias $sizes 2"               11 'write fault: Display' $file "$wanted"
    ln -sf "directory/../$file" alias
    try "DISPLAY is $role, by a longer symbolic link" '' "$words directory/../alias $sizes 2" 11 'write fault: Display' $file "$wanted"
    rm alias
done
ln base.loom alias
try 'DISPLAY is IMAGE, by a hard link'           '' 'run base.loom none.events objects saved.loom alias $sizes 2' 11 'write fault: Display' saved.loom after.loom
ln -f kept.events alias
try 'DISPLAY is EVENTS, by a hard link'          '' 'run base.loom kept.events objects saved.loom alias $sizes 2' 11 'write fault: Display' kept.events good.events
before='ln -f saved.loom alias'
said=loom
try 'DISPLAY is SAVED, by a hard link'           '' 'run hello.loom none.events objects saved.loom alias $sizes 9999' 0 'quit after 2056' saved.loom drawn.loom
said=
cmp -s alias hello.pbm
tell 'what was a hard link of SAVED has the picture' "${?#0}"
before='ln -f both.loom alias; ln -sf both.loom link.loom'
dead_image both.loom
try 'DISPLAY is IMAGE by a hard link, and SAVED is IMAGE' '' 'run both.loom none.events objects both.loom alias $sizes 2' 11 'write fault: Display' both.loom swept.loom
before=
rm -f alias link.loom

# SAVED may be IMAGE or EVENTS, whatever it is called: it takes the place of what was read.
display=empty
dead_image both.loom
try 'SAVED is IMAGE, by another path'   '' 'run both.loom none.events objects ./both.loom display.pbm $sizes 2' 0 'ran 2' both.loom swept.loom
dead_image both.loom
ln -s directory/../both.loom alias
try 'SAVED is IMAGE, by a longer symbolic link' '' 'run both.loom none.events objects alias display.pbm $sizes 2' 0 'ran 2' both.loom swept.loom
[ -h alias ]
tell 'the symbolic link is still one' "${?#0}"
dead_image both.loom
cp both.loom dead.loom
ln -f both.loom alias
try 'SAVED is IMAGE, by a hard link'    '' 'run both.loom none.events objects alias display.pbm $sizes 2' 0 'ran 2' alias swept.loom
cmp -s both.loom dead.loom
tell 'the other hard link has the old image' "${?#0}"
cp good.events both.events
try 'SAVED is EVENTS, by another path'  '' 'run base.loom both.events objects ./both.events display.pbm $sizes 2' 0 'ran 2' both.events after.loom
rm -f alias
ln -s new.loom alias
try 'SAVED is a link to no file'        '' 'run base.loom none.events objects alias display.pbm $sizes 2' 0 'ran 2' new.loom after.loom
ln -sf new.pbm alias
display=old
try 'DISPLAY is a link to no file'      '' 'run base.loom none.events objects saved.loom alias $sizes 2' 0 'ran 2' new.pbm empty
rm -f alias

# What SAVED is written under, until it has its name.
display=empty
before='echo left >saved.loom.part'
try 'SAVED.part was left by a run that was killed' '' "$good" 0 'ran 2' saved.loom after.loom
display=old
before='cp base.loom saved.loom.part'
killed=yes
try 'IMAGE is SAVED.part'               '' 'run saved.loom.part none.events objects saved.loom display.pbm $sizes 2' 11 'write fault: Saved' saved.loom.part base.loom
before='ln -f base.loom saved.loom.part'
try 'SAVED.part is a hard link of IMAGE' '' "$good" 11 'write fault: Saved' saved.loom old.loom
rm saved.loom.part
before='cp good.events saved.loom.part'
try 'EVENTS is SAVED.part'              '' 'run base.loom saved.loom.part objects saved.loom display.pbm $sizes 2' 11 'write fault: Saved' saved.loom.part good.events
before='rm saved.loom.part; mkdir saved.loom.part'
try 'SAVED.part is a directory'         '' "$good" 11 'write fault: Saved' saved.loom old.loom
rmdir saved.loom.part
killed=
before='ln -s old.loom saved.loom.part'
try 'SAVED.part is a symbolic link'     '' "$good" 11 'write fault: Saved' saved.loom old.loom
rm saved.loom.part
display=empty
for wanted in -rw------- -rw-r----- -rwxrwxrwx; do
    case $wanted in
        -rw-------) before='chmod 600 saved.loom' ;;
        -rw-r-----) before='chmod 640 saved.loom' ;;
        *) before='chmod 777 saved.loom' ;;
    esac
    try "SAVED may be used as $wanted"  '' "$good" 0 'ran 2' saved.loom after.loom
    [ "$(mode saved.loom)" = "$wanted" ]
    tell "SAVED may be used as $wanted still" "${?#0}"
done
before=

# A folder where no file can be made: SAVED is written in its place, unless IMAGE or EVENTS is there. The user is no root.
display=old
mkdir closed
cp old.loom closed/saved.loom && cp base.loom closed/image.loom && chmod 666 closed/*.loom && chmod 555 closed
as=
if [ "$(id -u)" = 0 ]; then
    as='setpriv --reuid 65534 --regid 65534 --clear-groups --'
fi
if $as test -x "$loom" 2>/dev/null && ! $as test -w closed; then
    before='chmod 666 saved.loom display.pbm; : >objects; chmod 666 objects'
    display=empty
    try 'a closed folder, SAVED'        '' 'run base.loom none.events objects closed/saved.loom display.pbm $sizes 2' 0 'ran 2' closed/saved.loom after.loom
    display=old
    try 'a closed folder, SAVED is new' '' 'run base.loom none.events objects closed/new.loom display.pbm $sizes 2'   11 'write fault: Saved' closed/new.loom none
    try 'a closed folder, WORK is new'  '' 'run base.loom none.events closed/objects saved.loom display.pbm $sizes 2' 10 'work fault' closed/objects none
    try 'a closed folder, SAVED is IMAGE' '' 'run closed/image.loom none.events objects closed/image.loom display.pbm $sizes 2' 11 'write fault: Saved' closed/image.loom base.loom
    before='chmod 444 saved.loom; : >objects; chmod 666 objects'
    try 'SAVED may only be read'        '' "$good" 11 'write fault: Saved' saved.loom old.loom
    before=': >objects; chmod 666 objects'
    try 'a closed folder, TEXT of a trace' '' 'trace base.loom none.events objects closed/saved.loom $sizes 4' 0 'ran 4' closed/saved.loom base.trace
    try 'a closed folder, TEXT of a trace is new' '' 'trace base.loom none.events objects closed/new.loom $sizes 4' 11 'write fault: Saved' closed/new.loom none
    guard='guard snap.loom none.events objects saved.loom display.pbm $sizes 3'
    resume='none.events objects saved.loom display.pbm $sizes 1'
    before='chmod 666 saved.loom display.pbm; : >objects; chmod 666 objects'
    try 'a closed folder, VAULT is new' '' "$guard closed/vault" 15 'vault fault' closed/vault none
    before="$before; cp two.vault closed/vault; chmod 666 closed/vault"
    display=empty
    try 'a closed folder, VAULT'        '' "$guard closed/vault" 0 'ran 3' closed/vault one.vault
    try 'a closed folder, a run goes on' '' "resume closed/vault $resume" 0 'ran 1' saved.loom snap6.loom
    display=old
    for mode in 444 222 000; do
        before="cp two.vault vault; chmod $mode vault; : >objects; chmod 666 objects"
        try "VAULT has the mode $mode"  '' "$guard vault" 15 'vault fault' vault two.vault
        try "VAULT has the mode $mode, where a run goes on" '' "resume vault $resume" 15 'vault fault' vault two.vault
        rm -f vault
    done
    before=
else
    skip 'a closed folder' 'no other user can run the program'
fi
as=

finish
