#!/bin/sh
# Tries the program at its edge: runs that keep checkpoints, and runs that go on from them.
#
#     tests/edge/vaults.sh [PROGRAM]
. "$(dirname "$0")/common.sh"

# A run that keeps its machine in a vault, and runs that go on from there. SAVED is what a run of as many bytecodes leaves, and the vault has
# the checkpoints and no other byte.
guard='guard snap.loom none.events objects saved.loom display.pbm $sizes 3 vault'
resume='resume vault none.events objects saved.loom display.pbm $sizes 1'
display=empty
rm -f vault
try 'a guarded run'                     ''            "$guard" 0 'ran 3' saved.loom snap3.loom
holds 'its vault has the checkpoint'                  vault one.vault
before='cp two.vault vault'
try 'VAULT has checkpoints of an earlier run' ''      "$guard" 0 'ran 3' vault one.vault
before=': >new.vault; ln -sf new.vault vault'
try 'VAULT is a symbolic link'          ''            "$guard" 0 'ran 3' new.vault one.vault
rm -f vault new.vault
before=
try 'a guarded run of six bytecodes'    ''            'guard snap.loom none.events objects saved.loom display.pbm $sizes 6 vault' 0 'ran 6' saved.loom snap6.loom
holds 'its vault has two checkpoints'                 vault two.vault
try 'a guarded run of no bytecode'      ''            'guard snap.loom none.events objects saved.loom display.pbm $sizes 0 vault' 0 'ran 0' saved.loom snap.loom
holds 'its vault has no checkpoint'                   vault none.vault
display=old
try 'no checkpoint to go on from'       ''            "$resume" 16 'no checkpoint' saved.loom old.loom
holds 'such a vault is as it was'                     vault none.vault
display=empty
before='cp two.vault vault'
try 'a guarded run that comes to no checkpoint' ''    'guard snap.loom none.events objects saved.loom display.pbm $sizes 1 vault' 0 'ran 1' vault none.vault
before=
display=old
try 'a guarded run that is stuck'       ''            'guard snap.loom none.events objects saved.loom display.pbm $sizes 7 vault' 5 'stuck: cause 1 after 6' saved.loom old.loom
holds 'its vault has the checkpoints'                 vault two.vault
display=hello.pbm
said=loom
try 'a guarded run that quits'          ''            'guard hello.loom none.events objects saved.loom display.pbm $sizes 9999 vault' 0 'quit after 2056' saved.loom drawn.loom
said=hi
display=empty
try 'a line is said in a guarded run'   ''            'guard say.loom none.events objects saved.loom display.pbm $sizes 3 vault' 0 'ran 3' saved.loom said.loom
said=
cp snap.loom both.loom
try 'SAVED of a guarded run is IMAGE'   ''            'guard both.loom none.events objects both.loom display.pbm $sizes 3 vault' 0 'ran 3' both.loom snap3.loom
try 'a guarded run, stderr closed'      '2>&-'        "$guard" 11 '' saved.loom snap3.loom
holds 'its vault has the checkpoint too'              vault one.vault
try 'a guarded run, all three closed'   '0<&- 1>&- 2>&-' "$guard" 11 '' saved.loom snap3.loom
holds 'its vault has it too'                          vault one.vault

# What goes on counts its bytecodes from there, and keeps the next checkpoint in the other area.
before='cp one.vault vault'
try 'a run goes on'                     ''            "$resume" 0 'ran 1' saved.loom snap3.loom
holds 'where it keeps nothing, its vault is as it was' vault one.vault
try 'a run goes on for no bytecode'     ''            'resume vault none.events objects saved.loom display.pbm $sizes 0' 0 'ran 0' saved.loom kept1.loom
try 'a run goes on to the next checkpoint' ''         'resume vault none.events objects saved.loom display.pbm $sizes 4' 0 'ran 4' saved.loom snap6.loom
holds 'its vault has both'                            vault two.vault
try 'a run goes on, stderr closed'      '2>&-'        "$resume" 11 '' saved.loom snap3.loom
before='cp one.vault new.vault; ln -sf new.vault vault'
try 'a run goes on from a symbolic link' ''           'resume vault none.events objects saved.loom display.pbm $sizes 4' 0 'ran 4' new.vault two.vault
rm -f vault new.vault
before='cp two.vault vault'
try 'a run goes on from the later checkpoint' ''      "$resume" 0 'ran 1' saved.loom snap6.loom
display=old
try 'a run goes on, and is stuck'       ''            'resume vault none.events objects saved.loom display.pbm $sizes 2' 5 'stuck: cause 1 after 1' saved.loom old.loom
display=empty

# A gate is closed unless its byte is 1 and its serial isn't 0. The next checkpoint is written there all the same.
for bytes in '0 \\002' '0 \\377' '15 \\000'; do
    before="cp two.vault vault; patch vault $bytes"
    try "a run goes on, where the later gate has $bytes" '' "$resume" 0 'ran 1' saved.loom snap3.loom
    try "and to the next checkpoint, where it has $bytes" '' 'resume vault none.events objects saved.loom display.pbm $sizes 4' 0 'ran 4' vault two.vault
done
display=old
before='cp one.vault vault; patch vault 512 \\000'
try 'both gates are closed'             ''            "$resume" 16 'no checkpoint' saved.loom old.loom
before=': >vault'
try 'a run goes on from an empty vault' ''            "$resume" 16 'no checkpoint' saved.loom old.loom
before='cp old.loom vault'
try 'a run goes on from a text'         ''            "$resume" 16 'no checkpoint' vault old.loom

# An open gate that no vault of the program has: a serial that is even in the gate of odd ones, or odd in the other, or 2 to the 62; a length of
# 35, or of 2 to the 42 and 1.
for bytes in '527 \\002' '520 \\100' '534 \\000\\043' '530 \\004\\000\\000\\000\\000\\001'; do
    before="cp two.vault vault; patch vault $bytes; cp vault bad.vault"
    try "a vault with $bytes"           ''            "$resume" 17 'vault bad at 512' saved.loom old.loom
    holds "it is as it was, with $bytes"              vault bad.vault
done
before='cp two.vault vault; patch vault 15 \\001'
try 'the first gate is bad'             ''            "$resume" 17 'vault bad at 0' saved.loom old.loom
before='cp two.vault vault; patch vault 15 \\001; patch vault 527 \\002'
try 'both gates are bad'                ''            "$resume" 17 'vault bad at 0' saved.loom old.loom
before='cp one.vault vault; patch vault 69632 X'
try 'the image in the vault is none'    ''            "$resume" 3 'image: rule 1 at 0' saved.loom old.loom

# The vault comes before anything else: where that is refused, nothing was done. Behind it a guarded run has a vault that is new, whatever
# comes of it, and one that goes on leaves the checkpoint that it began with, or a later one.
before='cp two.vault vault'
try 'IMAGE of a guarded run is no file' ''            'guard none.loom none.events objects saved.loom display.pbm $sizes 3 vault' 9 'read fault: Image' vault none.vault
try 'IMAGE of a guarded run is no image' ''           'guard old.loom none.events objects saved.loom display.pbm $sizes 3 vault' 3 'image: rule 1 at 0' vault none.vault
try 'EVENTS of a guarded run are wrong' ''            'guard snap.loom cut.events objects saved.loom display.pbm $sizes 3 vault' 4 'events: line 1' vault none.vault
try 'WORK of a guarded run is a directory' ''         'guard snap.loom none.events directory saved.loom display.pbm $sizes 3 vault' 10 'work fault' vault none.vault
try 'SAVED of a guarded run is full'    ''            'guard snap.loom none.events objects /dev/full display.pbm $sizes 3 vault' 11 'write fault: Saved' vault one.vault
try 'DISPLAY of a guarded run is a directory' ''      'guard snap.loom none.events objects saved.loom directory $sizes 3 vault' 11 'write fault: Display' saved.loom snap3.loom
holds 'its vault has the checkpoint all the same'     vault one.vault
before='cp one.vault vault'
try 'EVENTS are none, where a run goes on' ''         'resume vault no.events objects saved.loom display.pbm $sizes 4' 9 'read fault: Events' vault one.vault
try 'EVENTS are wrong, where a run goes on' ''        'resume vault cut.events objects saved.loom display.pbm $sizes 4' 4 'events: line 1' vault one.vault
try 'WORK is a directory, where a run goes on' ''     'resume vault none.events directory saved.loom display.pbm $sizes 4' 10 'work fault' vault one.vault
try 'SAVED is full, where a run goes on' ''           'resume vault none.events objects /dev/full display.pbm $sizes 4' 11 'write fault: Saved' vault two.vault
before='cp none.vault vault'
try 'no checkpoint, no EVENTS and no WORK' ''         'resume vault no.events none/objects saved.loom display.pbm $sizes 4' 16 'no checkpoint' saved.loom old.loom
before='cp old.loom objects'
try 'VAULT is a directory, and IMAGE no file' ''      'guard none.loom none.events objects saved.loom display.pbm $sizes 3 directory' 15 'vault fault' objects old.loom
before=

# A file that can't be a vault.
rm -f vault
try 'there is no vault to go on from'   ''            "$resume" 15 'vault fault' vault none
for file in directory none/vault /dev/null /dev/full /proc/version out notes; do
    try "VAULT is $file"                ''            "guard snap.loom none.events objects saved.loom display.pbm \$sizes 3 $file" 15 'vault fault' saved.loom old.loom
    try "VAULT is $file, where a run goes on" ''      "resume $file none.events objects saved.loom display.pbm \$sizes 1" 15 'vault fault' saved.loom old.loom
done
before='rm -f new.vault; ln -sf new.vault alias'
try 'VAULT is a link to no file'        ''            'guard snap.loom none.events objects saved.loom display.pbm $sizes 3 alias' 15 'vault fault' new.vault none
rm -f alias

# VAULT is another file of the run, by whatever path. It is opened before them, and none of them is cut.
for file in snap.loom kept.events objects saved.loom display.pbm; do
    before='cp good.events kept.events; cp two.vault objects'
    wanted=old.loom
    case $file in
        snap.loom) role=IMAGE; wanted=snap.same ;;
        kept.events) role=EVENTS; wanted=good.events ;;
        objects) role=WORK; wanted=two.vault ;;
        saved.loom) role=SAVED ;;
        display.pbm) role=DISPLAY ;;
    esac
    words='guard snap.loom kept.events objects saved.loom display.pbm $sizes 3'
    try "VAULT is $role, by another path"             '' "$words ./$file"            15 'vault fault' $file "$wanted"
    try "VAULT is $role, by a longer path"            '' "$words directory/../$file" 15 'vault fault' $file "$wanted"
    try "VAULT is $role, by its whole path"           '' "$words \"\$work/$file\""   15 'vault fault' $file "$wanted"
    before="cp good.events kept.events; cp two.vault objects; ln -sf directory/../$file alias"
    try "VAULT is $role, by a symbolic link"          '' "$words alias"              15 'vault fault' $file "$wanted"
    rm -f alias
    before="cp good.events kept.events; cp two.vault objects; ln -f $file alias"
    try "VAULT is $role, by a hard link"              '' "$words alias"              15 'vault fault' $file "$wanted"
    if [ $role != IMAGE ]; then
        words='kept.events objects saved.loom display.pbm $sizes 1'
        try "VAULT is $role, by a hard link, where a run goes on" '' "resume alias $words" 15 'vault fault' $file "$wanted"
        try "VAULT is $role, by another path, where a run goes on" '' "resume ./$file $words" 15 'vault fault' $file "$wanted"
    fi
    rm -f alias
    cp snap.same snap.loom
done

# A file that isn't there yet: the run makes its vault, and no role takes it.
words='guard snap.loom none.events'
before='rm -f new.vault'
try 'WORK is VAULT, by another path'    ''            "$words ./new.vault saved.loom display.pbm \$sizes 3 new.vault" 10 'work fault' new.vault none.vault
try 'SAVED is VAULT, by another path'   ''            "$words objects ./new.vault display.pbm \$sizes 3 new.vault" 11 'write fault: Saved' new.vault one.vault
try 'DISPLAY is VAULT, by another path' ''            "$words objects saved.loom ./new.vault \$sizes 3 new.vault" 11 'write fault: Display' new.vault one.vault
before='rm -f new.vault; ln -sf directory/../new.vault alias'
try 'WORK is VAULT, by a symbolic link' ''            "$words alias saved.loom display.pbm \$sizes 3 new.vault" 10 'work fault' new.vault none.vault
try 'SAVED is VAULT, by a symbolic link' ''           "$words objects alias display.pbm \$sizes 3 new.vault" 11 'write fault: Saved' new.vault one.vault
try 'DISPLAY is VAULT, by a symbolic link' ''         "$words objects saved.loom alias \$sizes 3 new.vault" 11 'write fault: Display' new.vault one.vault
rm -f alias
before='rm -f saved.loom.part'
killed=yes
try 'VAULT is SAVED.part'               ''            "$words objects saved.loom display.pbm \$sizes 3 saved.loom.part" 11 'write fault: Saved' saved.loom.part one.vault
rm -f saved.loom.part
killed=

# Bad words of these commands: nothing is opened, and the vault is as it was.
before='cp one.vault vault'
try 'a guarded run of ten words'        ''            'guard snap.loom none.events objects saved.loom display.pbm $sizes 3' 2 'usage: word 11' vault one.vault
try 'a guarded run of twelve words'     ''            "$guard vault" 2 'usage: word 12' vault one.vault
try 'a guarded run with a bad STEPS'    ''            'guard snap.loom none.events objects saved.loom display.pbm $sizes 03 vault' 2 'usage: word 10' vault one.vault
try 'SAVED of a guarded run is WORK'    ''            'guard snap.loom none.events objects objects display.pbm $sizes 3 vault' 2 'usage: word 5' vault one.vault
try 'VAULT is IMAGE'                    ''            'guard vault none.events objects saved.loom display.pbm $sizes 3 vault' 2 'usage: word 11' vault one.vault
try 'VAULT is EVENTS'                   ''            'guard snap.loom vault objects saved.loom display.pbm $sizes 3 vault' 2 'usage: word 11' vault one.vault
try 'VAULT is WORK'                     ''            'guard snap.loom none.events vault saved.loom display.pbm $sizes 3 vault' 2 'usage: word 11' vault one.vault
try 'VAULT is SAVED'                    ''            'guard snap.loom none.events objects vault display.pbm $sizes 3 vault' 2 'usage: word 11' vault one.vault
try 'VAULT is DISPLAY'                  ''            'guard snap.loom none.events objects saved.loom vault $sizes 3 vault' 2 'usage: word 11' vault one.vault
try 'nine words, where a run goes on'   ''            'resume vault none.events objects saved.loom display.pbm $sizes' 2 'usage: word 10' vault one.vault
try 'eleven words, where a run goes on' ''            "$resume 1" 2 'usage: word 11' vault one.vault
try 'CORE is too small, where a run goes on' ''       'resume vault none.events objects saved.loom display.pbm 4095 512 1024 1' 2 'usage: word 7' vault one.vault
try 'EVENTS is VAULT, where a run goes on' ''         'resume vault vault objects saved.loom display.pbm $sizes 1' 2 'usage: word 3' vault one.vault
try 'WORK is VAULT, where a run goes on' ''           'resume vault none.events vault saved.loom display.pbm $sizes 1' 2 'usage: word 4' vault one.vault
try 'SAVED is VAULT, where a run goes on' ''          'resume vault none.events objects vault display.pbm $sizes 1' 2 'usage: word 5' vault one.vault
try 'DISPLAY is VAULT, where a run goes on' ''        'resume vault none.events objects saved.loom vault $sizes 1' 2 'usage: word 6' vault one.vault
before=

finish
