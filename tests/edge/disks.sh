#!/bin/sh
# Tries the program at its edge: limits on the size of files, and disks that are full.
#
#     tests/edge/disks.sh [PROGRAM]
. "$(dirname "$0")/common.sh"

# A limit on the size of files, with the signal that comes with it, and without. The work file is at least as large as the image, so it
# is the one that meets it.
display=old
inner="trap '' XFSZ; ulimit -f 500;"
try 'a limit, WORK'                     '' 'run large.loom none.events objects saved.loom display.pbm $sizes 2' 10 'work fault' saved.loom old.loom
cp large.loom both.loom
try 'a limit, SAVED is IMAGE'           '' 'run both.loom none.events objects both.loom display.pbm $sizes 2'   10 'work fault' both.loom large.loom
try 'a limit, TEXT of a trace'          '' 'trace base.loom none.events objects saved.loom $sizes 99999'              11 'write fault: Saved' saved.loom old.loom
inner="trap '' XFSZ; ulimit -f 120;"
try 'a limit, VAULT'                    '' 'guard snap.loom none.events objects saved.loom display.pbm $sizes 3 vault' 15 'vault fault' saved.loom old.loom
inner=
try 'a limit left no checkpoint'        '' 'resume vault none.events objects saved.loom display.pbm $sizes 1'  16 'no checkpoint' saved.loom old.loom
inner='ulimit -f 500;'
try 'a limit and its signal, SAVED is IMAGE' '' 'run both.loom none.events objects both.loom display.pbm $sizes 2' 153 '' both.loom large.loom
inner=

# A disk that has no room.
mkdir small
if mount -t tmpfs -o size=1500k small small 2>/dev/null; then
    cp old.loom large.loom small
    try 'a full disk, SAVED'            '' 'run large.loom none.events objects small/old.loom display.pbm $sizes 2'        11 'write fault: Saved' small/old.loom old.loom
    try 'a full disk, SAVED is new'     '' 'run large.loom none.events objects small/new.loom display.pbm $sizes 2'        11 'write fault: Saved' small/new.loom none
    try 'a full disk, SAVED is IMAGE'   '' 'run small/large.loom none.events objects small/large.loom display.pbm $sizes 2' 11 'write fault: Saved' small/large.loom large.loom
    try 'a full disk, WORK'             '' 'run small/large.loom none.events small/objects saved.loom display.pbm $sizes 2' 10 'work fault' saved.loom old.loom
    try 'a full disk, WORK, and SAVED is IMAGE' '' 'run small/large.loom none.events small/objects small/large.loom display.pbm $sizes 2' 10 'work fault' small/large.loom large.loom
    rm -f small/objects
    try 'a full disk, TEXT of a trace'  '' 'trace base.loom none.events objects small/old.loom $sizes 999999' 11 'write fault: Saved' small/old.loom old.loom
    try 'a full disk, TEXT of a trace is new' '' 'trace base.loom none.events objects small/new.loom $sizes 999999' 11 'write fault: Saved' small/new.loom none
    dd if=/dev/zero of=small/filler bs=4096 2>/dev/null
    said=loom
    try 'a full disk, DISPLAY is new'   '' 'run hello.loom none.events objects saved.loom small/new.pbm $sizes 9999'       11 'write fault: Display' saved.loom drawn.loom
    said=
    try 'a full disk, a large image'     '' 'make 0 small/old.loom' 11 'write fault: Saved' small/old.loom old.loom

    # A disk that has no room for a vault; and one that has room for the gates and the first checkpoint, and not for the second, which lies
    # in a block of its own.
    guard='guard snap.loom none.events objects saved.loom display.pbm $sizes 6 small/vault'
    try 'a full disk, VAULT is new'      '' "$guard" 15 'vault fault' small/vault empty
    dd if=/dev/null of=small/filler bs=4096 seek=$(($(wc -c <small/filler) / 4096 - 2)) 2>/dev/null
    try 'a full disk at the second checkpoint' '' "$guard" 15 'vault fault' saved.loom old.loom
    display=empty
    try 'a full disk left the first one' '' 'resume small/vault none.events objects saved.loom display.pbm $sizes 1' 0 'ran 1' saved.loom snap3.loom
    display=old
    umount small
else
    skip 'a full disk' 'no file system can be mounted'
fi

finish
