#!/bin/sh
# Tries the program at its edge: calls of the system that fail, by a tracer that answers them: syncs, writes and reads.
#
#     tests/edge/syncs.sh [PROGRAM]
. "$(dirname "$0")/common.sh"

# fails_syncs NAME WORDS LINE SAVED FAULT..: has each fsync of a run fail in turn, in a run of its own, and tells what each of them has to be: one of VAULT when it
# is opened (vault), of the file that gets the name SAVED (saved), of its folder (folder), or of DISPLAY (display). Each is told with its own role. SAVED is as it was up to its own,
# and from the one of its folder on the new file, whole, as in SAVED here. Behind the last fault the run has no more of them, and goes through with this line.
display=old
fails_syncs() {
    name=$1
    words=$2
    line=$3
    whole=$4
    shift 4
    sync=0
    for fault in "$@"; do
        sync=$((sync + 1))
        as="strace -o trace -e inject=fsync:error=EIO:when=$sync"
        display=old
        case $fault in
            vault) try "sync $sync of $name fails"   '' "$words" 15 'vault fault' saved.loom old.loom ;;
            saved) try "sync $sync of $name fails"   '' "$words" 11 'write fault: Saved' saved.loom old.loom ;;
            folder) try "sync $sync of $name fails"  '' "$words" 11 'write fault: Saved' saved.loom "$whole" ;;
            display)
                display=empty
                try "sync $sync of $name fails"      '' "$words" 11 'write fault: Display' saved.loom "$whole"
                ;;
        esac
    done
    as="strace -o trace -e inject=fsync:error=EIO:when=$((sync + 1))"
    case $* in
        *display*) display=empty ;;
        *) display=old ;;
    esac
    try "$name has $sync syncs"                      '' "$words" 0 "$line" saved.loom "$whole"
    as=
}

# Calls of the system that fail, by a tracer that answers them. WORK is never synced. SAVED is synced, and its folder; then DISPLAY, when it is cut and
# behind each write.
as='strace -o trace -e trace=none -e'
if $as inject=chroot:error=EIO true 2>/dev/null; then
    as=
    fails_syncs 'a run' "$good" 'ran 2' after.loom saved folder display
    rm -f vault
    before='rm -f vault'
    fails_syncs 'a guarded run' 'guard snap.loom none.events objects saved.loom display.pbm $sizes 3 vault' 'ran 3' snap3.loom vault vault saved folder display
    before='cp two.vault vault'
    fails_syncs 'a guarded run over a vault' 'guard snap.loom none.events objects saved.loom display.pbm $sizes 3 vault' 'ran 3' snap3.loom vault saved folder display
    before='cp one.vault vault'
    fails_syncs 'a run that goes on' 'resume vault none.events objects saved.loom display.pbm $sizes 1' 'ran 1' snap3.loom saved folder display
    before=
    fails_syncs 'a trace' 'trace base.loom none.events objects saved.loom $sizes 4' 'ran 4' base.trace saved folder
    "$loom" make 0 made.loom 2>/dev/null
    fails_syncs 'a making' 'make 0 saved.loom' 'made 1327 objects' made.loom saved folder
    fails_syncs 'a listing' 'list base.loom objects saved.loom' 'listed 26 objects' base.text saved folder
    cp base.loom second.loom && version_2 second.loom '\000\000\000\000'
    fails_syncs 'an assembling' 'asm base.text objects saved.loom' 'assembled 26 objects' second.loom saved folder

    # With a picture, and where neither SAVED nor DISPLAY is there yet: then the folder of DISPLAY is synced too.
    said=loom
    as='strace -o trace -e inject=fsync:error=EIO:when=2'
    display=old
    try 'the name of SAVED is not synced, with a picture' '' 'run hello.loom none.events objects saved.loom display.pbm $sizes 9999' 11 'write fault: Saved' saved.loom drawn.loom
    as='strace -o trace -e inject=fsync:error=EIO:when=4'
    display=hello.pbm
    try 'a picture is not synced'       '' 'run hello.loom none.events objects saved.loom display.pbm $sizes 9999' 11 'write fault: Display' saved.loom drawn.loom
    said=
    display=old
    words='run base.loom none.events objects new.loom new.pbm $sizes 2'
    as='strace -o trace -e inject=fsync:error=EIO:when=1'
    try 'SAVED is new, and not synced'  '' "$words" 11 'write fault: Saved' new.loom none
    as='strace -o trace -e inject=fsync:error=EIO:when=2'
    try 'the name of a new SAVED is not synced' '' "$words" 11 'write fault: Saved' new.loom after.loom
    for sync in 3 4; do
        as="strace -o trace -e inject=fsync:error=EIO:when=$sync"
        try "DISPLAY is new, and sync $sync fails" '' "$words" 11 'write fault: Display' new.loom after.loom
    done

    # SAVED gets no name. A trace writes each line by itself; behind a stop nothing is said of a failure.
    as='strace -o trace -e inject=?rename,?renameat,?renameat2:error=EIO'
    try 'SAVED gets no name'            '' "$good" 11 'write fault: Saved' saved.loom old.loom
    trace='trace base.loom none.events objects saved.loom $sizes 4'
    try 'TEXT of a trace gets no name'  '' "$trace" 11 'write fault: Saved' saved.loom old.loom
    try 'TEXT of a trace gets no name, stuck' '' 'trace unused.loom none.events objects saved.loom $sizes 4' 5 'stuck: cause 2 after 0' saved.loom old.loom
    as='strace -o trace -e inject=write:error=ENOSPC:when=3'
    try 'a disk that is full at a line of a trace' '' "$trace" 11 'write fault: Saved' saved.loom old.loom

    # An old WORK can't be removed, so it is cut; it can't be made anew; what it begins with can't be read.
    display=empty
    as='strace -o trace -e inject=?unlink,?unlinkat:error=EPERM'
    before='cp zeros objects; exec 4<objects'
    try 'an old WORK can not be removed' '' "$good" 0 'ran 2' saved.loom after.loom
    ! cat <&4 | cmp -s - zeros
    tell 'it was cut' "${?#0}"
    exec 4<&-
    display=old
    before='cp zeros objects'
    as="strace -o trace -P $work/objects -e inject=openat:error=ENOSPC:when=2"
    whole='run base.loom none.events "$work/objects" saved.loom display.pbm $sizes 2'
    try 'an old WORK can not be made anew' '' "$whole" 10 'work fault' objects none
    as="strace -o trace -P $work/objects -e inject=pread64:error=EIO:when=1"
    try 'what WORK begins with can not be read' '' "$whole" 10 'work fault' objects zeros
    before=
    as=

    # A vault that is made is synced with its folder. Its syncs are those of the gates that are closed, and three for each checkpoint: before
    # the image, behind it, and behind the gate that is opened. The one before is found until the next one's gate is open.
    display=old
    guard='guard snap.loom none.events objects saved.loom display.pbm $sizes 6 vault'
    resume='resume vault none.events objects saved.loom display.pbm $sizes 0'
    rm -f vault
    as='strace -o trace -e inject=fsync:error=EIO:when=1'
    try 'the name of VAULT is not synced' '' "$guard" 15 'vault fault' saved.loom old.loom
    as='strace -o trace -e inject=fsync:error=EIO:when=1'
    before='cp two.vault vault'
    try 'VAULT is not synced when it is cut' '' "$guard" 15 'vault fault' vault empty
    as='strace -o trace -e inject=pwrite64:error=EIO:when=1'
    try 'a gate of VAULT is not written' '' "$guard" 15 'vault fault' vault empty
    before='rm -f vault'
    for sync in 1 2 3 4 5 6 7; do
        as="strace -o trace -e inject=fdatasync:error=EIO:when=$sync"
        try "sync $sync of VAULT fails"  '' "$guard" 15 'vault fault' saved.loom old.loom
        as=
        before='cp vault kept.vault'
        case $sync in
            1 | 2 | 3) try "sync $sync of VAULT left no checkpoint" '' "$resume" 16 'no checkpoint' saved.loom old.loom ;;
            4 | 5 | 6)
                display=empty
                try "sync $sync of VAULT left the first checkpoint" '' "$resume" 0 'ran 0' saved.loom kept1.loom
                ;;
            7)
                display=empty
                try "sync $sync of VAULT left the second checkpoint" '' "$resume" 0 'ran 0' saved.loom kept2.loom
                ;;
        esac
        display=old
        holds "a run that went on from there left VAULT as it was, sync $sync" vault kept.vault
        before='rm -f vault'
    done
    before='cp two.vault vault'
    as='strace -o trace -e inject=fdatasync:error=EIO:when=1'
    try 'VAULT is not synced, where a run goes on' '' "$resume" 15 'vault fault' vault two.vault
    before=
    as=

    # A disk that is full at one write to WORK: at the first, which is in loading; at the first behind the opening of EVENTS, which is a
    # purge while the machine runs; and at the last before SAVED is opened, in finishing. None of them touches SAVED or DISPLAY. The directory of
    # WORK is larger than all windows, so that writes go out at each of these.
    display=old
    large='65536 4096 1048576'
    "$loom" make 0 ticks.loom 2>/dev/null
    printf '1000 purge\n' >purge.events
    purged='run ticks.loom purge.events objects saved.loom display.pbm $large 2000'
    rm -f objects saved.loom
    eval "strace -o writes -e trace=pwrite64,openat \"\$loom\" $purged" </dev/null >/dev/null 2>&1
    numbers=$(awk '
        /^pwrite64\(/ { count++; if (!loading) loading = count; if (events && !running) running = count; finishing = count }
        /purge\.events/ { events = 1 }
        /saved\.loom/ { print loading, running, finishing; exit }' writes)
    set -- $numbers
    if [ $# = 3 ]; then
        as="strace -o trace -e inject=pwrite64:error=ENOSPC:when=$1"
        try 'a disk that is full while the image is read' '' "$purged" 10 'work fault' saved.loom old.loom
        said=$("$loom" run ticks.loom none.events objects none.saved none.pbm $large 1000 2>/dev/null)
        as="strace -o trace -e inject=pwrite64:error=ENOSPC:when=$2"
        try 'a disk that is full while the machine runs' '' "$purged" 10 'work fault' saved.loom old.loom
        all=$("$loom" run ticks.loom none.events objects none.saved none.pbm $large 2000 2>/dev/null)
        some=$said
        said=$all
        as="strace -o trace -e inject=pwrite64:error=ENOSPC:when=$3"
        try 'a disk that is full while the memory is wound up' '' "$purged" 10 'work fault' saved.loom old.loom
        said=$some
        as=
        "$loom" trace ticks.loom none.events objects whole.trace $large 1000 >/dev/null 2>&1
        as="strace -o trace -e inject=pwrite64:error=ENOSPC:when=$2"
        try 'a disk that is full while a machine is traced' '' 'trace ticks.loom purge.events objects saved.loom $large 2000' 10 'work fault' saved.loom whole.trace
        said=
    else
        tell 'a disk that is full at a write' "the writes of a run are '$numbers'"
    fi
else
    skip 'calls that fail' 'no tracer runs'
fi
as=

finish
