#!/bin/sh
# Tries the program on a disk that fails, over real files: a run that is killed at a hundred moments, from its start to its end; a disk that
# is full from one write to WORK on, for writes spread over the run; reads of WORK that fail once or now and then, that are interrupted and
# that come short; and, where gcc makes a library, a run and a guarded run over files, with what goes on from its vault, and cases of
# `crates/fault_runs`, with each allocation refused in turn.
# Prints a line for each case. Not in the gate; what `tests/edge.sh` tries isn't tried here again. Takes some minutes, and each part is
# bounded in time.
#
#     tests/faults.sh [PROGRAM [FAULT_RUNS [PART..]]]      PART: killed, reads, writes, growths; all without one
set -u
top=$(cd "$(dirname "$0")/.." && pwd) || exit 1
loom=${1:-$top/crates/loom_cli/out/loom_cli}
case $loom in
    /*) ;;
    *) loom=$(pwd)/$loom ;;
esac
[ -x "$loom" ] || { echo "faults: there is no program $loom; ./demo builds it" >&2; exit 1; }
[ $# -gt 0 ] && shift
fault_runs=${1:-$top/crates/fault_runs/out/fault_runs}
case $fault_runs in
    /*) ;;
    *) fault_runs=$(pwd)/$fault_runs ;;
esac
[ $# -gt 0 ] && shift
parts=${*:-killed reads writes growths}
work=$(mktemp -d) || exit 1
trap 'rm -rf "$work"' EXIT
cd "$work" || exit 1

passed=0
failed=0

# tell NAME WHY: prints the line of a case, which failed where there is a reason.
tell() {
    if [ -z "$2" ]; then
        passed=$((passed + 1))
        echo "ok      $1"
    else
        failed=$((failed + 1))
        echo "FAILED  $1: ${2#; }"
    fi
}

# skip NAME WHY: says that cases can't be tried here.
skip() {
    echo "skipped $1: $2"
}

now() {
    echo $(($(date +%s%N) / 1000000))
}

# begin: the files as they are before a run.
begin() {
    rm -f objects saved.part
    cp old saved
    cp old display
}

# job IMAGE EVENTS SIZES STEPS LINE: the run that is tried from now on, with the line that it has to say, and what comes out where nothing
# fails.
job() {
    cp "$1" kept && cp "$1" image && cp "$2" events
    words="image events objects saved display $3 $4"
    line=$5
    begin
    "$loom" run $words >said 2>told
    tell 'nothing fails' "$([ "$(cat told)" = "$line" ] || echo "; it says '$(cat told)'")"
    mv saved whole && mv display picture
}

yes 'this is not an image' | head -n 100 >old
: >none

# The image of 0, with a purge now and then, so that objects go to WORK and come back all the time. It says `tick`, draws, and makes an
# object in each round.
"$loom" make 0 large 2>/dev/null || exit 1
for count in $(seq 100 100 3000); do
    echo "$count purge"
done >purges
job large purges '20480 512 8192' 3000 'ran 3000'

# why_not CODE LINE: why a run that was to end so, with SAVED and DISPLAY as they were and IMAGE unchanged, didn't. Where it was in saving, it
# may leave SAVED.part.
why_not() {
    [ "$code" = "$1" ] || echo "; it ended with $code, not $1"
    [ "$(cat told)" = "$2" ] || echo "; it says '$(cat told)', not '$2'"
    cmp -s saved old || echo '; SAVED was changed'
    cmp -s display old || echo '; DISPLAY was changed'
    cmp -s image kept || echo '; IMAGE was changed'
    is_begun now_said said || echo '; it said something else'
}

# why_not_whole: why a run that was to go through didn't.
why_not_whole() {
    [ "$code" = 0 ] || echo "; it ended with $code, not 0"
    [ "$(cat told)" = "$line" ] || echo "; it says '$(cat told)'"
    cmp -s saved whole || echo '; SAVED is another'
    cmp -s display picture || echo '; DISPLAY is another'
    cmp -s image kept || echo '; IMAGE was changed'
    cmp -s now_said said || echo '; it said something else'
}

# is_begun FILE WHOLE: whether a file has first bytes of another.
is_begun() {
    cmp -s -n "$(wc -c <"$1")" "$1" "$2" || [ ! -s "$1" ]
}

# try NAME COMMAND..: a run under a command, and whether it is refused for WORK.
try() {
    name=$1
    shift
    begin
    timeout 60 "$@" "$loom" run $words >now_said 2>told </dev/null
    code=$?
    tell "$name" "$(why_not 10 'work fault' | tr -d '\n')"
}

# try_whole NAME COMMAND..: a run under a command, and whether it goes through.
try_whole() {
    name=$1
    shift
    begin
    timeout 60 "$@" "$loom" run $words >now_said 2>told </dev/null
    code=$?
    tell "$name" "$(why_not_whole | tr -d '\n')"
}

# ---- a run that is killed

# kill_at MOMENT: a run that is killed so many thousandths of a second after its start.
kill_at() {
    "$loom" run $words >now_said 2>told </dev/null &
    run=$!
    sleep "$(printf '%d.%03d' $(($1 / 1000)) $(($1 % 1000)))"
    kill -9 "$run" 2>/dev/null
    wait "$run" 2>/dev/null
}

# kills NAME PREPARE LEFT: a hundred runs, killed at moments from the start to a little after the end, each begun by a command. SAVED has to
# be what LEFT says, a condition, or whole.
kills() {
    wrong=
    wholes=0
    for turn in $(seq 0 99); do
        begin
        eval "$2"
        kill_at $((turn * span / 90))
        if cmp -s saved whole; then
            wholes=$((wholes + 1))
        elif ! eval "$3"; then
            wrong="$wrong $turn"
        fi
        cmp -s image kept || wrong="$wrong $turn (IMAGE)"
        is_begun now_said said || wrong="$wrong $turn (what it said)"
    done 2>/dev/null
    tell "$1 (whole after $wholes)" "${wrong:+; wrong at the turns$wrong of 100}"
}

try_killed() {
    # How long a run takes, at most two seconds: the least of three, in thousandths of a second.
    span=2000
    for _ in 1 2 3; do
        begin
        begun=$(now)
        "$loom" run $words >now_said 2>told </dev/null
        taken=$(($(now) - begun + 5))
        [ "$taken" -gt "$span" ] || span=$taken
    done
    kills 'killed at a hundred moments, SAVED is a file' '' 'cmp -s saved old'
    kills 'killed at a hundred moments, SAVED is no file yet' 'rm saved' '[ ! -e saved ]'
    # What a killed run left in WORK and beside SAVED is no harm to the next.
    begin
    kill_at $((span / 2))
    cp old saved.part
    "$loom" run $words >now_said 2>told </dev/null
    code=$?
    tell 'a run after one that was killed' "$(why_not_whole | tr -d '\n')"
}

# ---- reads of WORK that fail

# A library that is loaded before the program's own: reads at a place, of the file `objects` alone, fail as FAULTS says. `at N` is the Nth
# alone, `every N` each Nth, with the number of an error; `short N` moves one byte in each Nth that was to move several.
library() {
    cat >reads.c <<'C'
#define _GNU_SOURCE
#include <dlfcn.h>
#include <errno.h>
#include <stdio.h>
#include <stdlib.h>
#include <string.h>
#include <sys/types.h>
#include <unistd.h>

static long calls, at, every, shorten;
static int ready, error;

static void prepare(void)
{
    const char *plan = getenv("FAULTS");
    ready = 1;
    if (plan) {
        sscanf(plan, "at %ld %d", &at, &error);
        sscanf(plan, "every %ld %d", &every, &error);
        sscanf(plan, "short %ld", &shorten);
    }
}

static void count(void)
{
    const char *path = getenv("FAULTS_COUNT");
    FILE *file = path ? fopen(path, "w") : NULL;
    if (file) {
        fprintf(file, "%ld\n", calls);
        fclose(file);
    }
}

static int is_work(int fd)
{
    char link[64], path[4096];
    ssize_t length;
    snprintf(link, sizeof link, "/proc/self/fd/%d", fd);
    length = readlink(link, path, sizeof path - 1);
    if (length < 8)
        return 0;
    path[length] = 0;
    return strcmp(path + length - 8, "/objects") == 0;
}

static ssize_t reads(const char *name, int fd, void *buffer, size_t size, off_t place)
{
    ssize_t (*real)(int, void *, size_t, off_t) = (ssize_t (*)(int, void *, size_t, off_t))dlsym(RTLD_NEXT, name);
    if (!ready)
        prepare();
    if (!is_work(fd))
        return real(fd, buffer, size, place);
    if (++calls == 1)
        atexit(count);
    if (calls == at || (every && calls % every == 0)) {
        errno = error;
        return -1;
    }
    if (shorten && calls % shorten == 0 && size > 1)
        size = 1;
    return real(fd, buffer, size, place);
}

ssize_t pread(int fd, void *buffer, size_t size, off_t place)
{
    return reads("pread", fd, buffer, size, place);
}

ssize_t pread64(int fd, void *buffer, size_t size, off_t place)
{
    return reads("pread64", fd, buffer, size, place);
}
C
    gcc -O1 -shared -fPIC -o reads.so reads.c -ldl 2>gcc.log
}

try_reads() {
    if ! library; then
        skip 'reads of WORK that fail' 'no compiler makes a library'
        return
    fi
    begin
    env LD_PRELOAD="$work/reads.so" FAULTS_COUNT=reads "$loom" run $words >/dev/null 2>&1 </dev/null
    if [ ! -s reads ]; then
        skip 'reads of WORK that fail' 'the program loads no library'
        return
    fi
    count=$(cat reads)
    echo "        a run reads WORK $count times"
    for turn in $(seq 0 39); do
        nth=$((1 + turn * (count - 1) / 39))
        try "read $nth of WORK fails" env LD_PRELOAD="$work/reads.so" FAULTS="at $nth 5"
    done
    for each in 1 2 10 "$count"; do
        try "each read of $each of WORK fails" env LD_PRELOAD="$work/reads.so" FAULTS="every $each 5"
    done
    for each in 2 3 100; do
        try_whole "each read of $each of WORK is interrupted" env LD_PRELOAD="$work/reads.so" FAULTS="every $each 4"
    done
    try 'each read of WORK is interrupted, for ever' env LD_PRELOAD="$work/reads.so" FAULTS="every 1 4"
    for each in 2 3 7; do
        try_whole "each read of $each of WORK comes short" env LD_PRELOAD="$work/reads.so" FAULTS="short $each"
    done
}

# ---- a disk that is full from a write to WORK on

try_writes() {
    trace="strace -f -o trace -P $work/objects"
    if ! $trace -e inject=pwrite64:error=ENOSPC:when=60000 true 2>/dev/null; then
        skip 'a disk that is full from a write to WORK on' 'no tracer runs'
        return
    fi
    begin
    $trace -e trace=pwrite64 "$loom" run $words >/dev/null 2>&1 </dev/null
    count=$(grep -c '^[0-9 ]*pwrite64(' trace)
    echo "        a run writes WORK $count times"
    for turn in $(seq 0 19); do
        nth=$((1 + turn * (count - 1) / 19))
        try "full from write $nth to WORK on" $trace -e trace=pwrite64 -e "inject=pwrite64:error=ENOSPC:when=$nth+"
    done
}

# ---- allocations that are refused

# A library that is loaded before the program's own: the Nth allocation is refused, with N in REFUSED; and how many there were stands in the
# file of REFUSED_COUNT.
refusing() {
    cat >refused.c <<'C'
#include <errno.h>
#include <stdio.h>
#include <stdlib.h>
#include <fcntl.h>
#include <unistd.h>

extern void *__libc_malloc(size_t);
extern void *__libc_realloc(void *, size_t);

static long calls, at = -1;

static int is_refused(void)
{
    if (at < 0) {
        const char *word = getenv("REFUSED");
        at = word ? atol(word) : 0;
    }
    if (++calls != at)
        return 0;
    errno = ENOMEM;
    return 1;
}

void *malloc(size_t size)
{
    return is_refused() ? NULL : __libc_malloc(size);
}

void *realloc(void *old, size_t size)
{
    return is_refused() ? NULL : __libc_realloc(old, size);
}

__attribute__((destructor)) static void tell(void)
{
    const char *path = getenv("REFUSED_COUNT");
    char line[32];
    int length = snprintf(line, sizeof line, "%ld\n", calls);
    int fd = path ? open(path, O_WRONLY | O_CREAT | O_TRUNC, 0666) : -1;
    if (fd >= 0 && write(fd, line, length) == length)
        close(fd);
}
C
    gcc -O1 -shared -fPIC -o refused.so refused.c 2>gcc.log
}

# growths NAME WORDS: a case of `fault_runs` with each allocation refused in turn. Each run has to say that it is whole, to end with 12, or
# with 1 where memory was refused outside of the run.
growths() {
    (cd "$top/crates/fault_runs/data" && env LD_PRELOAD="$work/refused.so" REFUSED_COUNT="$work/allocations" "$fault_runs" $2) >growth 2>&1
    count=$(cat allocations 2>/dev/null)
    wrong=
    refused=0
    [ "$(cat growth)" = whole ] && [ "${count:-0}" -gt 0 ] || wrong=' without one'
    for nth in $(seq 1 "${count:-0}"); do
        (cd "$top/crates/fault_runs/data" && exec env LD_PRELOAD="$work/refused.so" REFUSED="$nth" timeout 60 "$fault_runs" $2) >growth 2>/dev/null
        case $?:$(cat growth) in
            12:) refused=$((refused + 1)) ;;
            0:whole | 1:) ;;
            *) wrong="$wrong $nth" ;;
        esac
    done
    [ "$refused" -gt 0 ] || wrong="$wrong (none ended with 12)"
    tell "$1, each of ${count:-0} allocations refused: $refused ended with 12" "${wrong:+; wrong$wrong}"
}

# A run over real files with each allocation refused in turn. A file that can't be opened for want of memory is a fault. Where the answer is
# want of memory, nothing was said or all.
growths_of_files() {
    job "$top/crates/loom_images/data/hello.loom" none '4096 512 1024' 9999 'quit after 2056'
    begin
    env LD_PRELOAD="$work/refused.so" REFUSED_COUNT=allocations "$loom" run $words >/dev/null 2>&1 </dev/null
    count=$(cat allocations)
    wrong=
    refused=0
    for nth in $(seq 1 "$count"); do
        begin
        env LD_PRELOAD="$work/refused.so" REFUSED="$nth" timeout 60 "$loom" run $words >now_said 2>told </dev/null
        code=$?
        case $code in
            0) [ -z "$(why_not_whole)" ] || wrong="$wrong $nth" ;;
            9 | 10 | 11) cmp -s saved old || cmp -s saved whole || wrong="$wrong $nth" ;;
            12)
                refused=$((refused + 1))
                cmp -s saved old && cmp -s display old || wrong="$wrong $nth"
                [ ! -s now_said ] || cmp -s now_said said || wrong="$wrong $nth"
                ;;
            *) wrong="$wrong $nth" ;;
        esac
        cmp -s image kept || wrong="$wrong $nth (IMAGE)"
    done
    [ "$refused" -gt 0 ] || wrong="$wrong (none ended with 12)"
    tell "a run over files, each of $count allocations refused: $refused ended with 12" "${wrong:+; wrong$wrong}"
}

# A guarded run over real files with each allocation refused in turn: it ends well, by want of memory or by a fault, and what goes on from its
# vault finds the checkpoint that it said last or the next one, and none only where it said none. The counting image says its first number
# behind its first checkpoint, and is kept each 125 bytecodes.
growths_of_checkpoints() {
    "$loom" asm "$top/examples/counter.text" objects counter 2>/dev/null || { tell 'the counting image' '; it is not assembled'; return; }
    words="counter none objects guarded drawn 4096 512 1024 1000 vault"
    env LD_PRELOAD="$work/refused.so" REFUSED_COUNT=allocations "$loom" guard $words >/dev/null 2>&1 </dev/null
    count=$(cat allocations)
    wrong=
    refused=0
    for nth in $(seq 1 "$count"); do
        rm -f vault guarded drawn went_on
        env LD_PRELOAD="$work/refused.so" REFUSED="$nth" timeout 60 "$loom" guard $words >now_said 2>told </dev/null
        code=$?
        case $code in
            0 | 9 | 10 | 11 | 15) ;;
            12) refused=$((refused + 1)) ;;
            *) wrong="$wrong $nth" ;;
        esac
        said=$(wc -l <now_said)
        "$loom" resume vault none objects went_on drawn 4096 512 1024 0 >/dev/null 2>told </dev/null
        case $? in
            0)
                clock=$(dd if=went_on bs=1 skip=16 count=4 2>/dev/null | od -An -tu1 | awk '{ print (($1 * 256 + $2) * 256 + $3) * 256 + $4 }')
                was=$(((clock + 117) / 125))
                [ "$clock" -eq $((125 * was - 117)) ] && { [ "$was" -eq "$said" ] || [ "$was" -eq $((said + 1)) ]; } || wrong="$wrong $nth"
                ;;
            16) [ "$said" -eq 0 ] || wrong="$wrong $nth" ;;
            15) [ "$said" -eq 0 ] && [ ! -e vault ] || wrong="$wrong $nth" ;;
            *) wrong="$wrong $nth" ;;
        esac
    done
    [ "$refused" -gt 0 ] || wrong="$wrong (none ended with 12)"
    tell "a guarded run over files, each of $count allocations refused: $refused ended with 12" "${wrong:+; wrong$wrong}"
}

try_growths() {
    if ! refusing || ! LD_PRELOAD="$work/refused.so" true 2>/dev/null; then
        skip 'allocations that are refused' 'no compiler makes a library'
        return
    fi
    growths_of_files
    growths_of_checkpoints
    if [ ! -x "$fault_runs" ]; then
        skip 'allocations that are refused' "there is no program $fault_runs; rt ci builds it"
        return
    fi
    growths 'the base image' 'grow faults.cases 1'
    growths 'a message that nobody understands' 'grow faults.cases 2'
    growths 'a message that nobody understands, by a builder and one map' 'plain faults.cases 2'
    growths 'the base image by a builder, and two of its refusals' build
    growths 'a line and a picture' 'grow faults.cases 3'
    for number in 1 2 3 4 5; do
        growths "event file $number" "grow event_lines.cases $number"
    done
}

for part in $parts; do
    case $part in
        killed) try_killed ;;
        reads) try_reads ;;
        writes) try_writes ;;
        growths) try_growths ;;
        *) echo "faults: there is no part $part" >&2; exit 1 ;;
    esac
done

if [ "$failed" -gt 0 ]; then
    echo "faults: $passed passed, $failed failed"
    exit 1
fi
echo "faults: $passed passed"
