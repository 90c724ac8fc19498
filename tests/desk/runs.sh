#!/bin/sh
# What a run of st80 says, writes and leaves, which files it touches, and streams in place of files.
#
#     tests/desk/runs.sh [PROGRAM]
. "$(dirname "$0")/common.sh"

cp hello.loom hello.kept

# A run, and what it leaves.
try 'a run'                          0 'run hello.loom'                     '$ loom run hello.loom /dev/null ' ' hello.loom.saved ' ' 65536 32767 8352 2147483647' 'quit after 2056' 'saved: hello.loom.saved'
same 'a run leaves its image'        hello.loom hello.kept
cp hello.loom.saved hello.after
try 'a run in a small core'          0 'run hello.loom --save small.loom --core 4096 --entries 512 --room 1024' ' 4096 512 1024 2147483647'
same 'the size of the core changes nothing' small.loom hello.after
rm -f hello.loom.saved
try 'a run that saves nothing'       0 'run hello.loom --no-save'           'quit after 2056'
absent 'nothing is saved'            hello.loom.saved
cp hello.loom over.loom
try 'a run in place'                 0 'run over.loom --in-place'           'saved: over.loom'
same 'in place the image is what was saved' over.loom hello.after
absent 'in place no other file comes' over.loom.saved
try 'so many bytecodes'              0 'run counter.loom --steps 1000 --save counted.loom' 'ran 1000' '00001'
try 'none'                           0 'run counter.loom --steps 0 --no-save' 'ran 0'
cp hello.loom "it's a name.loom"
try 'a name that a shell has to quote' 0 "run \"it's a name.loom\" --no-save" "'it'\\''s a name.loom'"
ln -s hello.loom by_link.loom
try 'an image by a link'             0 'run by_link.loom --save linked.loom' 'quit after 2056'
same 'by a link it is the same'      linked.loom hello.after

# Pictures.
try 'a picture as PBM'               0 'run hello.loom --no-save --picture drawn.pbm' 'picture: drawn.pbm, 64 by 32 pixels'
same 'the picture'                   drawn.pbm hello.pbm
try 'a picture as PNG'               0 'run hello.loom --no-save --picture drawn.png' 'picture: drawn.png, 64 by 32 pixels'
printf '\211PNG\r\n\032\n' >signature
head -c 8 drawn.png >begins
same 'the picture as PNG begins so'  begins signature
try 'no picture was shown'           0 'run counter.loom --steps 9 --no-save --picture none.pbm' 'none.pbm is empty'

# Streams. What the machine says goes to standard error where a file goes to standard output.
"$st80" run hello.loom --no-save --picture - >piped.pbm 2>notes </dev/null
same 'a picture to standard output'  piped.pbm hello.pbm
grep -qx loom notes
tell 'what is said beside a picture goes to standard error' "${?#0}"
"$st80" run hello.loom --save - >piped.loom 2>/dev/null </dev/null
same 'an image to standard output'   piped.loom hello.after
"$st80" run - --save piped.loom <hello.loom >said 2>/dev/null
same 'an image from standard input'  piped.loom hello.after
printf 'loom\n' >wanted
same 'what is said goes to standard output' said wanted
"$st80" asm hello.text - 2>/dev/null </dev/null | "$st80" run - --save - 2>/dev/null | cat >piped.loom
same 'a pipe of both'                piped.loom hello.after
"$st80" run sketch.loom --events sketch.events --save events.loom >/dev/null 2>&1 </dev/null
"$st80" run sketch.loom --events - --save piped.loom <sketch.events >/dev/null 2>&1
same 'events from standard input'    piped.loom events.loom
"$st80" list hello.loom >piped.text 2>/dev/null </dev/null
same 'a text to standard output'     piped.text hello.text
try 'a text into a file'             0 'list hello.loom listed.text'        'listed 80 objects'
same 'that text'                     listed.text hello.text
try 'an image of a text'             0 'asm listed.text assembled.loom'     'assembled 80 objects'
same 'that image'                    assembled.loom hello.kept
"$st80" make 0 - 2>/dev/null </dev/null >piped.loom
try 'a large image'                  0 'make 0 made.loom'                   'made 1327 objects'
same 'a large image to standard output' piped.loom made.loom
try 'a large image runs'             0 'run made.loom --steps 36966 --save ticked.loom' 'ran 36966' 'tick'

# Checkpoints.
try 'a guarded run'                  0 'guard counter.loom vault --steps 1000 --no-save' 'ran 1000' '00001'
try 'a resumed run'                  0 'resume vault --steps 1000 --save later.loom' 'ran 1000' 'saved: later.loom'
try 'the image of a checkpoint'      0 'resume vault --steps 0 --save now.loom' 'ran 0'
try 'a resumed run saves beside the vault' 0 'resume vault --steps 0'       'saved: vault.saved'

# Which files a run touches: those that its words name, and no others.
mkdir alone && cp hello.loom hello.text alone && cd alone
md5sum hello.loom hello.text >../sums
"$st80" run hello.loom --save a.loom --picture a.png >/dev/null 2>&1 </dev/null
"$st80" list hello.loom >/dev/null 2>&1 </dev/null
"$st80" show hello.loom >/dev/null 2>&1 </dev/null
"$st80" trace hello.loom >/dev/null 2>&1 </dev/null
"$st80" check hello.text >/dev/null 2>&1 </dev/null
"$st80" diff hello.loom a.loom >/dev/null 2>&1 </dev/null
ls -A >../files
md5sum --quiet -c ../sums >/dev/null 2>&1
tell 'what is read stays as it was' "${?#0}"
cd ..
printf 'a.loom\na.png\nhello.loom\nhello.text\n' >wanted
same 'no other file comes'           files wanted
[ -z "$(ls -A temporary)" ]
tell 'nothing is left in the temporary folder' "${?#0}"
if command -v strace >/dev/null && strace -o trace true 2>/dev/null; then
    strace -f -o trace -e trace=openat,mkdir,mkdirat,rename,unlink "$st80" run hello.loom --save a.loom >/dev/null 2>&1 </dev/null
    grep -q 'mkdir.*st80.*0700' trace
    tell 'the folder of a run is for its user alone' "${?#0}"
    grep -E 'O_(WRONLY|RDWR|CREAT)' trace | grep -vE '"[^"]*(/temporary/st80\.[^"]*|a\.loom(\.part|\.try)?|/dev/(\.\./dev/)*null)"' >others
    why=
    [ ! -s others ] || why="; $(head -n 3 others)"
    tell 'only these files are opened to be written' "$why"
else
    skip 'which files are opened' 'there is no strace that works here'
fi
mkdir elsewhere
TMPDIR=$work/nowhere "$st80" run hello.loom --no-save >said 2>&1 </dev/null
code=$?
why=
[ "$code" = 22 ] && grep -q nowhere said || why="; it ended with $code: $(cat said)"
tell 'a temporary folder that is not there' "$why"

# Streams that are closed.
"$st80" run hello.loom --no-save >&- 2>notes </dev/null
code=$?
why=
[ "$code" = 11 ] && grep -q 'write fault: Transcript' notes || why="; it ended with $code: $(cat notes)"
tell 'standard output is closed' "$why"
"$st80" run hello.loom --save closed.loom >/dev/null 2>&- <&-
why=
cmp -s closed.loom hello.after || why='; it saved nothing right'
tell 'the other streams are closed' "$why"

finish
