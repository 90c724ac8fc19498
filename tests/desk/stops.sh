#!/bin/sh
# Runs that an error stops, and the machine as it was before.
#
#     tests/desk/stops.sh [PROGRAM]
. "$(dirname "$0")/common.sh"

# A message that nobody understands.
try 'a stuck run'                    5 'run stuck.loom --on-stop before.loom' 'stuck: cause 5 after 2' 'NotUnderstood' '#plusTwo:' 'nil' 'process 62' 'before.loom'
absent 'a stuck run saves nothing'   stuck.loom.saved
"$st80" run stuck.loom --steps 2 --save two.loom >/dev/null 2>&1 </dev/null
same 'the machine before it'         before.loom two.loom
try 'the stack of it'                0 'show before.loom stack'             'method 64' 'on the stack: 1'
try 'it is told without a file'      5 'run stuck.loom'                     'NotUnderstood' '#plusTwo:'
"$st80" run stuck.loom --on-stop - >piped.loom 2>/dev/null </dev/null
same 'the machine before it, to standard output' piped.loom two.loom

# No name is left, after some were made and something was said; what was said isn't said again.
sed '1s/^loom [0-9]*/loom 4294966800/' factorial.text >spent.text
"$st80" asm spent.text spent.loom 2>/dev/null || exit 1
"$st80" run spent.loom >said 2>/dev/null </dev/null
"$st80" run spent.loom --on-stop named.loom >again 2>/dev/null </dev/null
same 'what was said is not said again' again said
[ -s said ]
tell 'something was said' "${?#0}"
try 'no name is left'                7 'run spent.loom --on-stop named.loom' 'names spent after' 'named.loom'
try 'the machine before that'        0 'show named.loom'                    'next name'

# A core that is too small: the first bytecode reads a field of an array of 5,000 numbers.
base=$top/crates/loom_images/data/base.loom
printf '\000\000\000\001' >zeros
for _ in 1 2 3 4 5 6 7 8 9 10 11 12 13; do
    cat zeros zeros >more && mv more zeros
done
cp "$base" wide.loom
patch wide.loom 11 '\033'
patch wide.loom 15 '\106'
patch wide.loom 31 '\022'
patch wide.loom 159 '\031'
patch wide.loom 556 '\000'
patch wide.loom 603 '\104'
{
    printf '\000\000\000\104\000\000\000\020\000\000\000\000\000\000\000\001\000\000\023\210'
    head -c 20000 zeros
} >>wide.loom
try 'a core that is too small'       6 'run wide.loom --no-save --core 4096 --on-stop cored.loom' 'core full after 0: object 68' '--core' 'cored.loom'
try 'with the core that is told'     0 'run wide.loom --no-save --core 16384 --steps 2' 'ran 2'

# A stop at the start has no machine before it.
sed 's/^8 .*/8 16 pointers 2 2/' tour.text >idle.text
if "$st80" asm idle.text idle.loom 2>/dev/null; then
    try 'a machine that does not start' 5 'run idle.loom --on-stop idle.before' 'after 0'
    absent 'there is none before it' idle.before
fi

# Guarded runs.
try 'a guarded run that is stuck'    5 'guard stuck.loom vault --on-stop guarded.loom' 'NotUnderstood' 'guarded.loom'
same 'the machine before that'       guarded.loom two.loom

finish
