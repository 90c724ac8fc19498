#!/bin/sh
# What is shown of images, texts and runs, and pictures.
#
#     tests/desk/looks.sh [PROGRAM]
. "$(dirname "$0")/common.sh"

# Images.
try 'an image'                       0 'show hello.loom'                    'an image of version 2: 80 objects' 'MethodContext (22)' 'processes'
try 'an object'                      0 'show hello.loom 66'                 '66: a MethodContext 66' 'held by'
try 'a class'                        0 'show hello.loom class String'       'class String (14)'
try 'the processes'                  0 'show semaphore.loom processes'      'priority 1' 'priority 2'
try 'the stack'                      0 'show hello.loom stack'              'method 64' 'receiver: nil'
try 'the counts'                     0 'show hello.loom counts'             'pointers 29'
printf '64 start\n130 Number\n' >hello.loom.names
try 'names beside the image'         0 'show hello.loom 64'                 'start'
rm hello.loom.names
printf '64 begin\n' >names
try 'names by a word'                0 'show hello.loom 64 --names names'   'begin'
printf 'sixty-four begin\n' >names
try 'names that are none'            21 'show hello.loom 64 --names names'  'names: line 1'
try 'no such names'                  21 'show hello.loom 64 --names nothere' 'nothere'
"$st80" show - <hello.loom >said 2>&1
"$st80" show hello.loom >wanted 2>&1 </dev/null
same 'an image from standard input'  said wanted

# Two images.
"$st80" run hello.loom --save after.loom >/dev/null 2>&1 </dev/null
try 'an image and itself'            0 'diff hello.loom hello.loom'
try 'an image and what comes of it'  24 'diff hello.loom after.loom'        'clock: 0 became 2056' '66: a MethodContext 66' 'differ'

# Checks.
try 'a right image'                  0 'check hello.loom'                   'breaks no rule'
try 'a right text'                   0 'check hello.text'                   'breaks no rule'
try 'a wrong count'                  3 'check count.loom'                   'rule 11'
try 'a cut image'                    3 'check cut.loom'                     'Rule 9'
for example in blit tour counter factorial semaphore sketch; do
    try "the example $example"       0 "check $example.loom"                   'breaks no rule'
    try "the text of the example $example" 0 "check $example.text"                'breaks no rule'
done

# Traces.
try 'a trace'                        0 'trace hello.loom --to 8'            'push receiver' 'send #say:, 1 argument' 'ran 8'
"$st80" trace hello.loom --to 2000 >lines 2>/dev/null </dev/null
[ "$(grep -c 'method 64\|Array>>' lines)" -eq 2000 ]
tell 'a line for each bytecode' "${?#0}"
try 'a trace from a bytecode on'     0 'trace hello.loom --from 5 --to 8'   '       5  ' '       8  '
try 'sends alone'                    0 'trace factorial.loom --sends --to 200' 'send #factorial' 'ran 200'
"$st80" trace factorial.loom --sends --to 200 >lines 2>/dev/null </dev/null
! grep -q 'push receiver' lines
tell 'sends alone have no pushes' "${?#0}"
try 'a trace of a stuck machine'     5 'trace stuck.loom'                   'send #plusTwo:' 'stuck: cause 5 after 2'
try 'a trace to its end'             0 'trace hello.loom --to 9999'         'quit after 2056'
"$st80" trace - --to 8 <hello.loom >said 2>/dev/null
"$st80" trace hello.loom --to 8 >wanted 2>/dev/null </dev/null
same 'a trace from standard input'   said wanted

# Pictures.
try 'a picture in the terminal'      0 'picture hello.pbm'                  '█'
try 'a small one'                    0 'picture hello.pbm --width 16'       '█'
try 'a picture as PNG'               0 'picture hello.pbm hello.png --scale 4'
if command -v python3 >/dev/null; then
    python3 - <<'END' >said 2>&1
import struct, zlib
def read(name):
    data = open(name, 'rb').read()
    assert data[:8] == b'\x89PNG\r\n\x1a\n'
    place, body, head = 8, b'', None
    while place < len(data):
        size, kind = struct.unpack('>I4s', data[place:place + 8])
        part = data[place + 8:place + 8 + size]
        assert zlib.crc32(kind + part) == struct.unpack('>I', data[place + 8 + size:place + 12 + size])[0]
        if kind == b'IHDR': head = struct.unpack('>IIBBBBB', part)
        if kind == b'IDAT': body += part
        place += 12 + size
    return head, zlib.decompress(body)
head, rows = read('hello.png')
assert head[:4] == (256, 128, 1, 0), head
pbm = open('hello.pbm', 'rb').read().split(b'\n', 2)[2]
for y in range(128):
    assert rows[y * 33] == 0
    for x in range(256):
        shown = rows[y * 33 + 1 + x // 8] >> (7 - x % 8) & 1
        drawn = pbm[y // 4 * 8 + x // 4 // 8] >> (7 - x // 4 % 8) & 1
        assert shown == 1 - drawn, (x, y)
print('right')
END
    [ "$(cat said)" = right ]
    tell 'the picture as PNG, pixel by pixel' "${?#0}"
else
    skip 'the picture as PNG' 'there is no python3'
fi
"$st80" picture hello.pbm - >piped.png 2>/dev/null </dev/null
try 'a PNG of its size'              0 'picture hello.pbm plain.png'
same 'a PNG to standard output'      piped.png plain.png

# The manual.
try 'the manual'                     0 'manual'                             'SYNOPSIS' 'st80 run hello.loom --picture hello.png' 'EXIT CODES'

finish
