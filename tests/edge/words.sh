#!/bin/sh
# Tries the program at its edge: words that are missing, extra or bad.
#
#     tests/edge/words.sh [PROGRAM]
. "$(dirname "$0")/common.sh"

# Words that are missing, extra or bad.
display=old
files='base.loom none.events objects saved.loom display.pbm'
not_text=$(printf '\377')
try 'no words'                          '' ''                                        2 'usage: word 1' saved.loom old.loom
try 'one word'                          '' 'run'                                     2 'usage: word 2' saved.loom old.loom
try 'two words'                         '' 'run base.loom'                           2 'usage: word 3' saved.loom old.loom
try 'three words'                       '' 'run base.loom none.events'               2 'usage: word 4' saved.loom old.loom
try 'four words'                        '' 'run base.loom none.events objects'       2 'usage: word 5' saved.loom old.loom
try 'five words'                        '' 'run base.loom none.events objects saved.loom' 2 'usage: word 6' saved.loom old.loom
try 'six words'                         '' 'run $files'                              2 'usage: word 7' saved.loom old.loom
try 'seven words'                       '' 'run $files 4096'                         2 'usage: word 8' saved.loom old.loom
try 'eight words'                       '' 'run $files 4096 512'                     2 'usage: word 9' saved.loom old.loom
try 'nine words'                        '' 'run $files 4096 512 1024'                2 'usage: word 10' saved.loom old.loom
try 'eleven words'                      '' "$good 2"                                 2 'usage: word 11' saved.loom old.loom
try 'the five words of an image, events and two files' '' 'run base.loom none.events saved.loom display.pbm 2' 2 'usage: word 7' saved.loom old.loom
try 'another command'                   '' '--help'                                  2 'usage: word 1' saved.loom old.loom
try 'the version'                       '' '--version'                               2 'usage: word 1' saved.loom old.loom
try 'a command in capitals'             '' 'RUN $files $sizes 2'                     2 'usage: word 1' saved.loom old.loom
try 'CORE is too small'                 '' 'run $files 4095 512 1024 2'              2 'usage: word 7' saved.loom old.loom
try 'CORE is too large'                 '' 'run $files 16777217 512 1024 2'          2 'usage: word 7' saved.loom old.loom
try 'CORE with a leading zero'          '' 'run $files 04096 512 1024 2'             2 'usage: word 7' saved.loom old.loom
try 'ENTRIES is too small'              '' 'run $files 4096 511 1024 2'              2 'usage: word 8' saved.loom old.loom
try 'ENTRIES is too large'              '' 'run $files 4096 32768 1024 2'            2 'usage: word 8' saved.loom old.loom
try 'ENTRIES with a sign'               '' 'run $files 4096 +512 1024 2'             2 'usage: word 8' saved.loom old.loom
try 'ROOM is too small'                 '' 'run $files 4096 512 1023 2'              2 'usage: word 9' saved.loom old.loom
try 'ROOM is too large'                 '' 'run $files 4096 512 1048577 2'           2 'usage: word 9' saved.loom old.loom
try 'ROOM is empty'                     '' 'run $files 4096 512 "" 2'                2 'usage: word 9' saved.loom old.loom
try 'STEPS with a leading zero'         '' 'run $files $sizes 02'                    2 'usage: word 10' saved.loom old.loom
try 'STEPS with a sign'                 '' 'run $files $sizes -1'                    2 'usage: word 10' saved.loom old.loom
try 'STEPS is too large'                '' 'run $files $sizes 2147483648'            2 'usage: word 10' saved.loom old.loom
try 'STEPS is empty'                    '' 'run $files $sizes ""'                    2 'usage: word 10' saved.loom old.loom
try 'WORK is IMAGE'                     '' 'run base.loom none.events base.loom saved.loom display.pbm $sizes 2' 2 'usage: word 4' saved.loom old.loom
try 'WORK is EVENTS'                    '' 'run base.loom good.events good.events saved.loom display.pbm $sizes 2' 2 'usage: word 4' saved.loom old.loom
try 'WORK is SAVED'                     '' 'run base.loom none.events saved.loom saved.loom display.pbm $sizes 2' 2 'usage: word 5' saved.loom old.loom
try 'WORK is DISPLAY'                   '' 'run base.loom none.events display.pbm saved.loom display.pbm $sizes 2' 2 'usage: word 6' saved.loom old.loom
try 'DISPLAY is IMAGE'                  '' 'run base.loom none.events objects saved.loom base.loom $sizes 2' 2 'usage: word 6' saved.loom old.loom
try 'DISPLAY is EVENTS'                 '' 'run base.loom none.events objects saved.loom none.events $sizes 2' 2 'usage: word 6' none.events empty
try 'DISPLAY is SAVED'                  '' 'run base.loom none.events objects saved.loom saved.loom $sizes 2' 2 'usage: word 6' saved.loom old.loom
try 'DISPLAY is IMAGE, STEPS is bad'    '' 'run base.loom none.events objects saved.loom base.loom $sizes x' 2 'usage: word 6' saved.loom old.loom
try 'DISPLAY is IMAGE, no STEPS'        '' 'run base.loom none.events objects saved.loom base.loom $sizes' 2 'usage: word 6' saved.loom old.loom
try 'WORK is IMAGE, and so is DISPLAY'  '' 'run base.loom none.events base.loom saved.loom base.loom $sizes 2' 2 'usage: word 4' saved.loom old.loom
try 'a word that is no text'            '' 'run base.loom none.events objects saved.loom display.pbm $sizes "$not_text"' 2 'usage: word 1' saved.loom old.loom

finish
