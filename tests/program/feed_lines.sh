#!/usr/bin/env bash
# Checks what examples/feed.py says of lines that are no record: their number, and what they should be.
. "$(dirname "$0")/../helpers/common.bash"

# says NAME LINES TEXT: checks that the lines are refused by this text, and that nothing is written.
says() {
    printf '%b' "$2" | python3 "$top/examples/feed.py" >"$work/out" 2>"$work/err"
    status=$?
    came "$1" 1 '' "feed.py: $3\n"
}

says "a line that begins otherwise" 'begn 1 abc\n' \
    'line 1: begn 1 abc: a line begins with version, begin, skeleton, put, end or flush'
says "a position that is no number" 'begin 1 abc\n# a line\n\nput 1 x y\n' \
    'line 4: put 1 x y: it should be put SERIAL POSITION PACKET [; ..]'
says "too few words" 'begin 1 abc\nput 1 5\n' 'line 2: put 1 5: it should be put SERIAL POSITION PACKET [; ..]'
says "a serial of more than 32 bits" 'end 4294967296\n' 'line 1: end 4294967296: it should be end SERIAL'
says "a quote that is left open" 'put 1 5 "x\n' 'line 1: put 1 5 "x: it should be put SERIAL POSITION PACKET [; ..]'

finish
