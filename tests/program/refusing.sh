#!/usr/bin/env bash
# Each request for memory is refused in turn: the program says so, and what it took before stands.
. "$(dirname "$0")/../helpers/common.bash"

cc -O2 -shared -fPIC -D_GNU_SOURCE -o "$work/refusing.so" "$here/refusing.c" || exit 1
pages "02 0 1 0 3 abc" "02 0 2 0 3 abc" "00 -1 1 1 255*255 y*65025" "00 7 2 1 1 x" "05 9 1 2 255*19,130 y*4975" "04 7 2 2 - -" >"$work/row.ogg"
check "each request for memory" timeout 1000 python3 "$here/refusing.py" "$program" "$work/refusing.so" "$work"

finish
