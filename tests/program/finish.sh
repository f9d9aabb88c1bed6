#!/usr/bin/env bash
# Files are written so that players stop at the right sample: an ended stream ends on a page with a packet.
. "$(dirname "$0")/../helpers/common.bash"

# becomes NAME WANT WORD ..: checks that what finish writes is this file.
becomes() { writes finish "$@"; }

# becomes_pages NAME: takes the pages of a file from standard input, a blank line, and the pages that the file becomes.
becomes_pages() {
    local name=$1 line
    local -a before=() after=()
    while IFS= read -r line && [ -n "$line" ]; do before+=("$line"); done
    while IFS= read -r line; do after+=("$line"); done
    pages "${before[@]}" >"$work/before.ogg"
    pages "${after[@]}" >"$work/after.ogg"
    becomes "$name" "$work/after.ogg" "$work/before.ogg"
    becomes "$name, again" "$work/after.ogg" "$work/after.ogg"
}

becomes_pages "an ended stream" <<'END'
02 0 1 0 3 abc
00 7 1 1 5 hello
04 7 1 2 - -

02 0 1 0 3 abc
04 7 1 1 5 hello
END
becomes_pages "an end that tells no position" <<'END'
02 0 1 0 3 abc
00 7 1 1 5 hello
04 -1 1 2 - -

02 0 1 0 3 abc
04 7 1 1 5 hello
END
becomes_pages "an end that tells a position of its own" <<'END'
02 0 1 0 3 abc
00 7 1 1 5 hello
04 5 1 2 - -

02 0 1 0 3 abc
00 7 1 1 5 hello
04 5 1 2 - -
END
becomes_pages "a position of its own between" <<'END'
02 0 1 0 3 abc
00 7 1 1 5 hello
00 8 1 2 - -
04 7 1 3 - -

02 0 1 0 3 abc
00 7 1 1 5 hello
00 8 1 2 - -
04 7 1 3 - -
END
becomes_pages "an open stream" <<'END'
02 0 1 0 3 abc
00 7 1 1 5 hello
00 7 1 2 - -

02 0 1 0 3 abc
00 7 1 1 5 hello
00 7 1 2 - -
END
becomes_pages "no page but the first, and an end" <<'END'
02 0 1 0 3 abc
04 0 1 1 - -

02 0 1 0 3 abc
04 0 1 1 - -
END
becomes_pages "one page that is first and last" <<'END'
06 0 1 0 3 abc
02 0 2 0 3 abc

06 0 1 0 3 abc
02 0 2 0 3 abc
END
becomes_pages "headers alone" <<'END'
02 0 1 0 3 abc
00 0 1 1 2,2 abcd
04 0 1 2 - -

02 0 1 0 3 abc
04 0 1 1 2,2 abcd
END
becomes_pages "an empty packet at the end" <<'END'
02 0 1 0 3 abc
00 7 1 1 5 hello
00 9 1 2 0 -
04 9 1 3 - -

02 0 1 0 3 abc
00 7 1 1 5 hello
04 9 1 2 0 -
END
becomes_pages "two streams in turn, one of them open, and another link" <<'END'
02 0 1 0 3 abc
02 0 2 4 3 abc
00 -1 1 1 255*255 y*65025
00 7 2 5 1 x
01 9 1 2 255*19,130 y*4975
04 7 2 6 - -
00 9 1 3 - -
04 9 1 4 - -
02 0 1 0 2 de
80 3 1 1 2 de

02 0 1 0 3 abc
02 0 2 4 3 abc
00 -1 1 1 255*255 y*65025
04 7 2 5 1 x
05 9 1 2 255*19,130 y*4975
02 0 1 0 2 de
80 3 1 1 2 de
END
becomes_pages "flags of others stay" <<'END'
02 0 1 0 3 abc
f8 7 1 1 1 x
04 7 1 2 - -

02 0 1 0 3 abc
fc 7 1 1 1 x
END
becomes_pages "the greatest number" <<'END'
02 0 1 4294967293 3 abc
00 7 1 4294967294 1 x
04 7 1 4294967295 - -

02 0 1 4294967293 3 abc
04 7 1 4294967294 1 x
END

# One link of two, from a file with a tail; the file stays.
pages "02 0 1 0 3 abc" "00 7 1 1 1 x" "04 7 1 2 - -" "02 0 2 0 3 abc" "00 9 2 1 1 y" "04 9 2 2 - -" >"$work/two.ogg"
printf '\0\0tail' >>"$work/two.ogg"
cp "$work/two.ogg" "$work/was.ogg"
pages "02 0 1 0 3 abc" "04 7 1 1 1 x" >"$work/first"
pages "02 0 2 0 3 abc" "04 9 2 1 1 y" >"$work/second"
becomes "the first link" "$work/first" "$work/two.ogg" 0
becomes "the second link" "$work/second" "$work/two.ogg" 1
cat "$work/first" "$work/second" >"$work/both"
becomes "both links" "$work/both" "$work/two.ogg"
check "the file is untouched" cmp "$work/two.ogg" "$work/was.ogg"
: >"$work/empty"
becomes "no links" "$work/empty" "$work/empty"
run finish "$work/two.ogg" 2
came "no such link" 1 '' 'fault finish 1 NoLink\n'
run finish "$work/none.ogg"
came "no such file" 1 '' 'fault file\n'
run finish "$work/two.ogg" x
check "a link that is no number: status $status" [ "$status" -eq 2 ]
run finish
check "no file: status $status" [ "$status" -eq 2 ]
run finish --help
check "help: status $status" [ "$status" -eq 2 ]
check "help: an example" grep -qF 'kudzuturret finish radio.ogg > ' "$work/err"
"$program" finish "$work/two.ogg" >/dev/full 2>"$work/err"
check "no room for pages: status" [ $? -eq 1 ]
check "no room for pages: the fault" is_text "$work/err" 'fault finish 4 Write\n'
printf 'OggX' | cat "$work/first" - >"$work/damaged.ogg"
printf H | dd of="$work/damaged.ogg" bs=1 seek=40 conv=notrunc status=none
run finish "$work/damaged.ogg"
came "a damaged page" 1 '' 'fault open 2 Page 31 4 Checksum\n'

# Our own feeds are finished, one of them with a Skeleton, whose end has a packet.
for name in hello streams; do
    "$program" mux <"$top/examples/$name.feed" >"$work/$name.ogg" 2>"$work/replies"
    python3 "$here/finishing.py" all "$work/$name.ogg" >"$work/want"
    becomes "examples/$name.feed" "$work/want" "$work/$name.ogg"
done
printf '%s\n' 'skeleton 9 ; 1 audio/vorbis 44100/1 abc def' 'put 1 5 hello' 'put 1 7 hello' 'end 1' 'begin 2 abc' 'end 2' |
    feed >"$work/feed"
"$program" mux <"$work/feed" >"$work/told.ogg" 2>"$work/replies"
python3 "$here/finishing.py" all "$work/told.ogg" >"$work/want"
becomes "with a Skeleton" "$work/want" "$work/told.ogg"
check "with a Skeleton: one page goes" [ $(($(stat -c %s "$work/told.ogg") - $(stat -c %s "$work/want"))) -eq 27 ]
run links "$work/want"
check "with a Skeleton: all have ended" [ "$(grep -c ' ended$' "$work/out")" -eq 3 ]

check "many files" timeout 300 python3 "$here/finishing.py" compare "$program"

finish
