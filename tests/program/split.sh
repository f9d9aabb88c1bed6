#!/usr/bin/env bash
# Links and streams are cut out of files, and the good pages of damaged files are listed.
. "$(dirname "$0")/../helpers/common.bash"

# Two streams whose pages alternate, a packet over two pages, and another link after them.
pages "02 0 1 0 3 abc" "02 0 2 0 3 abc" "00 -1 1 1 255*255 y*65025" "00 7 2 1 1 x" "05 9 1 2 255*19,130 y*4975" "04 7 2 2 - -" \
    "02 0 1 0 2 de" >"$work/two.ogg"
pages "02 0 1 0 3 abc" "00 -1 1 1 255*255 y*65025" "05 9 1 2 255*19,130 y*4975" >"$work/first"
pages "02 0 2 0 3 abc" "00 7 2 1 1 x" "04 7 2 2 - -" >"$work/second"
pages "02 0 1 0 2 de" >"$work/third"
head -c 70447 "$work/two.ogg" >"$work/link"

run links "$work/two.ogg"
came "links" 0 'committed 70477\nlink 0 0 70447 2\nstream 1 70360 3 ended\nstream 2 87 3 ended\nlink 1 70447 30 1\nstream 1 30 1 open\n' ''

# cut NAME WANT WORD ..: checks that what split writes is this file.
cut() { writes split "$@"; }
cut "a link" "$work/link" "$work/two.ogg" 0
cut "its first stream" "$work/first" "$work/two.ogg" 0 1
cut "its second stream" "$work/second" "$work/two.ogg" 0 2
cut "the next link" "$work/third" "$work/two.ogg" 1
cut "its stream, whose serial was there before" "$work/third" "$work/two.ogg" 1 1
run split "$work/two.ogg" 2
came "no such link" 1 '' 'fault split 1 NoLink\n'
run split "$work/two.ogg" 1 2
came "no such stream" 1 '' 'fault split 2 NoStream\n'
run split "$work/two.ogg" x
check "a link that is no number: status $status" [ "$status" -eq 2 ]
run split "$work/none.ogg" 0
came "no such file" 1 '' 'fault file\n'
"$program" split "$work/two.ogg" 0 >/dev/full 2>"$work/err"
check "no room for pages: status" [ $? -eq 1 ]
check "no room for pages: the fault" is_text "$work/err" 'fault split 4 Write\n'
"$program" links "$work/two.ogg" >/dev/full 2>"$work/err"
check "no room for a listing: status" [ $? -eq 1 ]
check "no room for a listing: the fault" is_text "$work/err" 'fault write\n'

# A tail is no part of the file.
{ cat "$work/two.ogg"; printf '\0\0tail'; } >"$work/tail.ogg"
cp "$work/tail.ogg" "$work/was.ogg"
cut "before a tail" "$work/link" "$work/tail.ogg" 0
check "before a tail: untouched" cmp "$work/tail.ogg" "$work/was.ogg"

# Each front of a file of three pages, of 31, 33 and 27 bytes, is cut off: what is left of a page after one byte is
# damage.
pages "02 0 1 0 3 abc" "00 5 1 1 5 hello" "04 5 1 2 - -" >"$work/sealed"
ends=(0 31 64 91)
streams=('' 'stream 1 31 1 open\n' 'stream 1 64 2 open\n' 'stream 1 91 3 ended\n')
for size in $(seq 0 91); do
    whole=0
    [ "$size" -lt 31 ] || whole=1
    [ "$size" -lt 64 ] || whole=2
    [ "$size" -lt 91 ] || whole=3
    end=${ends[whole]}
    head -c "$size" "$work/sealed" >"$work/front"
    run links "$work/front"
    if [ "$((size - end))" -gt 1 ]; then
        came "the first $size bytes" 1 '' "fault open 2 Page $end 1 Short\n"
    elif [ "$end" -eq 0 ]; then
        came "the first $size bytes" 0 'committed 0\n' ''
    else
        came "the first $size bytes" 0 "committed $end\nlink 0 0 $end 1\n${streams[whole]}" ''
    fi
done

# Good pages are listed before damage and after it; a page inside a packet is listed only if the outer page is damaged.
pages "02 0 1 0 3 abc" "00 5 1 1 5 hello" "04 5 1 2 - -" >"$work/bad.ogg"
printf H | dd of="$work/bad.ogg" bs=1 seek=59 conv=notrunc status=none
run salvage "$work/bad.ogg"
came "a damaged page" 0 '0 31\n64 27\n' ''
python3 - "$here" >"$work/inside.ogg" <<'END'
import sys
sys.path.insert(0, sys.argv[1])
from pages import page
inner = page(2, 0, 1, 0, [3], b"abc")
sys.stdout.buffer.write(inner + page(0, 5, 1, 1, [len(inner)], inner))
END
run salvage "$work/inside.ogg"
came "a page in a packet" 0 '0 31\n31 59\n' ''
printf x | dd of="$work/inside.ogg" bs=1 seek=31 conv=notrunc status=none
run salvage "$work/inside.ogg"
came "a page in a packet of a damaged page" 0 '0 31\n59 31\n' ''
run salvage "$work/tail.ogg"
check "a tail: status" [ "$status" -eq 0 ]
check "a tail: all pages" [ "$(wc -l <"$work/out")" -eq 7 ]
: >"$work/empty"
run salvage "$work/empty"
came "an empty file" 0 '' ''
run salvage "$work"
came "a folder" 1 '' 'fault file\n'
"$program" salvage "$work/two.ogg" >/dev/full 2>"$work/err"
check "no room for lines: status" [ $? -eq 1 ]
check "no room for lines: the fault" is_text "$work/err" 'fault write\n'

check "good pages of many files" timeout 300 python3 "$here/salvaging.py" "$program"

finish
