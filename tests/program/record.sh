#!/usr/bin/env bash
# Recordings in real files are made, continued, sealed, kept in groups, on a full device, and after the program was
# killed.
. "$(dirname "$0")/../helpers/common.bash"

# size FILE WANT: checks the size of a file.
size() { check "$1: $(wc -c <"$1") bytes, not $2" [ "$(wc -c <"$1")" -eq "$2" ]; }

ogg=$work/one.ogg
pages "02 0 1 0 3 abc" "00 5 1 1 5 hello" "04 5 1 2 - -" >"$work/pages"

# A file is made, and the next run continues it: counts begin again, and lengths go on.
records 'begin([1])' >"$work/feed"
run record "$ogg" <"$work/feed"
came "a new file" 0 'kept 1 31\n' ''
size "$ogg" 32
records 'put([(1, 5, b"hello")]), put([(1, 4, b"x")]), put([(7, 5, b"x")])' >"$work/feed"
run record "$ogg" <"$work/feed"
came "continued" 0 'kept 1 64\nrefused 15 PositionBack\nrefused 12 UnknownSerial\n' ''
size "$ogg" 65
records 'end(1), end(1)' >"$work/feed"
run record "$ogg" --seal <"$work/feed"
came "sealed" 0 'kept 1 91\nrefused 3 NoLink\n' ''
check "sealed: the pages, and no more" cmp "$ogg" "$work/pages"
run record "$ogg" </dev/null
came "no record" 0 '' ''
size "$ogg" 92
records 'begin([1]), begin([2])' >"$work/feed"
run record "$ogg" <"$work/feed"
came "another link" 0 'refused 6 SerialTaken\nkept 1 122\n' ''
run links "$ogg"
came "listed" 0 'committed 122\nlink 0 0 91 1\nstream 1 91 3 ended\nlink 1 91 31 1\nstream 2 31 1 open\n' ''

# What mux writes is what record keeps.
"$program" mux <"$top/examples/streams.feed" >"$work/streams.ogg" 2>"$work/replies"
run record "$work/again.ogg" --seal <"$top/examples/streams.feed"
check "as mux: status" [ "$status" -eq 0 ]
check "as mux: replies" cmp "$work/out" "$work/replies"
check "as mux: pages" cmp "$work/again.ogg" "$work/streams.ogg"

# Groups: what waits is kept by the end of its group, by a flush, or by the feed's end.
records 'begin([1]), put([(1, 5, b"hello")]), put([(7, 5, b"x")]), flush(), end(1)' >"$work/feed"
run record "$work/group.ogg" --group 8 --seal <"$work/feed"
came "a group of 8" 0 'held 1\nheld 2\nrefused 12 UnknownSerial\nkept 2 64\nheld 3\nkept 3 91\n' ''
check "a group of 8: pages" cmp "$work/group.ogg" "$work/pages"
run record "$work/three.ogg" --group 3 <"$work/feed"
came "a group of 3" 0 'held 1\nheld 2\nrefused 12 UnknownSerial\nkept 2 64\nheld 3\nkept 3 91\n' ''
for most in 0 1025 x; do
    run record "$work/none.ogg" --group "$most" <"$work/feed"
    check "--group $most: status $status, not 2" [ "$status" -eq 2 ]
    check "--group $most: no file is made" [ ! -e "$work/none.ogg" ]
done

# A feed's fault is printed after what was kept; what waited is kept too, and nothing is sealed.
head -c 85 "$top/examples/hello.feed" >"$work/feed"
run record "$work/cut.ogg" --group 8 --seal <"$work/feed"
came "a feed that is cut" 1 'held 1\nheld 2\nkept 2 64\n' 'fault feed 1 Truncated\n'
size "$work/cut.ogg" 65

# Files that can't be recorded into are left as they are.
cp "$work/pages" "$work/bad.ogg"
printf H | dd of="$work/bad.ogg" bs=1 seek=59 conv=notrunc status=none
cp "$work/bad.ogg" "$work/was.ogg"
run record "$work/bad.ogg" <"$top/examples/hello.feed"
came "a damaged page" 1 '' 'fault open 2 Page 31 4 Checksum\n'
check "a damaged page: untouched" cmp "$work/bad.ogg" "$work/was.ogg"
run links "$work/bad.ogg"
came "a damaged page, listed" 1 '' 'fault open 2 Page 31 4 Checksum\n'
pages "02 0 1 0 3 abc" "00 0 1 2 1 x" >"$work/gap.ogg"
run record "$work/gap.ogg" <"$top/examples/hello.feed"
came "a gap in the numbers" 1 '' 'fault open 4 Chain 31 1 Sequence\n'
run links "$work/gap.ogg"
came "a gap in the numbers, listed" 1 '' 'fault index 2 Chain 31 1 Sequence\n'
pages "02 0 1 0 3 abc" "00 -1 1 1 255 x*255" >"$work/open.ogg"
run record "$work/open.ogg" <"$top/examples/hello.feed"
came "an unfinished packet" 1 '' 'fault open 5 Unfinished 1\n'
run links "$work/open.ogg"
came "an unfinished packet, listed" 0 'committed 314\nlink 0 0 314 1\nstream 1 314 2 open\n' ''
run record "$work" <"$top/examples/hello.feed"
came "a folder" 1 '' 'fault file\n'
run record "$work/none/one.ogg" <"$top/examples/hello.feed"
came "no such folder" 1 '' 'fault file\n'
# A folder that nobody may write to is tried by someone who isn't root.
mkdir "$work/shut"
[ "$program" -ef "$work/program" ] || cp "$program" "$work/program"
chmod 755 "$work"
chmod 555 "$work/shut"
nobody=()
[ "$(id -u)" -ne 0 ] || nobody=(setpriv --reuid 65534 --clear-groups)
timeout 20 "${nobody[@]}" "$work/program" record "$work/shut/one.ogg" <"$top/examples/hello.feed" >"$work/out" 2>"$work/err"
status=$?
came "a folder that is shut" 1 '' 'fault file\n'
check "a folder that is shut: no file is made" [ ! -e "$work/shut/one.ogg" ]
run record /dev/full <"$top/examples/hello.feed"
came "no regular file" 1 '' 'fault open 1 Disk\n'
run links "$work/none.ogg"
came "no such file, listed" 1 '' 'fault file\n'
check "no such file, listed: none is made" [ ! -e "$work/none.ogg" ]
run links "$work"
came "a folder, listed" 1 '' 'fault open 1 Disk\n'

# After a device is full, what was kept before is found again. Files of at most 8 blocks of 1,024 bytes stand for the
# device.
records 'begin([1]), *(put([(1, n, bytes([n]) * 1000)]) for n in range(20))' >"$work/feed"
(
    trap '' XFSZ
    ulimit -f 8
    run record "$work/full.ogg" <"$work/feed"
    cp "$work/out" "$work/full.out"
    cp "$work/err" "$work/full.err"
    exit "$status"
)
check "a full device: status" [ $? -eq 1 ]
check "a full device: the first refusal" [ "$(grep -m 1 refused "$work/full.out")" = "refused 21 Disk" ]
check "a full device: the others" [ "$(grep -c '^refused 1 Failed' "$work/full.out")" -eq "$(($(grep -c refused "$work/full.out") - 1))" ]
check "a full device: the fault" is_text "$work/full.err" 'fault failed\n'
kept=$(grep -c '^kept' "$work/full.out")
length=$(tail -n +"$kept" "$work/full.out" | head -n 1 | cut -d ' ' -f 3)
check "a full device: something was kept" [ "$kept" -gt 3 ]
records 'put([(1, 99, b"more")])' >"$work/feed"
run record "$work/full.ogg" <"$work/feed"
came "room again" 0 "kept 1 $((length + 32))\\n" ''

# A standard output that is closed ends the run, and what was kept stays.
"$program" record "$work/deaf.ogg" <"$top/examples/hello.feed" >/dev/full 2>"$work/err"
check "no room for replies: status" [ $? -eq 1 ]
check "no room for replies: the fault" is_text "$work/err" 'fault write\n'
run links "$work/deaf.ogg"
came "no room for replies: the first command" 0 'committed 31\nlink 0 0 31 1\nstream 1 31 1 open\n' ''
for most in 3 16; do
    "$program" record "$work/deaf_$most.ogg" --group "$most" <"$top/examples/hello.feed" >/dev/full 2>"$work/err"
    check "no room for replies, groups of $most: status" [ $? -eq 1 ]
    check "no room for replies, groups of $most: the fault" is_text "$work/err" 'fault write\n'
    run links "$work/deaf_$most.ogg"
    came "no room for replies, groups of $most: the group" 0 'committed 91\nlink 0 0 91 1\nstream 1 91 3 ended\n' ''
done

# Killed again and again while it records: nothing that was acknowledged is lost, and nothing comes twice.
check "killed" timeout 120 python3 "$here/killing.py" "$program" 1
check "killed, in groups" timeout 120 python3 "$here/killing.py" "$program" 16

finish
