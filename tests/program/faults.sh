#!/usr/bin/env bash
# Each fault has its line on standard error and status 1. What stands before the fault is written and answered.
. "$(dirname "$0")/../helpers/common.bash"

# the example without its end
hello=$work/hello.feed
head -c 80 "$top/examples/hello.feed" >"$hello"
pages "02 0 1 0 3 abc" "00 5 1 1 5 hello" >"$work/hello.pages"

# faults NAME LINE: checks that the feed in $work/feed, put after the two commands of the example, ends the run with
# this line.
faults() {
    cat "$hello" "$work/feed" >"$work/whole"
    run mux <"$work/whole"
    check "$1: status $status, not 1" [ "$status" -eq 1 ]
    check "$1: pages before it" cmp "$work/out" "$work/hello.pages"
    check "$1: line" is_text "$work/err" "kept 1 31\nkept 2 64\n$2\n"
    run mux --check <"$work/whole"
    came "$1 --check" 1 'kept 1 31\nkept 2 64\n' "$2\n"
    run mux <"$work/feed"
    came "$1, alone" 1 "" "$2\n"
}

bytes 01 >"$work/feed"
faults "a head cut short" "fault feed 1 Truncated"
bytes 09 05000000 00 >"$work/feed"
faults "kind 9, and a payload cut short" "fault feed 2 Kind"
bytes 05 00000000 >"$work/feed"
faults "kind 5" "fault feed 2 Kind"
bytes 05 ffffffff >"$work/feed"
faults "kind 5 with a length too large" "fault feed 2 Kind"
bytes 04 ffffffff >"$work/feed"
faults "a flush with a length too large" "fault feed 3 Length"
bytes 04 01000000 00 >"$work/feed"
faults "a flush with a payload" "fault feed 4 Form"
bytes 02 01000002 >"$work/feed"
faults "a length of 33,554,433" "fault feed 3 Length"
bytes 02 00000002 >"$work/feed"
faults "a length of 33,554,432 and no payload" "fault feed 1 Truncated"
bytes 03 05000000 01000000 00 >"$work/feed"
faults "an end with a byte too many" "fault feed 4 Form"
bytes 03 03000000 010000 >"$work/feed"
faults "an end with a byte too few" "fault feed 4 Form"
{ bytes 01 30000000; tail -c +6 "$hello" | head -c 47; bytes 00; } >"$work/feed"
faults "a begin with a byte too many" "fault feed 4 Form"
{ bytes 01 2f000000 02; tail -c +7 "$hello" | head -c 46; } >"$work/feed"
faults "a begin with 2 for the Skeleton" "fault feed 4 Form"
bytes 02 02000000 ffff >"$work/feed"
faults "a put of 65,535 entries and none there" "fault feed 4 Form"

# A version is announced before all records, or it is a fault; the only such version is 2.
{ cat "$hello"; bytes 00 01000000 02; } >"$work/whole"
run mux <"$work/whole"
check "a version behind a record: pages" cmp "$work/out" "$work/hello.pages"
check "a version behind a record: line" is_text "$work/err" 'kept 1 31\nkept 2 64\nfault feed 2 Kind\n'
for version in "01000000 03" "01000000 01" "00000000" "02000000 0202"; do
    { bytes 00 "$version"; cat "$hello"; } >"$work/whole"
    run mux <"$work/whole"
    came "version $version" 1 "" 'fault feed 4 Form\n'
done
{ bytes 00 01000000 02; bytes 00 01000000 02; cat "$hello"; } >"$work/whole"
run mux <"$work/whole"
came "a version announced twice" 1 "" 'fault feed 2 Kind\n'
{ bytes 00 01000000 02; cat "$hello"; } >"$work/whole"
run mux <"$work/whole"
came "a begin of version 1 in a feed of version 2" 1 "" 'fault feed 4 Form\n'

# The feed can't be read.
run mux <&-
came "a closed standard input" 1 "" 'fault feed 5 Read\n'
run mux </
came "a folder as standard input" 1 "" 'fault feed 5 Read\n'

# There is no memory for a payload of 32 MiB. It is asked for before a byte of it is read.
{ cat "$hello"; bytes 02 00000002; } >"$work/whole"
(
    ulimit -v 24000
    timeout 20 "$program" mux <"$work/whole" >"$work/out" 2>"$work/err"
)
status=$?
check "no memory: status $status, not 1" [ "$status" -eq 1 ]
check "no memory: pages before it" cmp "$work/out" "$work/hello.pages"
check "no memory: line" is_text "$work/err" 'kept 1 31\nkept 2 64\nfault feed 6 Memory\n'

# Standard output takes nothing.
timeout 20 "$program" mux <"$hello" >/dev/full 2>"$work/err"
check "a full device: status" [ $? -eq 1 ]
check "a full device: line" is_text "$work/err" 'fault write\n'
timeout 20 "$program" mux --check <"$hello" >/dev/full 2>"$work/err"
check "a full device --check: status" [ $? -eq 1 ]
check "a full device --check: line" is_text "$work/err" 'fault write\n'
timeout 20 "$program" mux <"$hello" >&- 2>"$work/err"
check "a closed standard output: status" [ $? -eq 1 ]
check "a closed standard output: line" is_text "$work/err" 'fault write\n'
timeout 20 "$program" mux --check <"$hello" >&- 2>"$work/err"
check "a closed standard output --check: status" [ $? -eq 1 ]
check "a closed standard output --check: line" is_text "$work/err" 'fault write\n'
{
    sleep 0.5
    timeout 20 "$program" mux <"$hello" 2>"$work/err"
    echo $? >"$work/status"
} | true
check "a pipe that nobody reads: status $(cat "$work/status")" [ "$(cat "$work/status")" -eq 1 ]
check "a pipe that nobody reads: line" is_text "$work/err" 'fault write\n'

# If the replies can't be written, the fault's line can't be either, but the pages before them are there: those of all
# that was read ahead.
timeout 20 "$program" mux <"$hello" >"$work/out" 2>/dev/full
check "full standard error: status" [ $? -eq 1 ]
"$program" mux <"$hello" >"$work/pages" 2>"$work/err"
check "full standard error: pages" cmp "$work/out" "$work/pages"
timeout 20 "$program" mux <"$hello" >"$work/out" 2>&-
check "closed standard error: status" [ $? -eq 1 ]
check "closed standard error: pages" cmp "$work/out" "$work/pages"

# If a writer takes a part, pages go up to a file's largest size, 1,024 bytes, and then comes the fault. Of pages that
# are written together no line is told unless all are out.
{ cat "$hello"; echo 'put 1 6 x*2000' | feed; } >"$work/whole"
(
    trap '' XFSZ
    ulimit -f 1
    timeout 20 "$program" mux <"$work/whole" >"$work/out" 2>"$work/err"
    echo $? >"$work/status"
)
check "a file at its largest size: status" [ "$(cat "$work/status")" -eq 1 ]
check "a file at its largest size: line" is_text "$work/err" 'fault write\n'
pages "02 0 1 0 3 abc" "00 5 1 1 5 hello" "00 6 1 2 255*7,215 x*2000" | head -c 1024 >"$work/pages"
check "a file at its largest size: a prefix of the pages" cmp "$work/out" "$work/pages"

# A refusal is no fault, and a fault of the command line isn't one of the feed.
echo 'put 1 0 x' | feed >"$work/feed"
run mux <"$work/feed"
came "a refusal" 0 "" 'refused 3 NoLink\n'

finish
