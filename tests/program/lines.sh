#!/usr/bin/env bash
# Lines are recorded as packets, and packets are written as lines: whatever they hold, however they come, and whatever stops it.
. "$(dirname "$0")/../helpers/common.bash"

lining() { python3 "$here/lining.py" "$@"; }
# gives NAME WANT PATH WORD ..: `packets` of this path writes this file.
gives() {
    local name=$1 want=$2
    shift 2
    run packets "$@"
    check "$name: packets: status $status" [ "$status" -eq 0 ]
    check "$name: packets" cmp "$work/out" "$want"
}

# Whatever bytes a line has, it is a packet: empty ones, a carriage return, a zero, bytes that are no text.
printf 'first\n\nwith \r\n\0zero\n\xff\xfe\n  \t"quoted" \\\n' >"$work/any"
run lines "$work/any.ogg" --acks <"$work/any"
came "any bytes" 0 'kept 6\n' "$(tail -n 1 "$work/err")\n"
gives "any bytes" "$work/any" "$work/any.ogg"
run packets "$work/any.ogg" --json
check "any bytes, as JSON" lining decodes "$work/out" "$work/any"
check "any bytes: positions" lining rises "$work/out"
check "any bytes: neither time nor file" eval '! grep -qE "\"(time|file)\"" "$work/out"'

# A last line without a line feed is one, once; an end after a line feed is none.
printf 'one\ntwo' >"$work/open"
printf 'one\ntwo\n' >"$work/whole"
run lines "$work/open.ogg" --acks <"$work/open"
check "a last line without a line feed: $(tail -n 1 "$work/out")" [ "$(tail -n 1 "$work/out")" = "kept 2" ]
gives "a last line without a line feed" "$work/whole" "$work/open.ogg"
run lines "$work/none.ogg" --acks </dev/null
came "nothing comes" 0 '' 'archived 0 0 0 0\n'
before=$(md5sum <"$work/any.ogg")
run lines "$work/any.ogg" <"$work/any.ogg"
came "the file itself" 1 '' 'fault archive 1 Read\n'
check "the file itself: nothing is done" [ "$(md5sum <"$work/any.ogg")" = "$before" ]

# However the input comes, its lines are the same.
for size in 1 2 3 7; do
    lining pieces "$work/any" "$size" | run lines "$work/pieces$size.ogg"
    timeout 20 "$program" packets "$work/pieces$size.ogg" >"$work/got"
    check "pieces of $size" cmp "$work/got" "$work/any"
done

# Each run begins a link, in the same file.
run lines "$work/any.ogg" <"$work/whole"
cat "$work/any" "$work/whole" >"$work/both"
gives "two runs" "$work/both" "$work/any.ogg"
gives "the second link" "$work/whole" "$work/any.ogg" --link 1
run links "$work/any.ogg"
check "two runs: links" [ "$(grep -c '^link' "$work/out")" -eq 2 ]
gives "two runs, by name" "$work/both" "$work/any.ogg" --stream lines
run verify "$work/any.ogg"
check "two runs: verify: status $status" [ "$status" -eq 0 ]

# The longest line is taken, and one byte more is left out.
{ head -c 8388608 /dev/zero; echo; head -c 8388609 /dev/zero; echo; echo last; } >"$work/long"
run lines "$work/long.ogg" --acks <"$work/long"
check "long lines: status $status" [ "$status" -eq 1 ]
check "long lines: told" grep -qx 'left out 2 TooLong' "$work/err"
check "long lines: the last line is the fault" [ "$(tail -n 1 "$work/err")" = "fault lines 1 LeftOut" ]
check "long lines: all are told as kept" [ "$(tail -n 1 "$work/out")" = "kept 3" ]
{ head -c 8388608 /dev/zero; echo; echo last; } >"$work/want"
gives "long lines" "$work/want" "$work/long.ogg"

# Several streams: the name stands before the first tab.
printf 'b\tto b\na\tto a\nc\tto none\nno tab\na\ttab\ttwice\nb\t\n' >"$work/tagged"
run lines "$work/tagged.ogg" --streams a,b <"$work/tagged"
check "several streams: status $status" [ "$status" -eq 1 ]
check "several streams: what is left out" [ "$(grep -c '^left out [34] NoStream$' "$work/err")" -eq 2 ]
printf 'to a\ntab\ttwice\n' >"$work/want"
gives "by name" "$work/want" "$work/tagged.ogg" --stream a
gives "by place" "$work/want" "$work/tagged.ogg" --stream 1
printf 'to b\n\n' >"$work/want"
gives "the other by name" "$work/want" "$work/tagged.ogg" --stream b
run packets "$work/tagged.ogg" --stream c
came "no such stream" 1 '' 'fault packets 1 NoStream\n'
run packets "$work/tagged.ogg" --stream 3
came "no such place" 1 '' 'fault packets 1 NoStream\n'
run packets "$work/tagged.ogg" --stream a --headers
check "the header" [ "$(head -c 8 "$work/out")" = LineHead ]
check "several streams: the Skeleton has their names" [ "$(grep -ac '^Name: [ab]' "$work/tagged.ogg")" -eq 2 ]

# Files of many streams, which others have made.
check "many streams" timeout 300 python3 "$here/lining.py" compares "$program" 200 "$work"

# Words that ask for nothing that can be done.
for words in "--stream a --streams b" "--streams a,,b" "--group 0" "--group 1025" "--media" ; do
    # shellcheck disable=SC2086
    run lines "$work/words.ogg" $words </dev/null
    check "lines $words: status $status" [ "$status" -eq 2 ]
done
run packets "$work/any.ogg" --since -1h
came "a time of a file" 1 '' 'fault packets 2 NoTimes\n'
run packets "$work/nowhere.ogg"
came "no file" 1 '' 'fault file\n'

# A commit for each line, or for so many.
seq 1 300 >"$work/numbers"
run lines "$work/single.ogg" --group 1 --acks <"$work/numbers"
check "a commit for each line" [ "$(wc -l <"$work/out")" -eq 300 ]
gives "a commit for each line" "$work/numbers" "$work/single.ogg"
run lines "$work/seven.ogg" --group 7 --acks <"$work/numbers"
check "a commit for seven lines" [ "$(head -n 2 "$work/out" | tr '\n' ' ')" = "kept 7 kept 14 " ]
gives "a commit for seven lines" "$work/numbers" "$work/seven.ogg"
run lines "$work/sealed.ogg" --seal <"$work/numbers"
run lines "$work/unsealed.ogg" <"$work/numbers"
check "sealed: no byte follows the pages" [ "$(stat -c %s "$work/sealed.ogg")" -eq "$(($(stat -c %s "$work/unsealed.ogg") - 1))" ]

# A folder: files that end by their bytes, and the link that goes on in the next one.
run lines "$work/folder/" --most-bytes 500 --group 20 --acks <"$work/numbers"
check "a folder: status $status" [ "$status" -eq 0 ]
check "a folder: files" [ "$(find "$work/folder" -name '*.ogg' | wc -l)" -gt 1 ]
gives "a folder" "$work/numbers" "$work/folder"
run packets "$work/folder" --json
check "a folder, as JSON" lining decodes "$work/out" "$work/numbers"
check "a folder: times and files" [ "$(grep -cE '"time":"20..-..-..T..:..:..\....Z","file":[0-9]+,"link":' "$work/out")" -eq 300 ]
gives "a folder, by name" "$work/numbers" "$work/folder" --stream lines
run verify "$work/folder"
first=$(find "$work/folder" -name '*.ogg' | sort | head -n 1)
before=$(cd "$work/folder" && md5sum -- *)
run lines "$work/folder" <"$first"
came "a file of the folder itself" 1 '' 'fault archive 1 Read\n'
check "a file of the folder itself: nothing is done" [ "$(cd "$work/folder" && md5sum -- *)" = "$before" ]
run verify "$work/folder"
check "a folder: verify: status $status" [ "$status" -eq 0 ]

# What comes before a time and what comes after it are all, each once.
(for number in 1 2 3 4 5; do echo "at $number"; sleep 1.1; done) | timeout 20 "$program" lines "$work/times/" 2>"$work/err"
run packets "$work/times" --json
now=$(sed -n '3s/.*"time":"\([^"]*\)".*/\1/p' "$work/out")
run packets "$work/times"
cp "$work/out" "$work/all"
check "times: all" [ "$(wc -l <"$work/all")" -eq 5 ]
run packets "$work/times" --until "$now"
cp "$work/out" "$work/before"
run packets "$work/times" --since "$now"
check "times: some before" [ -s "$work/before" ]
check "times: some after" [ -s "$work/out" ]
cat "$work/before" "$work/out" >"$work/parts"
check "times: both parts are all" cmp "$work/parts" "$work/all"

# Stopped at any moment, and started again by the same line: all that was told as kept is there, in order, once.
for words in "$work/killed.ogg" "$work/killed/ --most-bytes 100000" "$work/single-killed.ogg --group 1"; do
    # shellcheck disable=SC2086
    timeout 100 python3 "$here/lining.py" killed "$program" ${words%% *} 6 $(case $words in *" "*) echo "${words#* }" ;; esac) >"$work/sent"
    timeout 20 "$program" packets "${words%% *}" >"$work/got"
    check "killed, $words" lining kept "$work/sent" "$work/got"
    check "killed, $words: something was kept" grep -qE '"kept": [1-9]' "$work/sent"
done

# Writers of feeds, for those who have packets that aren't lines.
cc -O2 -o "$work/sensor" "$top/examples/sensor.c" || exit 1
PROGRAM=$program timeout 20 "$top/examples/sensor.py" "$work/python.ogg" <"$work/whole" >"$work/out" 2>"$work/err"
check "examples/sensor.py: status" [ $? -eq 0 ]
gives "examples/sensor.py" "$work/whole" "$work/python.ogg" --stream sensor
timeout 20 "$work/sensor" <"$work/whole" | run record "$work/c.ogg" --renumber
gives "examples/sensor.c" "$work/whole" "$work/c.ogg" --stream sensor

# What sensors say, if there are such programs here.
if command -v vmstat >"$work/which"; then
    timeout 20 bash -c '(vmstat 1 3) | "$0" lines "$1" --acks' "$program" "$work/vmstat/" >"$work/out" 2>"$work/err"
    check "vmstat" [ "$(tail -n 1 "$work/out")" = "kept 5" ]
fi
if command -v ping >"$work/which"; then
    timeout 20 bash -c 'ping -c 3 -i 0.3 127.0.0.1 | tee "$2" | "$0" lines "$1"' "$program" "$work/ping/" "$work/said" 2>"$work/err"
    gives "ping" "$work/said" "$work/ping"
fi
touch "$work/log"
(timeout 4 tail -F "$work/log" 2>"$work/tail" | timeout 20 "$program" lines "$work/tail.ogg" 2>"$work/err") &
for number in 1 2 3 4 5 6 7 8 9 10; do echo "entry $number" >>"$work/log"; sleep 0.1; done
wait
gives "tail -F" "$work/log" "$work/tail.ogg"
if command -v oggz-info >"$work/which"; then
    oggz-info "$work/any.ogg" >"$work/info" 2>&1
    check "oggz-info sees the Skeleton" grep -q Skeleton "$work/info"
fi
finish
