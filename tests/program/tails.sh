#!/usr/bin/env bash
# What no stop has left after the pages of a file is kept beside it before anything is written over it.
. "$(dirname "$0")/../helpers/common.bash"

archive() {
    run archive "$@"
}

ogg=$work/radio.ogg
pages "02 0 1 0 3 abc" "00 5 1 1 5 hello" "04 9 1 2 3 end" >"$work/whole"
archive "$ogg" <"$work/whole"
cp "$ogg" "$work/sound"

# turn OFFSET BYTE: the file, with another byte at this offset.
turn() {
    rm -f "$ogg".tail-*
    cp "$work/sound" "$ogg"
    printf "$2" | dd of="$ogg" bs=1 seek="$1" conv=notrunc status=none
    cp "$ogg" "$work/turned"
    tail -c +$(($1 + 1)) "$ogg" >"$work/tail"
}

# A bit of a page's first byte turns over.
turn 31 N
archive "$ogg" <"$work/whole"
came "a page's first byte" 0 '' "tail 31 92 $ogg.tail-31\narchived 1 2 180 0\n"
check "a page's first byte: the copy" cmp "$ogg.tail-31" "$work/tail"
check "a page's first byte: what stands before it" cmp -n 31 "$ogg" "$work/sound"
run salvage "$ogg.tail-31"
came "a page's first byte: the pages of the copy" 0 '33 31\n64 27\n' ''
archive "$ogg" <"$work/whole"
came "a page's first byte, and another run" 0 '' 'archived 1 2 302 0\n'

# The copy is there already, whole or its front; or it is another one.
turn 31 N
cp "$work/tail" "$ogg.tail-31"
archive "$ogg" <"$work/whole"
came "a copy that is there" 0 '' "tail 31 92 $ogg.tail-31\narchived 1 2 180 0\n"
check "a copy that is there: it stays" cmp "$ogg.tail-31" "$work/tail"
check "a copy that is there: there is no other" [ ! -e "$ogg.tail-31-2" ]
for count in 0 1 40 91; do
    turn 31 N
    head -c "$count" "$work/tail" >"$ogg.tail-31"
    archive "$ogg" <"$work/whole"
    came "the front of a copy, $count" 0 '' "tail 31 92 $ogg.tail-31\narchived 1 2 180 0\n"
    check "the front of a copy, $count: it is whole" cmp "$ogg.tail-31" "$work/tail"
done
for other in x "$(head -c 30 "$work/tail" | tr -d '\0')x"; do
    turn 31 N
    printf '%s' "$other" >"$ogg.tail-31"
    cp "$ogg.tail-31" "$work/other"
    archive "$ogg" <"$work/whole"
    came "another file of that name" 0 '' "tail 31 92 $ogg.tail-31-2\narchived 1 2 180 0\n"
    check "another file of that name: it stays" cmp "$ogg.tail-31" "$work/other"
    check "another file of that name: the copy" cmp "$ogg.tail-31-2" "$work/tail"
done
turn 31 N
cat "$work/tail" "$work/tail" >"$ogg.tail-31"
archive "$ogg" <"$work/whole"
came "a longer file of that name" 0 '' "tail 31 92 $ogg.tail-31-2\narchived 1 2 180 0\n"

# Without a copy nothing is written.
turn 31 N
for name in "$ogg.tail-31" "$ogg.tail-31-"{2..9}; do printf x >"$name"; done
archive "$ogg" <"$work/whole"
came "nine other files" 1 '' 'fault file\n'
check "nine other files: nothing is changed" cmp "$ogg" "$work/turned"
turn 31 N
mkdir "$ogg.tail-31"
archive "$ogg" <"$work/whole"
came "no copy can be made" 1 '' 'fault file\n'
check "no copy can be made: nothing is changed" cmp "$ogg" "$work/turned"
rmdir "$ogg.tail-31"

# What a stop may leave is no tail that is kept, and `record` writes over any.
for end in '' 'O' 'x' '\0' '\0x' '\0ggS and more'; do
    cp "$work/sound" "$ogg"
    truncate -s 122 "$ogg"
    printf "$end" >>"$ogg"
    archive "$ogg" </dev/null
    came "what a stop leaves, $end" 0 '' 'archived 0 0 122 0\n'
    check "what a stop leaves, $end: no copy" [ -z "$(ls "$ogg".tail-* 2>/dev/null)" ]
done
turn 31 N
records 'begin([7])' >"$work/feed"
run record "$ogg" <"$work/feed"
check "record: what it told: $(cat "$work/err")" [ ! -s "$work/err" ]
check "record: no copy" [ -z "$(ls "$ogg".tail-* 2>/dev/null)" ]

# A station keeps it as well.
turn 31 N
timeout 20 "$program" station "$ogg" 127.0.0.1:0 --seal <"$work/whole" >"$work/out" 2>"$work/err"
status=$?
check "a station: status $status" [ "$status" -eq 0 ]
check "a station: what it told: $(cat "$work/err")" [ "$(head -n 1 "$work/err")" = "tail 31 92 $ogg.tail-31" ]
check "a station: the copy" cmp "$ogg.tail-31" "$work/tail"
run links "$ogg"
check "a station: what follows is recorded: $(cat "$work/out")" [ "$(grep -c '^link ' "$work/out")" -eq 2 ]

# Any bit of a file.
mkdir "$work/bits"
timeout 250 python3 "$here/tails.py" "$program" "$work/bits" 200 >"$work/runs"
status=$?
tail -n 1 "$work/runs"
check "any bit: $(head -n 5 "$work/runs")" [ "$status" -eq 0 ]

finish
