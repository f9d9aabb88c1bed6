#!/usr/bin/env bash
# Streams are archived: mended, renumbered, ended, and found again whatever stopped the program or its encoder.
. "$(dirname "$0")/../helpers/common.bash"

archive() {
    run archive "$@"
}

ogg=$work/radio.ogg
pages "02 0 1 0 3 abc" "00 5 1 1 5 hello" "04 9 1 2 3 end" >"$work/whole"

# A new file, and the same stream again: it gets a serial that is free.
archive "$ogg" <"$work/whole"
came "a new file" 0 '' 'archived 1 2 122 0\n'
run finish "$ogg"
check "a new file: the stream" cmp "$work/out" "$work/whole"
archive "$ogg" --seal <"$work/whole"
came "the same stream again" 0 '' 'archived 1 2 244 0\n'
run links "$ogg"
came "two links" 0 'committed 244\nlink 0 0 122 1\nstream 1 122 4 ended\nlink 1 122 122 1\nstream 0 122 4 ended\n' ''
archive "$ogg" </dev/null
came "no stream" 0 '' 'archived 0 0 244 0\n'

# A run that read what it writes would never end.
cp "$ogg" "$work/before"
ln -s "$ogg" "$work/linked"
archive "$ogg" <"$ogg"
came "the file itself" 1 '' 'fault archive 1 Read\n'
archive "$work/linked" <"$ogg"
came "the file itself, by a link" 1 '' 'fault archive 1 Read\n'
check "the file itself: nothing is changed" cmp "$ogg" "$work/before"

# A stream that stops in the middle is ended, at once or by the next run.
head -c 64 "$work/whole" >"$work/cut"
archive "$work/cut.ogg" <"$work/cut"
came "a stream that stops" 0 '' 'archived 1 1 91 0\n'
run links "$work/cut.ogg"
came "a stream that stops, listed" 0 'committed 91\nlink 0 0 91 1\nstream 1 91 3 ended\n' ''
head -c 62 "$work/whole" >"$work/cut"
archive "$work/torn.ogg" <"$work/cut"
came "a page that is torn" 0 '' 'mended 1 Junk 31 31\narchived 1 0 58 1\n'
records 'begin([1]), put([(1, 5, b"hello")])' >"$work/feed"
run record "$work/open.ogg" <"$work/feed"
archive "$work/open.ogg" <"$work/whole"
came "what was left open" 0 '' 'archived 1 2 213 0\n'
run links "$work/open.ogg"
came "what was left open, listed" 0 \
    'committed 213\nlink 0 0 91 1\nstream 1 91 3 ended\nlink 1 91 122 1\nstream 0 122 4 ended\n' ''

# A listener that joined midway: the headers, then pages from later on.
pages "02 0 1 0 3 abc" "00 50 1 7 5 hello" "04 90 1 8 3 end" >"$work/midway"
archive "$work/midway.ogg" <"$work/midway"
came "joined midway" 0 '' 'mended 2 Gap 31 1 1 7\narchived 1 2 122 1\n'
run archive "$work/strict.ogg" --strict <"$work/midway"
came "joined midway, strictly" 1 '' 'mended 2 Gap 31 1 1 7\narchived 1 1 91 1\nfault mended\n'
printf 'junk' | cat - "$work/whole" >"$work/junk"
archive "$work/junk.ogg" --seal <"$work/junk"
came "junk in front" 0 '' 'mended 1 Junk 0 4\narchived 1 2 122 1\n'
run finish "$work/junk.ogg"
check "junk in front: the stream" cmp "$work/out" "$work/whole"

# Bytes that are of no page are told of while they come, if they are many.
head -c 5000000 /dev/zero | cat - "$work/whole" >"$work/junk"
archive "$work/silent.ogg" <"$work/junk"
check "much junk: status" [ "$status" -eq 0 ]
check "much junk: what was told: $(cat "$work/err")" python3 - "$work/err" <<'END'
import re, sys
lines = open(sys.argv[1]).read().splitlines()
told = [int(re.fullmatch(r"no page in the (\d+) bytes from 0 on", it)[1]) for it in lines[:-2]]
assert lines[-2:] == ["mended 1 Junk 0 5000000", "archived 1 2 122 1"], lines
assert told and told[0] >= 1048576 and all(b >= 2 * a for a, b in zip(told, told[1:])), told
END
head -c 1000000 /dev/zero | cat "$work/whole" - "$work/whole" >"$work/junk"
archive "$work/some.ogg" <"$work/junk"
came "some junk between pages" 0 '' 'mended 1 Junk 95 1000000\narchived 2 4 244 1\n'

# What is refused is told, and what follows is recorded. A position that goes back breaks a rule.
pages "02 0 1 0 3 abc" "00 9 1 1 5 hello" "00 5 1 2 1 x" "04 9 1 3 3 end" >"$work/back"
archive "$work/back.ogg" <"$work/back"
came "a position that goes back" 1 '' 'refused 15 PositionBack 64\narchived 1 2 122 0\nfault refused\n'
run archive "$work/back2.ogg" --strict <"$work/back"
came "a position that goes back, strictly" 1 '' 'refused 15 PositionBack 64\narchived 1 1 91 0\nfault refused\n'

# Files that can't be recorded into.
archive /dev/full <"$work/whole"
came "no regular file" 1 '' 'fault open 1 Disk\n'
# A file of another kind stays as it is; one of ours that a stop left with nothing committed doesn't.
for front in 'ID3\4\0\0\0\0\0\7' '\377\373\220\0' 'fLaC' '# ' '\0\0\0\030ftypM4A ' '\0\0\0\0ftyp'; do
    printf "$front" >"$work/other"
    cp "$work/other" "$work/was"
    archive "$work/other" <"$work/whole"
    came "a file of another kind, $front" 1 '' 'fault foreign\n'
    check "a file of another kind, $front: it is as it was" cmp "$work/other" "$work/was"
    run record "$work/other" --end-open <"$work/feed"
    came "a file of another kind, $front, that record goes on with" 1 '' 'fault foreign\n'
    run record "$work/other" --renumber --seal <"$work/feed"
    came "a file of another kind, $front, that record goes on with by other serials" 1 '' 'fault foreign\n'
    check "a file of another kind, $front: it is still as it was" cmp "$work/other" "$work/was"
done
for front in '' 'x' '\0' '\0ggS\0\2' '\0ab' '\0\0\0\0\0\0\0\0\0\0' '\0\0\0\030ftyq'; do
    printf "$front" >"$work/stopped.ogg"
    archive "$work/stopped.ogg" --seal <"$work/whole"
    came "nothing committed, $front" 0 '' 'archived 1 2 122 0\n'
done
printf 'Once upon a time there was a recorder.' >"$work/other"
archive "$work/other" <"$work/whole"
came "a text that begins as a page does" 1 '' 'fault open 2 Page 0 2 Pattern\n'

mkfifo "$work/pipe"
"$program" record "$work/locked.ogg" <"$work/pipe" >/dev/null 2>&1 &
exec 7>"$work/pipe"
python3 - "$work/locked.ogg" <<'WAIT'
import os, sys, time
for _ in range(1000):
    if os.path.exists(sys.argv[1]):
        break
    time.sleep(0.01)
WAIT
sleep 0.1
archive "$work/locked.ogg" <"$work/whole"
came "another program writes the file" 1 '' 'fault locked\n'
exec 7>&-
wait

# After a device is full the file is opened again once, and then the run ends; what was kept is found.
python3 "$here/archiving.py" long >"$work/long"
(
    trap '' XFSZ
    ulimit -f 8
    run archive "$work/full.ogg" --group 1 <"$work/long"
    cp "$work/err" "$work/full.err"
    exit "$status"
)
check "a full device: status" [ $? -eq 1 ]
check "a full device: the fault" [ "$(tail -n 1 "$work/full.err")" = "fault failed" ]
archive "$work/full.ogg" <"$work/whole"
check "a full device, then room: status $status" [ "$status" -eq 0 ]

# Each device call fails in turn, also once while links come, and each request for memory is refused.
for name in failing refusing; do
    cc -O2 -shared -fPIC -D_GNU_SOURCE -o "$work/$name.so" "$here/$name.c" || exit 1
done
for name in fails:failing resumes:failing skeletons:failing refuses:refusing; do
    timeout 1000 python3 "$here/archiving.py" "${name%:*}" "$program" "$work/${name#*:}.so" "$work" >"$work/runs"
    status=$?
    tail -n 1 "$work/runs"
    check "${name%:*}: $(head -n 5 "$work/runs")" [ "$status" -eq 0 ]
done

# Kills of the encoder, of the program, or of both.
python3 "$here/archiving.py" kills "$program" "$work" 300 >"$work/kills"
tally=$(tail -n 1 "$work/kills")
echo "$tally"
check "kills: $(head -n 5 "$work/kills")" [ "$tally" = "300 runs, 0 wrong" ]

finish
