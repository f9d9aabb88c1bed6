#!/usr/bin/env bash
# Streams are archived into a folder: its files, where they meet, what is thrown away, and whatever stands in it.
. "$(dirname "$0")/../helpers/common.bash"

filing() { python3 "$here/filing.py" "$@"; }
# archive STREAM WORD ..: archives this stream.
archive() {
    local stream=$1
    shift
    run archive "$@" <"$stream"
}
# numbers FOLDER: the numbers of its files, each with `+` if the file goes on.
numbers() { (cd "$1" && ls | sed -n 's/^0*\([0-9]*\)-.*-on\.ogg$/\1+/p; s/^0*\([0-9]*\)-[^-]*Z\.ogg$/\1/p' | sort -n | tr '\n' ' '); }
# newest FOLDER: the path of its newest file.
newest() { printf '%s\n' "$1"/[0-9][0-9][0-9][0-9][0-9][0-9]*.ogg | sort | tail -n 1; }
# has NAME FOLDER NUMBERS COUNT ..: its files have these numbers, and hold streams of so many pages whole.
has() {
    local name=$1 folder=$2 wanted=$3
    shift 3
    check "$name: files $(numbers "$folder")" [ "$(numbers "$folder")" = "$wanted" ]
    check "$name: what they hold" filing holds "$folder" "$@"
}
for seed in 1 2 3; do filing stream $seed 30 >"$work/$seed"; done

# A folder is made, one level of it. All fits into one file.
archive "$work/1" "$work/one/"
check "a folder: status $status" [ "$status" -eq 0 ]
check "a folder: what is told: $(cat "$work/err")" grep -qxE 'file 1 begins 000001-[0-9]{8}T[0-9]{6}Z\.ogg' "$work/err"
has "a folder" "$work/one" "1 " 30
archive "$work/2" "$work/one"
check "it is gone on with: status $status" [ "$status" -eq 0 ]
has "it is gone on with" "$work/one" "1 " 30 30
check "a folder: the first commit has its time" grep -qxE '[1-9][0-9]* [0-9]+ 0 [0-9]+' <<<"$(head -n 1 "$work/one"/*.times)"
archive "$work/1" "$work/deep/er/"
came "two levels aren't made" 1 '' 'fault file\n'
archive /dev/null "$work/nothing/"
came "nothing comes" 0 '' 'archived 0 0 0 0\n'
check "nothing comes: no file is begun" [ -z "$(numbers "$work/nothing")" ]

# What is of no page is told, also if it is all that comes.
printf hello >"$work/hello"
archive "$work/hello" "$work/hello.d/"
check "junk alone: status $status" [ "$status" -eq 1 ]
check "junk alone: its fault" [ "$(tail -n 1 "$work/err")" = "fault archive 4 NoPage: no page of Ogg came on standard input" ]
check "junk alone: it is told" grep -qx 'mended 1 Junk 0 5' "$work/err"
archive "$work/hello" "$work/hello.d/" --strict
check "junk alone, strictly: status $status" [ "$status" -eq 1 ]
check "junk alone, strictly: it is told" [ "$(tail -n 1 "$work/err")" = "fault mended" ]
head -c 20 "$work/1" >"$work/torn"
archive "$work/torn" "$work/torn.d/"
check "a torn first page is told" grep -qx 'mended 1 Junk 0 20' "$work/err"

# Files end by their bytes. The link that is open goes on in the next one, under another serial.
archive "$work/1" "$work/many/" --most-bytes 400
check "many files: status $status" [ "$status" -eq 0 ]
check "many files: $(numbers "$work/many")" [ "$(numbers "$work/many" | wc -w)" -gt 3 ]
check "many files: what they hold" filing holds "$work/many" 30
check "many files: each tells that it begins and ends" [ "$(grep -c ' begins ' "$work/err")" -eq "$(($(grep -c ' ends ' "$work/err") + 1))" ]
for file in "$work/many"/*.ogg; do
    run links "$file"
    check "many files: $file is links" [ "$status" -eq 0 ]
done
archive "$work/2" "$work/many/" --most-bytes 400 --seal
check "many files, gone on with: status $status" [ "$status" -eq 0 ]
check "many files, gone on with: what they hold" filing holds "$work/many" 30 30
run verify "$work/many"
check "many files, gone on with: nothing is wrong with them: $(cat "$work/out")" [ "$status" -eq 0 ]

# A second run is kept out.
mkfifo "$work/pipe"
timeout 60 "$program" archive "$work/locked/" <"$work/pipe" 2>"$work/first" &
first=$!
exec 7>"$work/pipe"
cat "$work/1" >&7
for _ in $(seq 200); do ! grep -q ' begins ' "$work/first" || break; sleep 0.05; done
archive "$work/2" "$work/locked"
came "a second run" 1 '' 'fault locked\n'
exec 7>&-
wait $first
has "the first run" "$work/locked" "1 " 30

# A file of the folder isn't recorded into it.
own=$(newest "$work/locked")
before=$(md5sum <"$own")
archive "$own" "$work/locked"
came "a file of the folder itself" 1 '' 'fault archive 1 Read\n'
check "a file of the folder itself: nothing is done" [ "$(md5sum <"$own") $(numbers "$work/locked")" = "$before 1 " ]
ln -s "$work/locked" "$work/way"
archive "$own" "$work/way"
came "by another way into the folder" 1 '' 'fault archive 1 Read\n'
ln "$own" "$work/other"
archive "$work/other" "$work/locked"
came "by another name of the file" 1 '' 'fault archive 1 Read\n'
rm "$work/other"
cp "$own" "$work/copy"
archive "$work/copy" "$work/locked"
check "a copy of it is recorded: status $status" [ "$status" -eq 0 ]
ln "$work/copy" "$work/copied"
archive "$work/copied" "$work/locked"
check "and one that has two names: status $status" [ "$status" -eq 0 ]

# What can't be gone on with is left as it is.
damaged() {
    local name=$1 folder=$work/damaged line=$2 before
    before=$(md5sum <"$(newest "$folder")")
    last=$(newest "$folder")
    archive "$work/2" "$folder"
    check "$name: status $status" [ "$status" -eq 0 ]
    check "$name: what is told: $(cat "$work/err")" grep -qxE "damaged $(basename "$last" | sed 's/\./\\./g') $line" "$work/err"
    check "$name: it is as it was" [ "$(md5sum <"$last")" = "$before" ]
    check "$name: the next file is begun" [ "$(newest "$folder")" != "$last" ]
    check "$name: the next file has the stream" cmp -n 60 -i 27 "$(newest "$folder")" "$work/2"
}
fresh() { rm -rf "$work/damaged"; archive "$work/1" "$work/damaged/"; }
turn() { python3 - "$(newest "$work/damaged")" "$1" "$2" <<'END'
import sys
path, at, bit = sys.argv[1], int(sys.argv[2]), int(sys.argv[3])
data = bytearray(open(path, "rb").read())
data[at] ^= 1 << bit
open(path, "wb").write(data)
END
}
fresh && turn 40 3 && damaged "a bit in a page" 'open 2 Page [0-9]+ [0-9]+ [A-Za-z]+'
fresh && turn 0 0 && damaged "a bit in the first byte of the file" 'foreign'
second=$(python3 -c "import sys; d = open('$work/1', 'rb').read(); print(27 + d[26] + sum(d[27:27 + d[26]]))")
fresh && turn "$second" 4 && damaged "a bit in the first byte of a page" "tail $second"
fresh && printf 'hello, this is no recording' >"$(newest "$work/damaged")" && damaged "a foreign file" 'foreign'
fresh && chmod 000 "$(newest "$work/damaged")" && [ "$(id -u)" -ne 0 ] && damaged "an unreadable file" 'file'
fresh && rm "$(newest "$work/damaged")" && mkdir "$work/damaged/000007-20260101T000000Z.ogg" && {
    archive "$work/2" "$work/damaged"
    check "a folder with a file's name: status $status" [ "$status" -eq 0 ]
    check "a folder with a file's name: $(numbers "$work/damaged")" [ "$(numbers "$work/damaged")" = "7 8 " ]
}
# A file cut anywhere is gone on with, or left as it is.
fresh
cp "$(newest "$work/damaged")" "$work/whole.ogg"
size=$(stat -c %s "$work/whole.ogg")
for at in 0 1 27 28 29 100 $((size / 2)) $((size - 2)) $((size - 1)); do
    rm -rf "$work/cut" && mkdir "$work/cut"
    head -c "$at" "$work/whole.ogg" >"$work/cut/000001-20260101T000000Z.ogg"
    archive "$work/2" "$work/cut"
    check "cut at $at: status $status" [ "$status" -eq 0 ]
    check "cut at $at: $(numbers "$work/cut")" [ "$(numbers "$work/cut")" = "1 2 " ]
    check "cut at $at: what they hold" python3 - "$work/cut" "$here" <<'END'
import sys
sys.path.insert(0, sys.argv[2])
from filing import wrong
faults, counts = wrong(sys.argv[1])
# A file that is set aside is as it was: its link is open, and a part of a page follows.
assert not [it for it in faults if "bytes behind" not in it and not it.startswith("000001") and " link 0 is open" not in it], faults
assert counts[2] == 58, counts
END
done

# Empty files: one is used in its own period, one that goes on is passed over.
mkdir "$work/empty"
: >"$work/empty/000005-$(date -u +%Y%m%dT%H0000Z).ogg"
archive "$work/1" "$work/empty"
has "an empty file" "$work/empty" "5 " 30
: >"$work/empty/000006-$(date -u +%Y%m%dT%H0000Z)-on.ogg"
archive "$work/2" "$work/empty"
check "an empty file that goes on: $(numbers "$work/empty")" [ "$(numbers "$work/empty")" = "5 6+ 7 " ]

# Times that can't be written are told once, and stop nothing.
mkdir "$work/untimed"
name=000005-$(date -u +%Y%m%dT%H0000Z)
: >"$work/untimed/$name.ogg"
mkdir "$work/untimed/$name.times"
archive "$work/1" "$work/untimed"
check "no times: status $status" [ "$status" -eq 0 ]
check "no times: it is told once" [ "$(grep -c '^no times: ' "$work/err")" -eq 1 ]
check "no times: the stream is there" cmp -n 60 -i 27 "$work/untimed/$name.ogg" "$work/1"

# Names that aren't ours are left alone, and a clock that jumped changes no order.
mkdir "$work/names"
touch "$work/names/000009-20260101T000000Z.ogg.part" "$work/names/9-20260101T000000Z.ogg" "$work/names/radio.ogg"
: >"$work/names/000003-19700101T000000Z.ogg"
archive "$work/1" "$work/names"
rm "$work/names/9-20260101T000000Z.ogg"
check "other names: $(numbers "$work/names")" [ "$(numbers "$work/names")" = "3 4 " ]
cp "$(newest "$work/names")" "$work/names/000009-99991231T235959Z.ogg"
archive "$work/2" "$work/names"
check "a clock that jumped: status $status" [ "$status" -eq 0 ]
check "a clock that jumped: the next number" [ "$(basename "$(newest "$work/names")" | cut -c1-6)" = 000010 ]

# What is thrown away: the oldest, by the bytes of all or by age, never the newest, and nothing that has a mark.
archive "$work/1" "$work/kept/" --most-bytes 500 --keep-bytes 1500
check "kept by bytes: status $status" [ "$status" -eq 0 ]
check "kept by bytes: what is told" grep -qxE 'file 1 removed 000001-.*\.ogg' "$work/err"
total=$(cat "$work/kept"/*.ogg "$work/kept"/*.times | wc -c)
check "kept by bytes: $total bytes" [ "$total" -lt 2500 ]
check "kept by bytes: no times without a file" [ "$(ls "$work/kept" | grep -c 'ogg$')" -eq "$(ls "$work/kept" | grep -c 'times$')" ]
rm -rf "$work/marked"
archive "$work/1" "$work/marked/" --most-bytes 500
oldest=$(printf '%s\n' "$work/marked"/*.ogg | sort | head -n 1)
touch "$oldest.keep"
archive "$work/2" "$work/marked/" --most-bytes 500 --keep-bytes 1000
check "a marked file stays" [ -e "$oldest" ]
check "its neighbour goes" [ "$(printf '%s\n' "$work/marked"/*.ogg | sed -n 2p | xargs basename | cut -c1-6)" != 000002 ]
mkdir "$work/aged"
for day in 01 02 03 04 05 06; do cp "$work/whole.ogg" "$work/aged/0000$day-202601${day}T000000Z.ogg"; done
archive "$work/1" "$work/aged/" --keep 1w
check "kept by age: at most four go at once: $(numbers "$work/aged")" [ "$(numbers "$work/aged" | wc -w)" -le 3 ]
check "kept by age: status $status" [ "$status" -eq 0 ]
archive "$work/2" "$work/aged/" --keep 600w
check "kept by age: what is young stays" [ "$(numbers "$work/aged" | wc -w)" -ge 1 ]

# Of two files with one number both stay, whatever else has to go, and so does the newest.
archive "$work/1" "$work/twice/"
first=$(newest "$work/twice")
second=$work/twice/000001-20260101T000000Z.ogg
cp "$first" "$second"
archive "$work/2" "$work/twice" --most-bytes 500 --keep-bytes 1000
check "two with one number: status $status" [ "$status" -eq 0 ]
check "two with one number: it is told" grep -qx 'twice 1' "$work/err"
check "two with one number: both stay: $(ls "$work/twice")" cmp "$first" "$second"
check "two with one number: others go" grep -q '^file [2-9] removed ' "$work/err"
check "two with one number: the newest stays" [ "$(newest "$work/twice")" = "$work/twice/$(sed -n 's/^file [0-9]* begins //p' "$work/err" | tail -n 1)" ]
check "two with one number: only files that are gone are told as removed" [ -z "$(sed -n 's/^file [0-9]* removed //p' "$work/err" | while read -r name; do ls "$work/twice/$name" 2>/dev/null; done)" ]

# A file that can't be thrown away is told once, and the next one goes.
mkdir -p "$work/stays/000001-20260101T000000Z.ogg"
archive "$work/1" "$work/stays/" --most-bytes 500 --keep-bytes 1500
check "a file that stays: status $status" [ "$status" -eq 0 ]
check "a file that stays: it is told once" [ "$(grep -cx 'file 1 stays 000001-20260101T000000Z.ogg' "$work/err")" -eq 1 ]
check "a file that stays: the next one goes" grep -q '^file 2 removed ' "$work/err"

# The device runs full at each call: what is thrown away makes room, and the recording goes on.
cc -O2 -shared -fPIC -D_GNU_SOURCE -o "$work/filling.so" "$here/filling.c" || exit 1
told=$(filing fills "$program" "$work/filling.so" "$work")
check "a full device: $told" grep -qxE '[0-9]+ runs, 0 wrong' <<<"${told##*$'\n'}"

# Each device call fails in turn, or the program stops before it, those of rotations among them.
cc -O2 -shared -fPIC -D_GNU_SOURCE -o "$work/failing.so" "$here/failing.c" || exit 1
told=$(filing fails "$program" "$work/failing.so" "$work")
check "each device call: $told" grep -qxE '[0-9]+ runs, 0 wrong' <<<"${told##*$'\n'}"

# Kills at any moment.
told=$(filing kills "$program" "$work" "${KILLS:-30}")
check "kills: $told" grep -qxE "${KILLS:-30} runs, 0 wrong" <<<"${told##*$'\n'}"

finish
