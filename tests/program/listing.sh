#!/usr/bin/env bash
# An archive's files are listed with their times, gaps and links, and all damage of a folder or a file is told, also while
# a file grows.
. "$(dirname "$0")/../helpers/common.bash"

dir=$work/radio
a=000041-20261128T130000Z b=000042-20261128T140000Z-on c=000043-20261128T150000Z d=000044-20261128T160000Z

# ms HH:MM:SS.mmm: the milliseconds of this time of that day.
ms() { date -u -d "2026-11-28T$1Z" +%s%3N; }

# times NAME OFFSET TIME JOIN ..: writes lines of times.
times() {
    local name=$1
    shift
    : >"$dir/$name.times"
    while [ $# -gt 0 ]; do
        echo "$1 $(ms "$2") $3" >>"$dir/$name.times"
        shift 3
    done
}

# A link of three pages, which end at 31, 64 and 97; and one of two that goes on after a closed byte.
pages "02 0 1 0 3 abc" "00 7 1 1 5 hello" "04 9 1 2 5 world" >"$work/link.ogg"
{ head -c 64 "$work/link.ogg"; printf '\0ggS staged'; } >"$work/open.ogg"

# Three files that have ended, the second goes on with the first, and the third has no times; and one that is written.
folder() {
    rm -rf "$dir"
    mkdir "$dir"
    for name in $a $b $c; do cp "$work/link.ogg" "$dir/$name.ogg"; done
    cp "$work/open.ogg" "$dir/$d.ogg"
    times $a 31 13:00:00.500 "0 31" 64 13:30:00.000 "0 31" 97 13:59:59.800 "- -"
    times $b 97 14:10:00.250 "- -"
    times $d 31 16:00:01.000 "0 31" 64 16:00:02.000 "0 31"
    touch "$dir/lock" "$dir/notes.txt" "$dir/000009-20261128T130000Z.ogg.part" "$dir/9-20261128T130000Z.ogg"
}

day=2026-11-28T
line_a="file 41 ${day}13:00:00.000Z ${day}13:59:59.800Z 97 $a.ogg\n"
line_b="file 42 ${day}14:00:00.000Z ${day}14:10:00.250Z 97 $b.ogg\n"
gap="gap ${day}14:10:00.250Z ${day}15:00:00.000Z\n"
line_c="file 43 ${day}15:00:00.000Z ${day}16:00:00.000Z 97 $c.ogg\n"
line_d="file 44 ${day}16:00:00.000Z ${day}16:00:02.000Z 64 $d.ogg\n"

# lists NAME WANT WORD ..: checks what list writes of the folder.
lists() {
    local name=$1 want=$2
    shift 2
    run list "$dir" "$@"
    came "$name" 0 "$want" ''
}

folder
lists "all files" "$line_a$line_b$gap$line_c$line_d"
lists "after the end of a file" "$line_c$line_d" --since ${day}14:10:00.250Z
lists "after a moment before it" "$line_b$gap$line_c$line_d" --since ${day}14:10:00.249Z
lists "up to the beginning of a file" "$line_a$line_b" --until ${day}14:00:00Z
lists "up to a moment before it" "$line_a" --until ${day}13:59:59.999Z
lists "between" "$line_b$gap$line_c" --since ${day}14:00:00Z --until ${day}15:30:00Z
lists "in a gap" '' --since ${day}14:30:00Z --until ${day}14:40:00Z
lists "later than all" '' --since ${day}16:00:02Z
whole='committed 97\nlink 0 0 97 1\nstream 1 97 3 ended\n'
half='committed 64\nlink 0 0 64 1\nstream 1 64 2 open\n'
lists "with links" "$line_a$whole$line_b$whole$gap$line_c$whole$line_d$half" --links
run list "$dir/"
came "a path that ends in a slash" 0 "$line_a$line_b$gap$line_c$line_d" ''

# What follows the last line of times has the time of the next file's beginning, or now.
times $b 64 14:10:00.250 "0 31"
lists "bytes after the last line" "$line_a${line_b/14:10:00.250/15:00:00.000}$line_c$line_d"
rm "$dir/$c.ogg" "$dir/$d".*
run list "$dir" --since ${day}14:30:00Z
check "bytes after the newest file's last line: status $status" [ "$status" -eq 0 ]
check "bytes after the newest file's last line" grep -qE "^file 42 ${day}14:00:00.000Z 20[0-9T:.-]*Z 97 $b.ogg\$" "$work/out"
folder
printf '98 %s - -\n' "$(ms 14:20:00.000)" >>"$dir/$b.times"
lists "a line that tells of more bytes than there are" "$line_a$line_b$gap$line_c$line_d"
printf 'x%.0s' {1..2000} >>"$dir/$b.times"
lists "lines that end in what is none" "$line_a$line_b$gap$line_c$line_d"
: >"$dir/$b.ogg"
rm "$dir/$b.times"
lists "an empty file" "$line_a${line_b/14:10:00.250Z 97/14:00:00.000Z 0}${gap/14:10:00.250/14:00:00.000}$line_c$line_d"

# The end of the newest file is found by its times, or from its beginning.
for lines in "" "31 $(ms 16:00:02.000) 0 31" "30 $(ms 16:00:02.000) - -"; do
    folder
    printf '%s\n' "$lines" >"$dir/$d.times"
    run list "$dir" --since ${day}16:00:00.500Z
    check "the newest file by '$lines': status $status" [ "$status" -eq 0 ]
    check "the newest file by '$lines'" grep -qE "^file 44 ${day}16:00:00.000Z 20[0-9T:.-]*Z 64 $d.ogg\$" "$work/out"
done

# Damage is told in its place.
folder
printf 'X' | dd of="$dir/$c.ogg" bs=1 seek=60 conv=notrunc status=none
lists "a damaged file" "${line_c}damaged $c.ogg open 2 Page 31 4 Checksum\n" --links --since ${day}15:00:00Z --until ${day}15:59:59Z
pages "02 0 1 0 3 abc" "00 7 1 2 5 hello" "04 9 1 3 5 world" >"$dir/$c.ogg"
lists "a file that is no chain" "${line_c}damaged $c.ogg index 2 Chain 31 1 Sequence\n" --links --since ${day}15:00:00Z --until ${day}15:59:59Z
cp "$work/link.ogg" "$dir/000042-20261128T141500Z.ogg"
run list "$dir"
came "two files with one number" 0 "$line_a${gap/14:10:00.250/13:59:59.800}$line_c$line_d" 'twice 42\n'
cp "$dir/$b.ogg" "${dir}/000045-20261128T141500Z-on.ogg"
run list "$dir" --until ${day}14:30:00Z
check "a clock that went back" grep -q "^file 45 ${day}14:15:00.000Z " "$work/out"
run list "$work/none"
came "no folder" 1 '' 'fault file\n'
mkdir "$work/empty"
run list "$work/empty"
came "an empty folder" 0 '' ''
"$program" list "$dir" >/dev/full 2>"$work/err"
check "no room for a list: status" [ $? -eq 1 ]
check "no room for a list: the fault" grep -qx 'fault write' "$work/err"

# verifies NAME WANT: checks what verify writes of the folder, and its status, which is 1 after a fault.
verifies() {
    run verify "$dir"
    case $2 in
    *' 0\n') came "$1" 0 "$2" '' ;;
    *) came "$1" 1 "$2" 'fault damaged\n' ;;
    esac
}

folder
verifies "a sound archive" 'verified 4 4 355 0\n'
printf 'X' | dd of="$dir/$c.ogg" bs=1 seek=60 conv=notrunc status=none
verifies "a bit that turned over" "damaged $c.ogg open 2 Page 31 4 Checksum\nverified 4 3 258 1\n"
pages "02 0 1 0 3 abc" "00 7 1 2 5 hello" "04 9 1 3 5 world" >"$dir/$c.ogg"
verifies "a file that is no chain" "damaged $c.ogg index 2 Chain 31 1 Sequence\nverified 4 4 355 1\n"
folder
cp "$work/link.ogg" "$dir/000042-20261128T141500Z.ogg"
verifies "two files with one number" 'twice 42\nverified 3 3 258 1\n'
folder
rm "$dir/$a.ogg"
verifies "the oldest file goes on" 'verified 3 3 258 0\n'
folder
mv "$dir/$c.ogg" "$dir/$c-on.ogg"
rm "$dir/$b.ogg"
verifies "a file goes on with one that is gone" "damaged $c-on.ogg without 42\nverified 3 3 258 1\n"
touch "$dir/$a.ogg.keep"
verifies "a file goes on with one that was thrown away" 'verified 3 3 258 0\n'

# What follows the last page.
folder
printf '\0' >>"$dir/$a.ogg"
verifies "a closed byte in a file that has ended" "damaged $a.ogg tail 97 1\nverified 4 4 355 1\n"
folder
for tail in '' '\0' 'x' 'O' '\0abc'; do
    { cat "$work/link.ogg"; printf '%b' "$tail"; } >"$dir/$d.ogg"
    verifies "what a stop leaves: '$tail'" 'verified 4 4 388 0\n'
done
{ cat "$work/link.ogg"; printf 'NggS'; } >"$dir/$d.ogg"
verifies "what no stop leaves" "damaged $d.ogg tail 97 4\nverified 4 4 388 1\n"
: >"$dir/$d.ogg"
verifies "lines of an empty file" "damaged $d.times page 0\nverified 4 3 291 1\n"

# Each line of times is one, and speaks of a place between pages.
folder
times $a 31 13:00:00.500 "0 31" 65 13:30:00.000 "0 31" 97 13:59:59.800 "- -"
verifies "an offset within a page" "damaged $a.times page 22\nverified 4 4 355 1\n"
times $a 31 13:00:00.500 "0 31" 64 13:30:00.000 "0 31" 98 13:59:59.800 "- -"
verifies "an offset after the end" "damaged $a.times page 44\nverified 4 4 355 1\n"
times $a 31 13:00:00.500 "0 31" 64 13:00:00.499 "0 31"
verifies "times that fall" "damaged $a.times line 22\nverified 4 4 355 1\n"
times $a 64 13:00:00.500 "0 31" 31 13:00:00.500 "0 31"
verifies "offsets that fall" "damaged $a.times line 22\nverified 4 4 355 1\n"
times $a 64 13:00:00.500 "0 65"
verifies "a link that is joined later" "damaged $a.times line 0\nverified 4 4 355 1\n"
for torn in 97 '97 1' 'x\n'; do
    folder
    printf '%b' "$torn" >>"$dir/$b.times"
    verifies "a torn line, '$torn'" "damaged $b.times line 21\nverified 4 4 355 1\n"
done
folder
printf '64 17' >>"$dir/$d.times"
verifies "a torn line of the file that is written" 'verified 4 4 355 0\n'

# One file.
run verify "$dir/$d.ogg"
came "a file that is written" 0 'verified 1 1 64 0\n' ''
times $a 30 13:00:00.500 "- -"
run verify "$dir/$a.ogg"
came "a file and its times" 1 "damaged $dir/$a.times page 0\nverified 1 1 97 1\n" 'fault damaged\n'
cp "$work/link.ogg" "$work/other"
run verify "$work/other"
came "a file of another name" 0 'verified 1 1 97 0\n' ''
printf 'no Ogg at all' >"$work/other"
run verify "$work/other"
came "a file that is no Ogg" 1 "damaged $work/other tail 0 13\nverified 1 0 0 1\n" 'fault damaged\n'
run verify "$work/none"
came "no such file" 1 '' 'fault file\n'
run verify "$work/empty"
came "an empty folder" 0 'verified 0 0 0 0\n' ''
"$program" verify "$dir" >/dev/full 2>"$work/err"
check "no room for what is verified: status" [ $? -eq 1 ]
check "no room for what is verified: the fault" is_text "$work/err" 'fault write\n'

# A file that grows meanwhile is read up to a commit.
mkdir "$work/growing"
python3 "$here/growing.py" "$work/growing/$a.ogg" 4 &
writer=$!
until [ -s "$work/growing/$a.times" ]; do sleep 0.05; done
listed=0
while kill -0 $writer 2>/dev/null; do
    run list "$work/growing"
    read -r _ _ _ _ bytes _ <"$work/out"
    [ "$status" -eq 0 ] && [ $(((bytes - 31) % 8086)) -eq 0 ] || {
        cat "$work/out"
        listed=0
        break
    }
    listed=$((listed + 1))
    run verify "$work/growing"
    [ "$status" -eq 0 ] || {
        cat "$work/out"
        listed=0
        break
    }
done
wait $writer
check "a file that grows meanwhile: $listed" [ "$listed" -gt 2 ]

finish
