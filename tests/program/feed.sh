#!/usr/bin/env bash
# Ogg files are made into feeds: what `feed` writes holds what it read, in whichever pieces the input comes.
. "$(dirname "$0")/../helpers/common.bash"

feeding() { timeout 200 python3 "$here/feeding.py" "$@"; }

# again NAME PAGE ..: sends a file of these pages through `feed` and `mux`.
again() {
    local name=$1
    shift
    pages "$@" >"$work/in.ogg"
    run feed <"$work/in.ogg"
    check "$name: status $status" [ "$status" -eq 0 ]
    check "$name: no fault" is_text "$work/err" ''
    cp "$work/out" "$work/feed"
    run mux --strict <"$work/feed"
    check "$name: every command is kept" [ "$status" -eq 0 ]
    cp "$work/out" "$work/again.ogg"
    check "$name: the same streams and packets" feeding same "$work/in.ogg" "$work/again.ogg"
}
again "one stream" "02 0 1 0 3 abc" "00 5 1 1 5 hello" "04 9 1 2 1 x"
again "an end on a page of its own" "02 0 1 0 3 abc" "00 5 1 1 5 hello" "04 5 1 2 - -"
again "two streams in turn, and a packet over two pages" "02 0 1 0 3 abc" "02 0 2 0 3 abc" "00 -1 1 1 255*255 y*65025" "00 7 2 1 1 x" \
    "05 9 1 2 255*19,130 y*4975" "04 7 2 2 - -"
again "a chain" "06 0 1 0 3 abc" "02 0 2 0 2 de" "04 7 2 1 1 x" "02 0 3 0 1 f"
again "headers alone" "02 0 1 0 3 abc" "02 0 2 0 3 abc"
again "several packets on a page" "02 0 1 0 3 abc" "00 7 1 1 1,0,2 xyz" "04 9 1 2 0,1 a"

# Vorbis has three headers: no packet is put before its link has begun with all of them.
python3 - "$here" >"$work/vorbis.ogg" <<'END'
import sys
sys.path.insert(0, sys.argv[1])
from pages import page
first = b"\x01vorbis"
sys.stdout.buffer.write(page(2, 0, 1, 0, [7], first) + page(2, 0, 2, 0, [3], b"abc") + page(0, 0, 1, 1, [2, 3, 2], b"cocodex")
                        + page(0, 4, 2, 1, [1], b"y") + page(4, 4, 2, 2, [], b"") + page(4, 9, 1, 2, [1], b"z"))
END
run feed <"$work/vorbis.ogg"
cp "$work/out" "$work/feed"
run mux --check --strict <"$work/feed"
check "three headers: a Begin, two Puts and an End with each stream: status $status" [ "$(grep -c kept "$work/out")" -eq 6 ]
check "three headers: begun with them" grep -q '^kept 1 ' "$work/out"

# If an earlier link has a stream's serial, the stream gets another one, and its packets and its end follow.
twice() {
    local name=$1
    shift
    pages "$@" >"$work/one.ogg"
    cat "$work/one.ogg" "$work/one.ogg" "$work/one.ogg" >"$work/in.ogg"
    run feed --renumber <"$work/in.ogg"
    check "$name: status $status" [ "$status" -eq 0 ]
    cp "$work/out" "$work/feed"
    run mux --strict <"$work/feed"
    check "$name: every command is kept" [ "$status" -eq 0 ]
    cp "$work/out" "$work/again.ogg"
    check "$name: the same under other serials" feeding renumbered "$work/in.ogg" "$work/again.ogg"
    run feed <"$work/in.ogg"
    cp "$work/out" "$work/feed"
    run mux --check <"$work/feed"
    check "$name: without the option the second copy is refused" grep -q '^refused 6 SerialTaken' "$work/out"
}
twice "one stream" "02 0 1 0 3 abc" "00 5 1 1 5 hello" "04 9 1 2 1 x"
twice "two streams" "02 0 0 0 3 abc" "02 0 1 0 3 abd" "00 7 1 1 1 x" "04 9 0 1 - -" "04 7 1 2 1 y"
twice "the highest serial" "02 0 4294967295 0 3 abc" "04 9 4294967295 1 1 x"
for option in "" --renumber; do
    timeout 20 "$program" feed $option <"$work/vorbis.ogg" >"$work/with.$option"
done
check "nothing to renumber: the same feed" cmp "$work/with." "$work/with.--renumber"

# Skeletons, left out or made anew. The file is $work/in.ogg.
with_skeletons() {
    local name=$1 made_from=$2 options=(--no-skeleton)
    [ -z "$made_from" ] || options=(--skeleton "$made_from")
    run feed "${options[@]}" <"$work/in.ogg"
    check "$name: status $status" [ "$status" -eq 0 ]
    cp "$work/out" "$work/feed"
    run mux --strict <"$work/feed"
    check "$name: every command is kept" [ "$status" -eq 0 ]
    cp "$work/out" "$work/again.ogg"
    check "$name: the streams and the Skeletons" feeding skeletons "$work/in.ogg" "$work/again.ogg" $made_from
}
pages "02 0 1 0 3 abc" "00 5 1 1 5 hello" "04 9 1 2 1 x" >"$work/in.ogg"
with_skeletons "none to leave out" ""
with_skeletons "one is made" 9
with_skeletons "one is made of the next serial" 1
with_skeletons "one is made of the first serial after the last" 4294967295
pages "02 0 4294967295 0 3 abc" "04 9 4294967295 1 1 x" "02 0 2 0 3 abc" "04 9 2 1 1 x" >"$work/in.ogg"
with_skeletons "one is made for each link" 4294967295
cp "$work/vorbis.ogg" "$work/in.ogg"
with_skeletons "one is made for a known codec and another" 5
feed <<'END' | timeout 20 "$program" mux 2>/dev/null >"$work/in.ogg"
skeleton 9 ; 1 audio/x-other 8000/1 abc ; 2 audio/x-other 8000/1 abc def
put 1 5 hello ; 2 6 x
end 1
end 2
begin 3 abc
put 3 7 y
end 3
END
with_skeletons "one is left out" ""
with_skeletons "one is left out and one made" 9
with_skeletons "one is left out and one made of another serial" 77
cp "$work/in.ogg" "$work/described.ogg"
python3 - "$here" "$work/described.ogg" >"$work/in.ogg" <<'END'
import sys
sys.path.insert(0, sys.argv[1])
from feeding import is_skeleton, pages_of, streams_of
data = open(sys.argv[2], "rb").read()
pages = pages_of(data)[0]
skeleton = next(serial for serial, stream in streams_of(pages)[0].items() if is_skeleton(stream))
sys.stdout.buffer.write(b"".join(page[6] for page in pages if page[2] == skeleton))
END
with_skeletons "a link of nothing else keeps it" ""
with_skeletons "a link of nothing else gets no other" 77
python3 - "$here" >"$work/feed" <<'END'
import sys
sys.path.insert(0, sys.argv[1])
from records import begin, end
sys.stdout.buffer.write(begin(range(63)) + b"".join(map(end, range(63))) + begin(range(100, 164)) + b"".join(map(end, range(100, 164))))
END
run mux <"$work/feed"
cp "$work/out" "$work/in.ogg"
with_skeletons "63 streams get one, 64 don't" 1000

# Faults of the input are reported with their offsets, after what comes before them.
pages "02 0 1 0 3 abc" "00 5 1 1 5 hello" "00 6 1 2 1 x" >"$work/in.ogg"
faulty() {
    local name=$1 line=$2
    run feed <"$work/in.ogg"
    check "$name: status $status" [ "$status" -eq 1 ]
    check "$name: the fault" is_text "$work/err" "$line"
    cp "$work/out" "$work/feed"
    run mux --check --strict <"$work/feed"
    check "$name: what comes before it is kept" grep -q '^kept 2 64' "$work/out"
}
cp "$work/in.ogg" "$work/whole.ogg"
printf H | dd of="$work/in.ogg" bs=1 seek=92 conv=notrunc status=none
faulty "damage" 'fault make 1 Page 64 4 Checksum\n'
head -c 80 "$work/whole.ogg" >"$work/in.ogg"
faulty "a cut" 'fault make 1 Page 64 1 Short\n'
{ head -c 64 "$work/whole.ogg"; printf 'OggZ and so on, which is no page'; } >"$work/in.ogg"
faulty "no page" 'fault make 1 Page 64 2 Pattern\n'
pages "02 0 1 0 3 abc" "00 5 1 1 5 hello" "00 6 1 3 1 x" >"$work/in.ogg"
faulty "a gap" 'fault make 2 Chain 64 1 Sequence\n'
pages "02 0 1 0 3 abc" "00 5 1 1 5 hello" "00 -1 1 2 255 y*255" >"$work/in.ogg"
faulty "an unfinished packet" 'fault make 4 Unfinished 347 1\n'
run feed </dev/null
check "no input: status $status" [ "$status" -eq 0 ]
check "no input: an announcement" [ "$(wc -c <"$work/out")" -eq 6 ]
timeout 20 "$program" feed <"$work/whole.ogg" >/dev/full 2>"$work/err"
check "a full device" is_text "$work/err" 'fault make 8 Write\n'

check "random files, whole, in pieces, cut and changed" feeding compare "$program"
check "random files with the options" feeding options "$program"
check "a page at a time" feeding live "$program"
run feed --skeleton 1 --no-skeleton </dev/null
check "made and left out: status $status" [ "$status" -eq 2 ]
run feed --skeleton one </dev/null
check "a serial that is no number: status $status" [ "$status" -eq 2 ]

finish
