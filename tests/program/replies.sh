#!/usr/bin/env bash
# Checks what is written and answered for feeds without a fault.
. "$(dirname "$0")/../helpers/common.bash"

# muxes NAME REPLIES PAGE ..: checks that the feed in $work/feed gives these pages and replies, and with --check the
# replies alone.
muxes() {
    local name=$1 replies=$2
    shift 2
    pages "$@" >"$work/pages"
    run mux <"$work/feed"
    check "$name: status $status, not 0" [ "$status" -eq 0 ]
    check "$name: pages" cmp "$work/out" "$work/pages"
    check "$name: replies" is_text "$work/err" "$replies"
    run mux --check <"$work/feed"
    came "$name --check" 0 "$replies" ""
}

: >"$work/feed"
muxes "no feed" ""

# The example file has the bytes of the first two commands and of the end, and the script makes these bytes.
bytes 01 2f000000 00 0100 01000000 0100 03000000 616263 0000 0000000000000000 0000000000000000 0000000000000000 \
    00000000 00 02 17000000 0100 01000000 0500000000000000 05000000 68656c6c6f >"$work/feed"
bytes 4f676753 00 02 0000000000000000 01000000 00000000 >"$work/first"
muxes "begin and put" 'kept 1 31\nkept 2 64\n' "02 0 1 0 3 abc" "00 5 1 1 5 hello"
run mux <"$work/feed"
check "the first page's first 22 bytes" cmp -n 22 "$work/out" "$work/first"

bytes 03 04000000 01000000 >>"$work/feed"
check "hello.feed" cmp "$work/feed" "$top/examples/hello.feed"
feed <"$top/examples/hello.txt" >"$work/made"
check "hello.txt" cmp "$work/feed" "$work/made"
muxes "begin, put, end" 'kept 1 31\nkept 2 64\nkept 3 91\n' "02 0 1 0 3 abc" "00 5 1 1 5 hello" "04 5 1 2 - -"

# Positions go up to 2^63 - 1 and never back.
feed <<'END' >"$work/feed"
begin 1 abc
put 1 5 hello
put 1 4 x
put 1 5 x
put 1 9223372036854775808 x
put 1 9223372036854775807 x
put 1 9223372036854775806 x
END
muxes "positions" \
    'kept 1 31\nkept 2 64\nrefused 15 PositionBack\nkept 3 93\nrefused 14 PositionRange\nkept 4 122\nrefused 15 PositionBack\n' \
    "02 0 1 0 3 abc" "00 5 1 1 5 hello" "00 5 1 2 1 x" "00 9223372036854775807 1 3 1 x"

# Lacing at multiples of 255, in one page.
feed <<'END' >"$work/feed"
begin 1 abc
put 1 0 "" ; 1 0 x*254 ; 1 0 x*255 ; 1 0 x*510
END
muxes "multiples of 255" 'kept 1 31\nkept 2 1084\n' "02 0 1 0 3 abc" "00 0 1 1 0,254,255,0,255,255,0 x*1019"

# 255 lacing values are a page, and a packet that goes on has no position there.
feed <<'END' >"$work/feed"
begin 1 abc
put 1 7 x*65024
put 1 8 y*65025
END
muxes "a page's end" 'kept 1 31\nkept 2 65337\nkept 3 130672\n' "02 0 1 0 3 abc" "00 7 1 1 255*254,254 x*65024" \
    "00 -1 1 2 255*255 y*65025" "01 8 1 3 0 -"

# 256 empty packets: the second page begins with no continued packet.
{ echo "begin 1 abc"; printf 'put'; for _ in $(seq 256); do printf ' 1 3 "" ;'; done; echo; } | feed >"$work/feed"
muxes "256 empty packets" 'kept 1 31\nkept 2 341\n' "02 0 1 0 3 abc" "00 3 1 1 0*255 -" "00 3 1 2 0 -"

# Three headers: the first alone, the others together. Then runs of neighbours of one stream.
feed <<'END' >"$work/feed"
begin 1 abc de f ; 2 abc
put 1 0 a ; 1 0 b ; 2 0 c ; 1 0 d
END
muxes "groups" 'kept 1 94\nkept 2 183\n' "02 0 1 0 3 abc" "02 0 2 0 3 abc" "00 0 1 1 2,1 def" \
    "00 0 1 2 1,1 ab" "00 0 2 1 1 c" "00 0 1 3 1 d"

# A flush has the last reply's numbers, and no pages.
feed <<'END' >"$work/feed"
flush
begin 1 abc
put 1 5 hello
flush
put 1 4 x
flush
end 1
END
check "flushes: length of the feed" [ "$(wc -c <"$work/feed")" -eq $((89 + 24 + 3 * 5)) ]
muxes "flushes" 'kept 0 0\nkept 1 31\nkept 2 64\nkept 2 64\nrefused 15 PositionBack\nkept 2 64\nkept 3 91\n' \
    "02 0 1 0 3 abc" "00 5 1 1 5 hello" "04 5 1 2 - -"

# In a feed of version 2 message fields stand in a stream's fisbone, after the media type, in a fisbone of 92 bytes.
feed <<'END' >"$work/feed"
version 2
skeleton 9 ; 1 audio/vorbis 44100/1 abc -- Title One
skeleton 8 ; 2 audio/vorbis 44100/1 abc -- content-type a/b
end 1
skeleton 9 ; 3 audio/vorbis 44100/1 abc -- Title One
skeleton 8 ; 2 audio/vorbis 44100/1 abc -- content-type a/b
END
run mux <"$work/feed"
check "message fields: replies" is_text "$work/err" \
    'kept 1 271\nrefused 2 LinkOpen\nkept 2 298\nrefused 6 SerialTaken\nrefused 10 BadType\n'
tail -c +204 "$work/out" | head -c 40 >"$work/fields"
check "message fields: text" is_text "$work/fields" 'Content-Type: audio/vorbis\r\nTitle: One\r\n'

# A begin without fields adds the same pages in either version.
feed <"$top/examples/hello.txt" >"$work/one"
{ echo "version 2"; cat "$top/examples/hello.txt"; } | feed >"$work/feed"
check "hello in version 2: 6 bytes and 2 more" [ "$(wc -c <"$work/feed")" -eq $(($(wc -c <"$work/one") + 8)) ]
muxes "hello in version 2" 'kept 1 31\nkept 2 64\nkept 3 91\n' "02 0 1 0 3 abc" "00 5 1 1 5 hello" "04 5 1 2 - -"

# The longest packet has 8,388,608 bytes, in 130 pages.
feed <<'END' >"$work/feed"
begin 1 abc
put 1 0 x*8388609
put 1 0 x*8388608
put 1 0 x*1048577
END
run mux --check <"$work/feed"
came "the longest packet" 0 'kept 1 31\nrefused 9 PacketTooLong\nkept 2 8425046\nkept 3 9478195\n' ""

# Links one after the other.
feed <<'END' >"$work/feed"
begin 1 abc ; 2 abc
end 1
end 1
begin 3 abc
end 2
put 2 0 x
begin 2 abc
begin 3 abc
END
muxes "chains" 'kept 1 62\nkept 2 89\nrefused 13 StreamEnded\nrefused 2 LinkOpen\nkept 3 116\nrefused 3 NoLink\nrefused 6 SerialTaken\nkept 4 147\n' \
    "02 0 1 0 3 abc" "02 0 2 0 3 abc" "04 0 1 1 - -" "04 0 2 1 - -" "02 0 3 0 3 abc"

# The example of grouped and chained streams.
feed <"$top/examples/streams.txt" >"$work/feed"
check "streams.feed" cmp "$work/feed" "$top/examples/streams.feed"
muxes "streams" 'kept 1 131\nkept 2 829\nkept 3 857\nkept 4 884\nkept 5 924\nkept 6 951\nkept 7 988\nkept 8 1020\nkept 9 1047\n' \
    "02 0 1 0 10 sound-head" "02 0 2 0 12 picture-head" "00 0 1 1 13,11 sound-commentsound-setup" \
    "00 2048 1 2 3,3 onetwo" "00 1 2 1 255,255,90 x*600" "00 3072 1 3 5 three" "00 2 2 2 0 -" "04 3072 1 4 - -" \
    "00 3 2 3 12 last-picture" "04 3 2 4 - -" "02 0 3 0 9 more-head" "00 0 3 1 4 more" "04 0 3 2 - -"

# The example of refusals: each reply as its comment says.
feed <"$top/examples/refusals.txt" >"$work/feed"
replies=$(grep -o '^# \(kept [0-9]* [0-9]*\|[0-9]* [A-Z][A-Za-z]*\)' "$top/examples/refusals.txt" |
    sed -e 's/^# \([0-9]\)/refused \1/' -e 's/^# //' -e 's/$/\\n/' | tr -d '\n')
check "refusals.txt has each of its refusals" [ "$(grep -c '^#' "$top/examples/refusals.txt")" -gt 20 ]
muxes "refusals" "$replies" "02 0 1 0 3 abc" "00 5 1 1 5 hello" "00 6 1 2 1 x" "04 6 1 3 - -" "02 0 2 0 3 abc" \
    "02 0 3 0 3 abc" "04 0 2 1 - -"

# Too many of a thing, and the order of refusals: counts first, then item by item.
{
    printf 'begin'; for n in $(seq 65); do printf ' %d abc ;' "$n"; done; echo
    printf 'begin'; for n in $(seq 64); do printf ' %d abc ;' "$n"; done; echo
    printf 'put'; for _ in $(seq 4097); do printf ' 1 0 "" ;'; done; echo
    echo 'put 1 5 hello'
    echo 'put 1 4 x ; 99 9 y'
    echo 'put 99 9 y ; 1 4 x'
    echo 'put 1 9 x ; 1 8 y'
} | feed >"$work/feed"
all=()
for n in $(seq 64); do all+=("02 0 $n 0 3 abc"); done
all+=("00 5 1 1 5 hello")
muxes "too many, and the order of refusals" \
    'refused 5 TooMany\nkept 1 1984\nrefused 5 TooMany\nkept 2 2017\nrefused 15 PositionBack\nrefused 12 UnknownSerial\nrefused 15 PositionBack\n' \
    "${all[@]}"

{ printf 'begin 1'; for _ in $(seq 257); do printf ' h'; done; echo; } | feed >"$work/feed"
muxes "257 headers" 'refused 5 TooMany\n'

finish
