#!/usr/bin/env bash
# Checks real media with independent tools after `feed` and `mux`: an encoder's packets are taken out of its file,
# muxed again, and must come back the same. Not part of the tests that ./check runs, since it installs packages.
#
#     tests/media.sh            the last line is 'N passed, M failed'
. "$(dirname "$0")/helpers/common.bash"
. "$(dirname "$0")/helpers/installing.bash"
reader=${READ_OGG:-$top/crates/test_read/out/test_read}

tools=(curl ffmpeg ffprobe ogginfo oggz oggenc opusenc flac speexenc gst-launch-1.0 mkvmerge mutagen-inspect)
needs "${tools[@]}" oggfwd ices2 -- curl ices2 oggfwd ffmpeg vorbis-tools oggz-tools opus-tools flac speex gstreamer1.0-tools \
    gstreamer1.0-plugins-base gstreamer1.0-plugins-good mkvtoolnix python3-mutagen || has "${tools[@]}" || exit 1
[ -x "$reader" ] || { echo "no program at $reader: ./check builds it" >&2; exit 1; }

encode() { ffmpeg -nostdin -loglevel error -y "$@"; }

# A second of a tone, and of moving bars.
tone=(-f lavfi -i "sine=frequency=440:duration=2:sample_rate=48000")
bars=(-f lavfi -i "testsrc=duration=2:size=320x240:rate=25")
encode "${tone[@]}" -c:a libvorbis "$work/vorbis.ogg"
encode "${tone[@]}" -c:a libopus "$work/opus.ogg"
encode "${tone[@]}" -c:a flac "$work/flac.ogg"
encode "${bars[@]}" "${tone[@]}" -c:v libtheora -c:a libvorbis -serial_offset 100 "$work/theora.ogg"
# Links one after the other: serials must be unique over a whole file.
encode "${tone[@]}" -c:a libvorbis -serial_offset 7 "$work/second.ogg"
encode "${tone[@]}" -c:a libvorbis -q:a 1 -serial_offset 8 "$work/third.ogg"
cat "$work/vorbis.ogg" "$work/second.ogg" "$work/third.ogg" >"$work/chain.ogg"

# Prints the packets of each stream in order, as another program reads them: a hash of each one's bytes. Marks on
# packets that a player cuts short are left out, since they follow from the position of the page with the end of the
# stream.
packets() {
    ffprobe -loglevel error -show_entries packet=stream_index,data_hash -show_data_hash md5 -of flat "$1" |
        sed -n 's/.*stream_index=//p; s/.*data_hash=//p' | paste - - | sort -s -k 1,1
}

# Leaves out serials and numbers of streams, which a Skeleton moves.
warnings() { ogginfo "$1" | grep -i 'warning\|error' | sed 's/serial: [0-9a-f]*//; s/stream ([0-9]*)/stream/'; }
same_warnings() { [ "$(warnings "$1")" = "$(warnings "$2")" ]; }
replies_keep() { [ -s "$1" ] && ! grep -v '^kept ' "$1"; }

# again NAME: checks that the packets of NAME.ogg, muxed again, are the same.
again() {
    local name=$1
    "$program" feed <"$work/$name.ogg" >"$work/$name.feed"
    "$program" mux <"$work/$name.feed" >"$work/$name.again.ogg" 2>"$work/$name.replies"
    check "$name: status" [ $? -eq 0 ]
    check "$name: every command is kept" replies_keep "$work/$name.replies"
    check "$name: ogginfo warns of no more than of the encoder's file" same_warnings "$work/$name.ogg" "$work/$name.again.ogg"
    packets "$work/$name.ogg" >"$work/$name.want"
    packets "$work/$name.again.ogg" >"$work/$name.found"
    check "$name: packets were read" [ -s "$work/$name.want" ]
    check "$name: the packets are the same" cmp "$work/$name.want" "$work/$name.found"
    # While a recording is open it has no page with an end of a stream; oggz wants a packet to end in such a page.
    if [ "$name" != chain ]; then
        python3 "$here/open_feed.py" <"$work/$name.feed" >"$work/$name.open.feed"
        "$program" mux <"$work/$name.open.feed" >"$work/$name.open.ogg" 2>"$work/$name.replies"
        check "$name: oggz validate of the open recording" oggz validate --prefix "$work/$name.open.ogg"
    fi
    printf '%-8s %8d bytes in, %8d out, %6d packets\n' "$name" \
        "$(stat -c %s "$work/$name.ogg")" "$(stat -c %s "$work/$name.again.ogg")" "$(wc -l <"$work/$name.found")"
}

serials() {
    python3 -c '
import struct, sys
data, at, seen = open(sys.argv[1], "rb").read(), 0, []
while at < len(data):
    serial, = struct.unpack_from("<I", data, at + 14)
    seen += [] if serial in seen else [serial]
    at += 27 + data[at + 26] + sum(data[at + 27 : at + 27 + data[at + 26]])
print(*seen)' "$1"
}

# read_whole NAME FILE: checks that the pages are a chain, and that what another program reads of its packets is among
# those that are read here, which have the headers too.
read_whole() {
    local name=$1 file=$2 serial
    check "$name: its pages are a chain" "$reader" chain <"$file" >"$work/chain"
    : >"$work/read"
    for serial in $(serials "$file"); do
        check "$name: the packets of $serial" "$reader" "$serial" <"$file" >"$work/stream"
        sed -n 's/^\([0-9a-f]*\) .*/"MD5:\1"/p' "$work/stream" >>"$work/read"
    done
    packets "$file" | cut -f 2 | sort >"$work/want"
    sort "$work/read" >"$work/found"
    check "$name: each packet that ffprobe reads" [ -z "$(comm -23 "$work/want" "$work/found")" ]
    printf '%-8s %6d packets read, %6d of them by ffprobe\n' "$name" "$(wc -l <"$work/found")" "$(wc -l <"$work/want")"
}

for name in vorbis opus flac theora chain; do
    again "$name"
    read_whole "$name" "$work/$name.ogg"
    read_whole "$name" "$work/$name.again.ogg"
done

# finished NAME: checks that what is muxed again and then finished plays as the encoder's file does, to the last
# sample, and ends as oggz requires. Frames of a film are compared too.
sounds() {
    ffmpeg -nostdin -loglevel error -i "$1" -map 0:a -f md5 -
    ffmpeg -nostdin -loglevel error -i "$1" -map '0:v?' -map 0:a -f framemd5 - | cut -d , -f 1,6
}
finished() {
    local name=$1
    "$program" finish "$work/$name.again.ogg" >"$work/$name.finished.ogg"
    check "$name, finished: status" [ $? -eq 0 ]
    packets "$work/$name.finished.ogg" >"$work/$name.found"
    check "$name, finished: the packets are the same" cmp "$work/$name.want" "$work/$name.found"
    sounds "$work/$name.ogg" >"$work/want"
    sounds "$work/$name.finished.ogg" >"$work/found"
    check "$name, finished: something is played" grep -q 'MD5=' "$work/want"
    check "$name, finished: ffmpeg plays the same" cmp "$work/want" "$work/found"
    check "$name, finished: ogginfo warns of no more than of the encoder's file" same_warnings "$work/$name.ogg" "$work/$name.finished.ogg"
    oggz validate "$work/$name.ogg" >"$work/want" 2>&1
    oggz validate "$work/$name.finished.ogg" >"$work/found" 2>&1
    check "$name, finished: oggz validate complains of no more than of the encoder's file" \
        [ -z "$(comm -13 <(complaints "$work/want") <(complaints "$work/found"))" ]
    for file in "$work/$name.ogg" "$work/$name.finished.ogg"; do
        mkvmerge --identify "$file" | sed "s|$file||"
        mutagen-inspect "$file" | grep -v '^-- '
    done >"$work/found"
    check "$name, finished: mkvmerge and mutagen see what they see of the encoder's file" \
        cmp <(head -n "$(($(wc -l <"$work/found") / 2))" "$work/found") <(tail -n "$(($(wc -l <"$work/found") / 2))" "$work/found")
    check "$name, finished: they see something" [ "$(wc -l <"$work/found")" -gt 3 ]
    "$program" finish "$work/$name.ogg" >"$work/found"
    check "$name: the encoder's file stays as it is" cmp "$work/$name.ogg" "$work/found"
}
complaints() { sed 's/^.*serialno [0-9]*[:;]* *//; s/^[0-9:. -]*//; /validate/d; /\.ogg/d' "$1" | sort -u; }
for name in vorbis opus flac theora chain; do
    finished "$name"
done

# Each stream of each link of an encoder's chain is cut out: oggz and ffprobe read its packets as they do in the file
# that the encoder made.
cut_out() {
    local name=$1 file=$2 number=0 serial part
    shift 2
    for part in "$@"; do
        "$program" split "$file" "$number" >"$work/link.ogg"
        check "$name: link $number is the encoder's file" cmp "$work/link.ogg" "$part"
        for serial in $(serials "$part"); do
            "$program" split "$file" "$number" "$serial" >"$work/stream.ogg"
            check "$name: stream $serial of link $number" "$reader" chain <"$work/stream.ogg" >"$work/chain"
            "$reader" "$serial" <"$part" >"$work/want"
            "$reader" "$serial" <"$work/stream.ogg" >"$work/found"
            check "$name: the packets of $serial" cmp "$work/want" "$work/found"
            check "$name: ffprobe reads some of $serial" [ -n "$(packets "$work/stream.ogg")" ]
        done
        number=$((number + 1))
    done
}
cut_out vorbis "$work/vorbis.ogg" "$work/vorbis.ogg"
cut_out theora "$work/theora.ogg" "$work/theora.ogg"
cut_out chain "$work/chain.ogg" "$work/vorbis.ogg" "$work/second.ogg" "$work/third.ogg"

# A recording of the same packets, sealed by a later run, is what mux makes of them.
"$program" mux <"$work/theora.feed" >"$work/want" 2>"$work/replies"
"$program" record "$work/recorded.ogg" --group 16 <"$work/theora.feed" >"$work/replies"
check "a recording: status" [ $? -eq 0 ]
"$program" record "$work/recorded.ogg" --seal </dev/null
check "a recording: its pages" cmp "$work/want" "$work/recorded.ogg"

# With a Skeleton the packets are the same, and other programs recognise the Skeleton. (ffprobe doesn't read on at a
# chain's next link that begins with a Skeleton, so it isn't run over the chain's packets.)
for name in vorbis opus flac theora chain; do
    "$program" feed --skeleton 5000 <"$work/$name.ogg" >"$work/$name.feed"
    "$program" mux <"$work/$name.feed" >"$work/$name.described.ogg" 2>"$work/$name.replies"
    check "$name with a Skeleton: every command is kept" replies_keep "$work/$name.replies"
    check "$name with a Skeleton: ogginfo finds it" grep -q -i skeleton <(ogginfo "$work/$name.described.ogg")
    check "$name with a Skeleton: ogginfo warns of no more than of the encoder's file" \
        same_warnings "$work/$name.ogg" "$work/$name.described.ogg"
    "$program" feed --no-skeleton <"$work/$name.described.ogg" | "$program" mux >"$work/$name.plain.ogg" 2>"$work/$name.replies"
    check "$name with a Skeleton, and then without: the same pages" cmp "$work/$name.again.ogg" "$work/$name.plain.ogg"
    [ "$name" != chain ] || continue
    # Stream 0 is the Skeleton.
    packets "$work/$name.described.ogg" | awk '$1 > 0' | cut -f 2 | sort >"$work/$name.found"
    cut -f 2 "$work/$name.want" | sort >"$work/$name.sorted"
    check "$name with a Skeleton: the packets are the same" cmp "$work/$name.sorted" "$work/$name.found"
done

# Other encoders. What is recorded of them and finished is what they wrote, byte for byte. From `flac`, which gives
# each header a page to itself, the packets and the sound are the same.
encode "${tone[@]}" -c:a pcm_s16le -bitexact "$work/tone.wav"
oggenc -Q -o "$work/oggenc.ogg" "$work/tone.wav"
opusenc --quiet "$work/tone.wav" "$work/opusenc.ogg"
flac --silent --ogg -o "$work/flac-tool.ogg" "$work/tone.wav"
speexenc "$work/tone.wav" "$work/speexenc.ogg" >"$work/told" 2>&1
gst-launch-1.0 -q filesrc location="$work/tone.wav" ! wavparse ! audioconvert ! vorbisenc ! oggmux ! filesink location="$work/oggmux.ogg"
recorded() {
    "$program" feed <"$work/$1.ogg" | "$program" record "$work/$1.recorded.ogg" --strict >"$work/replies"
    check "$1: recorded" [ "${PIPESTATUS[*]}" = "0 0" ]
    "$program" finish "$work/$1.recorded.ogg" >"$work/$1.finished.ogg"
}
for name in oggenc opusenc speexenc oggmux; do
    recorded "$name"
    check "$name: something was encoded" [ -s "$work/$name.ogg" ]
    check "$name, recorded and finished: the encoder's file" cmp "$work/$name.ogg" "$work/$name.finished.ogg"
done
recorded flac-tool
packets "$work/flac-tool.ogg" >"$work/want"
packets "$work/flac-tool.finished.ogg" >"$work/found"
check "flac: something was encoded" [ -s "$work/want" ]
check "flac: the packets are the same" cmp "$work/want" "$work/found"
played() {
    gst-launch-1.0 -q filesrc location="$1" ! oggdemux ! flacparse ! flacdec ! filesink location="$work/sound"
    md5sum <"$work/sound"
}
check "flac: GStreamer plays the same" [ "$(played "$work/flac-tool.ogg")" = "$(played "$work/flac-tool.finished.ogg")" ]

# An encoder that works in real time is recorded while it works.
(ffmpeg -nostdin -loglevel error -re "${tone[@]}" -c:a libvorbis -page_duration 200000 -f ogg - |
    "$program" feed | "$program" record "$work/live.ogg" >"$work/live.replies") &
live=$!
seen=0
for _ in $(seq 100); do
    sleep 0.1
    kept=$(grep -c '^kept' "$work/live.replies")
    kill -0 "$live" 2>"$work/gone" || break
    [ "$kept" -le 3 ] || seen=$kept
done
wait "$live"
check "live: $seen commands were kept while the encoder worked" [ "$seen" -gt 3 ]
"$program" finish "$work/live.ogg" >"$work/live.finished.ogg"
check "live: all of it is there" [ "$(sounds "$work/live.finished.ogg" | head -n 1)" = "$(sounds "$work/vorbis.ogg" | head -n 1)" ]

# After an encoder is killed, what was whole is there.
encode "${tone[@]}" -c:a libvorbis -page_duration 200000 "$work/paged.ogg"
head -c 6000 "$work/paged.ogg" | "$program" feed 2>"$work/err" | "$program" record "$work/killed.ogg" >"$work/replies"
check "killed: the torn page is told" grep -q '^fault make 1 Page [0-9]* 1 Short$' "$work/err"
"$program" finish "$work/killed.ogg" >"$work/killed.finished.ogg"
packets "$work/killed.finished.ogg" >"$work/found"
check "killed: something is there" [ -s "$work/found" ]
check "killed: the first packets" cmp "$work/found" <(head -n "$(wc -l <"$work/found")" "$work/vorbis.want")

# Encoders' streams are archived one after the other into one file, each cut out again, and played.
archived() { # archived NAME: the last link of the archive is NAME's stream, packet for packet
    "$program" archive "$work/archive.ogg" <"$work/$1.ogg" 2>"$work/err"
    check "archived $1: status" [ $? -eq 0 ]
    check "archived $1: $(cat "$work/err")" grep -q '^archived 1 [0-9]* [0-9]* 0$' "$work/err"
    "$program" finish "$work/archive.ogg" "$(($("$program" links "$work/archive.ogg" | grep -c '^link') - 1))" >"$work/last.ogg"
    packets "$work/last.ogg" >"$work/found"
    packets "$work/$1.ogg" >"$work/want"
    check "archived $1: the packets are the same" cmp "$work/want" "$work/found"
    check "archived $1: it sounds the same" [ "$(sounds "$work/last.ogg" | head -n 1)" = "$(sounds "$work/$1.ogg" | head -n 1)" ]
}
for name in vorbis opus flac vorbis oggenc opusenc opus; do
    [ ! -s "$work/$name.ogg" ] || archived "$name"
done

# A torn stream, and then the same line again.
head -c 6000 "$work/paged.ogg" | "$program" archive "$work/torn.ogg" 2>"$work/err"
check "archived torn: status" [ "${PIPESTATUS[1]}" -eq 0 ]
"$program" archive "$work/torn.ogg" <"$work/vorbis.ogg" 2>"$work/err"
check "archived after it: $(cat "$work/err")" grep -q '^archived 1 ' "$work/err"
"$program" finish "$work/torn.ogg" 1 >"$work/last.ogg"
packets "$work/last.ogg" >"$work/found"
check "archived after it: the packets are the same" cmp "$work/vorbis.want" "$work/found"

# Encoders send to a station, one after the other into one file, while others listen. Each link has the packets of what
# was sent, and sounds like it; so does what a player hears that joined at the first link, over all of them.
asking() { timeout 30 python3 "$here/asking.py" "$@"; }
printf 'secret\n' >"$work/password"
port=$(asking port)
"$program" station "$work/station.ogg" "127.0.0.1:$port" --password-file "$work/password" </dev/null 2>"$work/station.err" &
station=$!
asking wait "$port"
curl -sN "http://127.0.0.1:$port/live" >"$work/heard.ogg" &
listener=$!
links=0
listed() {
    for _ in $(seq 300); do
        curl -s "http://127.0.0.1:$port/" >"$work/listing"
        [ "$(grep -c '^link' "$work/listing")" = "$links" ] && ! grep -q open "$work/listing" && return 0
        sleep 0.05
    done
    cat "$work/listing"
    return 1
}
sent() { # sent NAME FILE COMMAND ..: the command sends FILE.ogg, and ends well
    local name=$1 file=$2
    shift 2
    timeout 60 "$@" >"$work/out" 2>"$work/err"
    local status=$?
    check "$name: status $status, $(tail -n 1 "$work/err")" [ "$status" -eq 0 ]
    links=$((links + 1))
    check "$name: its link has ended" listed
    curl -s "http://127.0.0.1:$port/link/$((links - 1))" >"$work/link.ogg"
    "$program" finish "$work/link.ogg" >"$work/last.ogg"
    packets "$work/last.ogg" >"$work/found"
    packets "$work/$file.ogg" >"$work/want"
    check "$name: the packets are the same" cmp "$work/want" "$work/found"
    check "$name: it sounds the same" [ "$(sounds "$work/last.ogg" | head -n 1)" = "$(sounds "$work/$file.ogg" | head -n 1)" ]
}
to=127.0.0.1:$port
copies=(-nostdin -loglevel error -re)
sent "ffmpeg, icecast" vorbis ffmpeg "${copies[@]}" -i "$work/vorbis.ogg" -c copy -f ogg -content_type application/ogg "icecast://source:secret@$to/x"
sent "ffmpeg, legacy" opus ffmpeg "${copies[@]}" -i "$work/opus.ogg" -c copy -f ogg -content_type application/ogg -legacy_icecast 1 "icecast://source:secret@$to/x"
sent "ffmpeg, PUT" flac ffmpeg "${copies[@]}" -i "$work/flac.ogg" -c copy -f ogg -method PUT -auth_type basic "http://source:secret@$to/x"
sent "curl, a file" vorbis curl -sf -u source:secret -T "$work/vorbis.ogg" "http://$to/x"
sent "curl, chunks" opus bash -c "curl -sf -u source:secret -T - 'http://$to/x' <'$work/opus.ogg'"
if command -v oggfwd >/dev/null; then
    sent oggfwd vorbis bash -c "oggfwd 127.0.0.1 $port secret /x <'$work/vorbis.ogg'"
else
    echo "no oggfwd: left out"
fi
if command -v ices2 >/dev/null; then
    printf '<ices><background>0</background><logpath>%s</logpath><logfile>ices.log</logfile><consolelog>0</consolelog><stream>' "$work" >"$work/ices.xml"
    printf '<metadata><name>x</name></metadata><input><module>playlist</module><param name="type">basic</param>' >>"$work/ices.xml"
    printf '<param name="file">%s</param><param name="once">1</param></input>' "$work/playlist" >>"$work/ices.xml"
    printf '<instance><hostname>127.0.0.1</hostname><port>%s</port><password>secret</password><mount>/x</mount></instance></stream></ices>\n' "$port" >>"$work/ices.xml"
    echo "$work/vorbis.ogg" >"$work/playlist"
    chmod -R a+rX "$work"
    sent ices2 vorbis ices2 "$work/ices.xml"
else
    echo "no ices2: left out"
fi

not() { ! "$@" >"$work/out" 2>&1; }

# An encoder that is killed, and another one at once.
ffmpeg "${copies[@]}" -stream_loop -1 -i "$work/vorbis.ogg" -c copy -f ogg -content_type application/ogg "icecast://source:secret@$to/x" 2>"$work/err" &
encoder=$!
sleep 1.5
kill -9 "$encoder"
wait "$encoder" 2>/dev/null
links=$((links + 1))
sent "after a kill" opus curl -sf -u source:secret -T "$work/opus.ogg" "http://$to/x"

# Wrong passwords, each as its program says it.
check "ffmpeg, a wrong password" not ffmpeg -nostdin -loglevel error -i "$work/vorbis.ogg" -c copy -f ogg "icecast://source:wrong@$to/x"
check "curl, a wrong password" not curl -sf -u source:wrong -T "$work/vorbis.ogg" "http://$to/x"
# These never read an answer, so only the file tells.
timeout 20 ffmpeg "${copies[@]}" -i "$work/flac.ogg" -c copy -f ogg -method PUT -auth_type basic "http://source:wrong@$to/x" 2>"$work/err"
timeout 20 ffmpeg "${copies[@]}" -i "$work/opus.ogg" -c copy -f ogg -legacy_icecast 1 "icecast://source:wrong@$to/x" 2>"$work/err"
if command -v oggfwd >"$work/which"; then
    check "oggfwd, a wrong password" not timeout 20 oggfwd 127.0.0.1 "$port" wrong /x <"$work/vorbis.ogg"
fi
if command -v ices2 >"$work/which"; then
    sed 's/<password>secret/<password>wrong/' "$work/ices.xml" >"$work/wrong.xml"
    timeout 5 ices2 "$work/wrong.xml" >"$work/out" 2>"$work/err"
fi
check "after them: nothing more" listed

# Players that listen for 20 seconds while one source follows the other.
encode -f lavfi -i "anoisesrc=duration=13:color=pink" -c:a libvorbis -serial_offset 21 "$work/noise.ogg"
encode -f lavfi -i "anoisesrc=duration=13:color=brown" -c:a libvorbis -serial_offset 22 "$work/other.ogg"
curl -sf -u source:secret --limit-rate 12k -T "$work/noise.ogg" "http://$to/x" &
encoders=$!
sleep 3
timeout 40 ffmpeg -nostdin -loglevel error -y -i "http://$to/live" -t 20 -f s16le -ac 1 -ar 48000 "$work/ffmpeg.pcm" 2>"$work/ffmpeg.err" &
players=($!)
if command -v mpv >"$work/which"; then
    timeout 40 mpv --no-config --no-terminal --no-video --ao=pcm --ao-pcm-waveheader=no --ao-pcm-file="$work/mpv.pcm" --length=20 "http://$to/live" &
    players+=($!)
else
    echo "no mpv: left out"
fi
wait "$encoders"
links=$((links + 1))
curl -sf -u source:secret --limit-rate 12k -T "$work/other.ogg" "http://$to/x"
links=$((links + 1))
curl -sf -u source:secret --limit-rate 12k -T "$work/noise.ogg" "http://$to/x"
links=$((links + 1))
wait "${players[@]}"
for player in ffmpeg mpv; do
    [ "$player" = ffmpeg ] || command -v mpv >"$work/which" || continue
    check "$player plays on over a change of source: $(wc -c <"$work/$player.pcm") bytes" [ "$(wc -c <"$work/$player.pcm")" -gt 1700000 ]
done

sleep 0.5
kill "$listener"
curl -s "http://$to/all" >"$work/all.ogg"
check "a listener heard all of it" cmp "$work/all.ogg" "$work/heard.ogg"
kill "$station"
wait "$station" 2>/dev/null
check "the station: no fault" not grep -q fault "$work/station.err"
"$program" archive "$work/station.ogg" --seal </dev/null 2>"$work/err"
check "sealed, the file is what was heard" cmp "$work/station.ogg" "$work/heard.ogg"

finish
