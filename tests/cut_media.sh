#!/usr/bin/env bash
# Checks real media with independent tools after `archive` into a folder, over files of two seconds, and `cut`: what
# encoders made is recorded at its own pace; the cut of all of it, and of a time within, sounds and shows what the
# encoder's file does, sample by sample and frame by frame, as one link. ffmpeg, mpv, oggz, ogginfo and a browser take it
# without a word that they don't say of the encoder's file. Not part of the tests that ./check runs, since it installs
# packages.
#
#     tests/cut_media.sh        the last line is 'N passed, M failed'
. "$(dirname "$0")/helpers/common.bash"
. "$(dirname "$0")/helpers/installing.bash"

tools=(ffmpeg ogginfo oggz mpv)
needs "${tools[@]}" -- ffmpeg vorbis-tools oggz-tools mpv || has "${tools[@]}" || exit 1
command -v google-chrome >"$work/which" || needs chromium -- chromium
browser=$(command -v chromium || command -v google-chrome) || echo "no chromium: left out"

encode() { ffmpeg -nostdin -loglevel error -y "$@"; }

# A sound in which no moment is like another, and moving bars.
sound=(-f lavfi -i "anoisesrc=duration=9:sample_rate=48000:amplitude=0.3:seed=7:color=pink")
bars=(-f lavfi -i "testsrc=duration=9:size=320x240:rate=25")
encode "${sound[@]}" -c:a libvorbis -serial_offset 1 "$work/vorbis.ogg"
encode "${sound[@]}" -c:a libopus -serial_offset 2 "$work/opus.ogg"
encode "${sound[@]}" -c:a flac -serial_offset 3 "$work/flac.ogg"
encode "${bars[@]}" "${sound[@]}" -c:v libtheora -g 25 -c:a libvorbis -serial_offset 4 "$work/theora.ogg"

# What is told of a file by others. Serials and numbers of streams are left out, that frames come before the first key
# frame, as in any cut that begins within a film, and that samples of FLAC begin at a position above 0, which mpv tells.
told_of() {
    ogginfo "$1" | grep -i 'warning\|error' | sed 's/serial: [0-9a-f]*//; s/stream ([0-9]*)/stream/'
    oggz validate "$1" 2>&1 | grep -v "^$1" | sed 's/serialno [0-9]*//; s/^[0-9:.]* *//' | sort -u
    ffmpeg -nostdin -loglevel warning -i "$1" -f null - 2>&1 | sed 's/ @ 0x[0-9a-f]*//' | grep -v 'first frame not a keyframe' | sort -u
    mpv --no-config --ao=null --ao-null-untimed=yes --vo=null --untimed=yes --msg-level=all=warn "$1" </dev/null 2>&1 |
        tr -d '\r' | grep -v 'first frame not a keyframe\|^Invalid audio PTS: 0\.' | sort -u
    mpv --no-config --ao=null --ao-null-untimed=yes --vo=null --untimed=yes --really-quiet "$1" </dev/null
    echo "mpv ended with $?"
}
no_more_told() { [ -z "$(comm -13 <(told_of "$1" | sort -u) <(told_of "$2" | sort -u))" ]; }
streams_in() { ogginfo "$1" | grep -c '^New logical stream'; }

# record NAME: the encoder's file comes at its own pace, a page for each fifth of a second.
record() {
    encode -re -i "$work/$1.ogg" -c copy -serial_offset "$((RANDOM % 1000))" -page_duration 200000 -f ogg - 2>"$work/$1.ffmpeg" |
        "$program" archive "$work/$1/" --every 2s 2>"$work/$1.err"
}
# A file that lasts for less than a second has no line that tells of its link, so none begins late in a period.
python3 -c 'import time; time.sleep(2.05 - time.time() % 2)'
since=$(date -u -d '+3 seconds' +%Y-%m-%dT%H:%M:%S.%3NZ)
until=$(date -u -d '+7 seconds' +%Y-%m-%dT%H:%M:%S.%3NZ)
for name in vorbis opus flac theora; do record "$name" & done
wait

for name in vorbis opus flac theora; do
    count=$(streams_in "$work/$name.ogg")
    files=$(ls "$work/$name" | grep -c 'ogg$')
    check "$name: recorded into $files files" [ "$files" -ge 4 ]
    for part in all within; do
        words=()
        [ $part = all ] || words=(--since "$since" --until "$until")
        cut=$work/$name.$part.ogg
        "$program" cut "$work/$name" "${words[@]}" >"$cut" 2>"$work/err"
        check "$name, $part: status" [ $? -eq 0 ]
        check "$name, $part: $(head -n 1 "$work/err")" grep -q "^cut .* [3-9] files 1 links $(stat -c %s "$cut") bytes$" "$work/err"
        check "$name, $part: $(streams_in "$cut") streams" [ "$(streams_in "$cut")" -eq "$count" ]
        check "$name, $part: no more is told of it than of the encoder's file" no_more_told "$work/$name.ogg" "$cut"
        check "$name, $part: it sounds the same" python3 "$here/sounding.py" sound "$work/$name.ogg" "$cut" $part
        [ $name != theora ] || check "$name, $part: it shows the same" python3 "$here/sounding.py" frames "$work/$name.ogg" "$cut" $part
    done
    # No browser shows Theora any more.
    [ -z "$browser" ] || [ $name = theora ] || check "$name: it plays in a browser" \
        timeout 300 python3 "$here/browsed.py" "$browser" "$work/$name.ogg" "$work/$name.all.ogg" "$work/$name.within.ogg"
done

finish
