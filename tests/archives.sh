#!/usr/bin/env bash
# Real encoders' streams in an archive that is a folder: each of its files is a plain Ogg file, and played one after the
# other they are the encoder's own samples, but for what a decoder needs to begin with. Not part of the tests that ./check
# runs without --media.
#
#     tests/archives.sh         the last line is 'N passed, M failed'
. "$(dirname "$0")/helpers/common.bash"
. "$(dirname "$0")/helpers/installing.bash"

needs ffmpeg oggz ogginfo -- ffmpeg oggz-tools vorbis-tools || has ffmpeg oggz ogginfo || exit 1

# A sound that never repeats itself, for 20 seconds.
sound=(-f lavfi -i "anoisesrc=duration=20:color=pink:seed=5:amplitude=0.3:sample_rate=48000")
for codec in vorbis opus flac; do
    case $codec in flac) coder=flac ;; *) coder=lib$codec ;; esac
    ffmpeg -nostdin -loglevel error -y "${sound[@]}" -c:a "$coder" -serial_offset 5 -f ogg "$work/$codec.ogg"
    run archive "$work/$codec/" --most-bytes $(($(wc -c <"$work/$codec.ogg") / 6)) --seal <"$work/$codec.ogg"
    check "$codec: recorded into files: $(tail -n 1 "$work/err")" [ "$status" -eq 0 ]
    files=("$work/$codec"/*.ogg)
    check "$codec: ${#files[@]} files" [ "${#files[@]}" -ge 5 ]
    told=$(python3 "$here/decoding.py" "$codec" "$work/$codec.ogg" "${files[@]}")
    check "$codec: the files play one after the other:
$told" [ $? -eq 0 ]
    echo "$codec: $(grep -o '[0-9]* missing.*' <<<"$told" | sort -u | tr '\n' ';')"
    for file in "${files[@]}"; do
        run finish "$file"
        cp "$work/out" "$work/finished.ogg"
        # The first page of a file that goes on has a position, and oggz wants a beginning: --prefix takes that.
        check "$codec: oggz takes ${file##*/}: $(oggz validate "$work/finished.ogg" 2>&1 | head -n 1)" \
            oggz validate --max-errors 1 "$work/finished.ogg"
        check "$codec: ogginfo has no more to say of ${file##*/}" \
            [ "$(ogginfo "$work/finished.ogg" | grep -ciE 'warning|error')" -le "$(ogginfo "$work/$codec.ogg" | grep -ciE 'warning|error')" ]
        ffmpeg -nostdin -loglevel warning -i "$file" -f null - 2>"$work/said"
        check "$codec: ffmpeg plays ${file##*/}: $(head -n 1 "$work/said")" [ ! -s "$work/said" ]
    done
done

finish
