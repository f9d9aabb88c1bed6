#!/usr/bin/env bash
# The player of a station in a headless Chromium, which is asked by its debugging protocol (browsing.py): what is recorded
# plays, and so does a link; the list grows; of a folder any time plays, and what is between two is fetched; nothing is
# said on the console. Not part of the tests that ./check runs without --media. With a folder as argument, pictures of the
# page are put there.
#
#     tests/player.sh [FOLDER]
. "$(dirname "$0")/helpers/common.bash"
. "$(dirname "$0")/helpers/installing.bash"
command -v google-chrome >"$work/which" || needs chromium ffmpeg -- chromium ffmpeg
browser=$(command -v chromium || command -v google-chrome) || {
    echo "no chromium: left out"
    check "there was nothing to try" true
    finish
}
command -v ffmpeg >"$work/which" || { echo "no ffmpeg" >&2; exit 1; }
timeout 400 python3 "$here/playing.py" "$program" "$browser" "$work" "$@" >"$work/out" 2>&1
status=$?
cat "$work/out"
passed=$(grep -c '^ok ' "$work/out")
failed=$(grep -c '^FAILED' "$work/out")
check "the browser's run ended, with status $status" [ "$status" -eq 0 ]
finish
