#!/usr/bin/env bash
# Which calls of the device a recording makes, each with its place, and what a stop before each of them leaves.
. "$(dirname "$0")/../helpers/common.bash"

cc -O2 -shared -fPIC -D_GNU_SOURCE -o "$work/failing.so" "$here/failing.c" || exit 1
begin='begin([1])'
hello='put([(1, 5, b"hello")])'

# recorded NAME CALLS FEED WORD ..: records a feed into the file, and checks the last device calls, as many as there are
# in CALLS: "write COUNT AT", "sync".
recorded() {
    local name=$1 calls=$2 feed=$3
    shift 3
    rm -f "$work/log"
    records "$feed" >"$work/feed"
    FAILING_LOG=$work/log LD_PRELOAD=$work/failing.so run record "$work/file.ogg" "$@" <"$work/feed"
    check "$name: status" [ "$status" -eq 0 ]
    tail -n "$(printf '%b' "$calls" | wc -l)" "$work/log" >"$work/calls"
    check "$name: its calls" is_text "$work/calls" "$calls"
}

# left FILE: where the committed bytes end, and how many bytes follow.
left() {
    local end
    end=$("$program" links "$1" | sed -n '1s/committed //p')
    echo "$end $(($(wc -c <"$1") - end))"
}

# stopped NAME LEFT FEED WORD ..: records a feed into a copy of the file, stopped before its first device call, before its
# second, up to a run that isn't stopped. What these leave, each told once, is LEFT.
stopped() {
    local name=$1 want=$2 feed=$3 call
    shift 3
    records "$feed" >"$work/feed"
    rm -f "$work/left"
    for call in $(seq 1 40); do
        cp "$work/file.ogg" "$work/stopped.ogg"
        rm -f "$work/met"
        FAILING_CALL=$call FAILING_HOW=stop FAILING_MET=$work/met LD_PRELOAD=$work/failing.so \
            run record "$work/stopped.ogg" "$@" <"$work/feed"
        left "$work/stopped.ogg" >>"$work/left"
        [ -e "$work/met" ] || break
        cp "$work/stopped.ogg" "$work/stopped.$call.ogg"
    done
    uniq "$work/left" >"$work/told"
    check "$name: what stops leave" is_text "$work/told" "$want"
}

# A file that is made is synced whole, and so is its folder, before anything is written into it. After that only data is
# synced: by the opening, which writes the closed byte, and by the commit.
recorded "a new file" 'sync whole\nsync whole\nsync\nwrite 1 0\nsync\nwrite 31 1\nsync\nwrite 1 0\nsync\n' "$begin"
check "a new file: there were no other calls" [ "$(wc -l <"$work/log")" -eq 9 ]

# A page is written behind its first byte, with a closed byte after it. It is synced, and then the first byte is written.
: >"$work/file.ogg"
recorded "a link" 'write 31 1\nsync\nwrite 1 0\nsync\n' "$begin"
cp "$work/file.ogg" "$work/begun.ogg"
stopped "a packet" '31 1\n31 34\n64 1\n' "$hello"
recorded "a packet" 'write 33 32\nsync\nwrite 1 31\nsync\n' "$hello"

# Of two pages only the first waits for its first byte.
cp "$work/begun.ogg" "$work/file.ogg"
stopped "two pages" '31 1\n31 65307\n31 65336\n65366 1\n' 'put([(1, 5, bytes(65025))])'
recorded "two pages" 'write 65306 32\nwrite 29 65338\nsync\nwrite 1 31\nsync\n' 'put([(1, 5, bytes(65025))])'

# A group of three commands has one commit.
: >"$work/file.ogg"
stopped "a group" '0 0\n0 1\n0 32\n0 65\n0 92\n91 1\n' "$begin, $hello, end(1)" --group 3
recorded "a group" 'write 31 1\nwrite 34 31\nwrite 28 64\nsync\nwrite 1 0\nsync\n' "$begin, $hello, end(1)" --group 3

# A folder's file ends with its last commit: it is cut, synced, and the one byte is written and synced. Then the folder is
# synced, the closed byte of the next file, and what its first commit writes: six syncs before anything of it is
# acknowledged. The times of the file before come later.
python3 "$here/filing.py" stream 1 30 >"$work/stream"
rm -f "$work/log"
FAILING_LOG=$work/log LD_PRELOAD=$work/failing.so run archive "$work/folder/" --most-bytes 400 <"$work/stream"
check "a change of files: status" [ "$status" -eq 0 ]
awk '/^cut/ { syncs = 0; bytes = 0; counts = 1 }
    counts && /^sync/ { syncs++; if (bytes == 2) { print syncs; counts = 0 } }
    counts && syncs > 2 && /^write 1 0$/ { bytes++ }' "$work/log" | sort -u >"$work/syncs"
check "a change of files: its syncs" is_text "$work/syncs" '6\n'

# What a stop leaves of a packet of 60,000 bytes is written over, and what was recorded is read again.
cp "$work/begun.ogg" "$work/file.ogg"
stopped "a large page" '31 1\n31 60264\n60294 1\n' 'put([(1, 5, bytes(60000))])'
for file in "$work"/stopped.*.ogg; do
    [ "$(left "$file")" = "31 60264" ] && cp "$file" "$work/over.ogg"
done
records "$hello" | run record "$work/over.ogg"
check "it is written over: the reply" is_text <(head -1 "$work/out") 'kept 1 64\n'
check "it is written over: what follows" [ "$(left "$work/over.ogg")" = "64 60231" ]
records "$begin, $hello" | "$program" mux >"$work/want" 2>"$work/err"
"$program" split "$work/over.ogg" 0 >"$work/link" 2>"$work/err"
check "it is written over: the packets abc and hello" cmp -s "$work/link" "$work/want"

finish
