#!/usr/bin/env bash
# Any bytes are mended into a feed by `feed --mend`, and recorded by `archive`, as the tests' own plain program mends them.
. "$(dirname "$0")/../helpers/common.bash"

mending() { timeout 300 python3 "$here/mending.py" "$program" "$1"; }

for files in damage broken random sound archived; do
    check "$files" mending "$files"
done

# Each mend is a line, and the status is 0 with mends alone.
pages "02 0 1 0 3 abc" "00 5 1 1 5 hello" "00 9 1 4 2 on" "00 9 1 4 2 on" >"$work/gap.ogg"
run feed --mend <"$work/gap.ogg"
check "a gap and a page twice: status $status" [ "$status" -eq 0 ]
check "a gap and a page twice: told" is_text "$work/err" 'mended 2 Gap 64 1 2 4\nmended 5 Repeated 94 1\n'
cp "$work/out" "$work/feed"
run mux --check --strict <"$work/feed"
check "a gap and a page twice: all that was kept" is_text "$work/out" 'kept 1 31\nkept 2 64\nkept 3 94\nkept 4 121\n'
run feed <"$work/gap.ogg"
check "without mending: status $status" [ "$status" -eq 1 ]
check "without mending: the fault" is_text "$work/err" 'fault make 2 Chain 64 1 Sequence\n'

# The options go together.
cat "$work/gap.ogg" "$work/gap.ogg" >"$work/twice.ogg"
run feed --mend --renumber --skeleton 9 <"$work/twice.ogg"
check "mended and changed: status $status" [ "$status" -eq 0 ]
cp "$work/out" "$work/feed"
run mux --check --strict <"$work/feed"
check "mended and changed: every command is kept" [ "$status" -eq 0 ]

# A mend is told before the next page comes.
live() {
    { pages "02 0 1 0 3 abc" "00 9 1 4 2 on"; sleep 3; } | "$program" feed --mend 2>"$work/live" >/dev/null &
    local pid=$!
    for _ in 1 2 3 4 5 6 7 8 9 10; do
        [ -s "$work/live" ] && break
        sleep 0.2
    done
    is_text "$work/live" 'mended 2 Gap 31 1 1 4\n'
    local told=$?
    wait "$pid"
    return "$told"
}
check "a mend is told at once" live

finish
