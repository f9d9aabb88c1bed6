#!/usr/bin/env bash
# A feed of three commands, 52, 28 and 9 bytes long, cut at every byte: the commands before the cut are kept, and the
# rest is a fault unless the cut is at a command's end.
. "$(dirname "$0")/../helpers/common.bash"

printf 'begin 1 abc\nput 1 5 hello\nend 1\n' | feed >"$work/feed"
pages "02 0 1 0 3 abc" "00 5 1 1 5 hello" "04 5 1 2 - -" >"$work/pages"
replies=('' 'kept 1 31\n' 'kept 1 31\nkept 2 64\n' 'kept 1 31\nkept 2 64\nkept 3 91\n')
lengths=(0 31 64 91)

for cut in $(seq 0 89); do
    case $cut in
        0 | 52 | 80 | 89) fault='' want=0 ;;
        *) fault='fault feed 1 Truncated\n' want=1 ;;
    esac
    kept=0
    [ "$cut" -lt 52 ] || kept=1
    [ "$cut" -lt 80 ] || kept=2
    [ "$cut" -lt 89 ] || kept=3
    run mux < <(head -c "$cut" "$work/feed")
    head -c "${lengths[kept]}" "$work/pages" >"$work/want"
    check "cut at $cut: status $status, not $want" [ "$status" -eq "$want" ]
    check "cut at $cut: pages" cmp "$work/out" "$work/want"
    check "cut at $cut: replies" is_text "$work/err" "${replies[kept]}$fault"
done

finish
