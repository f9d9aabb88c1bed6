#!/usr/bin/env bash
# Measures a window over a file of 1 GB, in small and in large pages: `test_read window FILE` and a small program over
# libogg's sync layer, which must count the same. It prints the CPU seconds (user and system) of both, each the best of
# three runs that take turns, and the most memory that each had. Not part of the tests.
#
#     apt-get install libogg-dev && bench/window.sh [BYTES]      none: 1000000000
. "$(dirname "$0")/common.bash"
bytes=${1:-1000000000}

built "$reader"
cc -O2 -o "$work/measured" "$here/measured.c" || exit 1
for program in pages_libogg pages_made; do
    cc -O2 -o "$work/$program" "$here/$program.c" -logg || exit 1
done

printf '%-14s %8s %10s %10s %7s %10s %10s\n' 'bytes a packet' MB 'window, s' 'libogg, s' ratio 'window, kB' 'libogg, kB'
status=0
for packet in 100 1000 4000 65025; do
    "$work/pages_made" "$bytes" "$packet" >"$work/pages"
    cat "$work/pages" >/dev/null
    ours='' theirs=''
    for _ in 1 2 3; do
        ours+="$("$work/measured" "$work/ours" /dev/null "$reader" window "$work/pages")"$'\n'
        theirs+="$("$work/measured" "$work/theirs" "$work/pages" "$work/pages_libogg")"$'\n'
    done
    cmp "$work/ours" "$work/theirs" || status=1
    ours=$(sort -n <<<"$ours" | sed '/^$/d' | head -n 1)
    theirs=$(sort -n <<<"$theirs" | sed '/^$/d' | head -n 1)
    row "a window, packets of $packet bytes" 'CPU s' "${ours% *}" 'libogg, sync layer' "${theirs% *}"
    row "a window, packets of $packet bytes" kB "${ours#* }" 'libogg, sync layer' "${theirs#* }"
    echo "$packet $(stat -c %s "$work/pages") $ours $theirs" |
        awk '{ printf "%-14s %8.1f %10.2f %10.2f %7.2f %10d %10d\n", $1, $2 / 1e6, $3, $5, $3 / $5, $4, $6 }'
done
[ "$status" -eq 0 ] || echo "they differ"
exit "$status"
