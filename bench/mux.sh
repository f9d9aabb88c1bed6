#!/usr/bin/env bash
# Sends the same feed through `mux` and through a small program over libogg, with a write and a reply for each command, and
# with pages of many commands at once and no reply. It compares the pages and the replies byte for byte, and prints the
# CPU seconds (user and system) of all three, and of `dd`, which reads the feed and writes it by 64 KiB, each the best of
# three runs that take turns. Nothing that reads a feed and writes its pages can take less than `dd`. Not part of the tests.
#
#     apt-get install libogg-dev && bench/mux.sh [SHAPE ..]      tiny, audio, streams, frames, large; none: all
. "$(dirname "$0")/common.bash"

built "$program"
cc -O2 -o "$work/mux_libogg" "$here/mux_libogg.c" -logg || exit 1

# cpu FILE COMMAND ..: runs the command on the feed, its pages to FILE, its replies to FILE.replies, and prints its CPU
# seconds.
cpu() {
    local file=$1
    shift
    TIMEFORMAT='%U %S'
    { time "$@" <"$work/feed" >"$file" 2>"$file.replies"; } 2>&1 | awk '{ printf "%.3f\n", $1 + $2 }'
}

printf '%-8s %12s %10s %10s %10s %10s %7s %7s\n' shape 'pages, MB' 'mux, s' 'libogg, s' 'quiet, s' 'dd, s' ratio quiet
status=0
for shape in "${@:-tiny audio streams frames large}"; do
    for shape in $shape; do
        python3 "$here/feeds.py" "$shape" >"$work/feed" || exit 1
        ours='' theirs='' quiet='' copied=''
        for _ in 1 2 3; do
            ours+="$(cpu "$work/ours" "$program" mux) "
            quiet+="$(cpu "$work/theirs" "$work/mux_libogg" quiet) "
            cmp "$work/ours" "$work/theirs" || status=1
            theirs+="$(cpu "$work/theirs" "$work/mux_libogg") "
            copied+="$(cpu "$work/copied" dd bs=65536 status=none) "
        done
        cmp "$work/ours" "$work/theirs" && cmp "$work/ours.replies" "$work/theirs.replies" || status=1
        ours=$(printf '%s\n' $ours | sort -n | head -n 1)
        theirs=$(printf '%s\n' $theirs | sort -n | head -n 1)
        quiet=$(printf '%s\n' $quiet | sort -n | head -n 1)
        copied=$(printf '%s\n' $copied | sort -n | head -n 1)
        row "\`mux\`, $(shape_name "$shape")" 'CPU s' "$ours" 'libogg, with replies' "$theirs"
        row "\`mux\`, $(shape_name "$shape")" 'CPU s' "$ours" 'libogg, no replies' "$quiet"
        row "\`mux\`, $(shape_name "$shape")" 'CPU s' "$ours" 'dd, which only copies' "$copied"
        echo "$shape $(stat -c %s "$work/ours") $ours $theirs $quiet $copied" |
            awk '{ printf "%-8s %12.1f %10.2f %10.2f %10.2f %10.2f %7.2f %7.2f\n", $1, $2 / 1e6, $3, $4, $5, $6, $3 / $4, $3 / $5 }'
        rm -f "$work/ours" "$work/theirs" "$work/copied"
    done
done
[ "$status" -eq 0 ] || echo "they differ"
exit "$status"
