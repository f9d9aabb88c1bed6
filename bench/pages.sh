#!/usr/bin/env bash
# Reads and checks the pages of large files by `test_read` and by a small program over libogg's sync layer, which must
# count the same. It prints the CPU seconds (user and system) of both, each the best of three runs that take turns. Not
# part of the tests.
#
#     apt-get install libogg-dev && bench/pages.sh [SHAPE ..]      tiny, audio, streams, frames, large; none: all
. "$(dirname "$0")/common.bash"

built "$program" "$reader"
cc -O2 -o "$work/pages_libogg" "$here/pages_libogg.c" -logg || exit 1

# cpu FILE COMMAND ..: runs the command on the pages, with its output in FILE, and prints its CPU seconds.
cpu() {
    local file=$1
    shift
    TIMEFORMAT='%U %S'
    { time "$@" <"$work/pages" >"$file"; } 2>&1 | awk '{ printf "%.3f\n", $1 + $2 }'
}

printf '%-8s %12s %12s %10s %7s\n' shape 'pages, MB' 'test_read, s' 'libogg, s' ratio
status=0
for shape in "${@:-tiny audio streams frames large}"; do
    for shape in $shape; do
        python3 "$here/feeds.py" "$shape" | "$program" mux >"$work/pages" 2>"$work/replies" || exit 1
        ours='' theirs=''
        for _ in 1 2 3; do
            ours+="$(cpu "$work/ours" "$reader") "
            theirs+="$(cpu "$work/theirs" "$work/pages_libogg") "
        done
        cmp "$work/ours" "$work/theirs" || status=1
        ours=$(printf '%s\n' $ours | sort -n | head -n 1)
        theirs=$(printf '%s\n' $theirs | sort -n | head -n 1)
        row "pages are read, $(shape_name "$shape")" 'CPU s' "$ours" 'libogg, sync layer' "$theirs"
        echo "$shape $(stat -c %s "$work/pages") $ours $theirs" |
            awk '{ printf "%-8s %12.1f %12.2f %10.2f %7.2f\n", $1, $2 / 1e6, $3, $4, $3 / $4 }'
    done
done
[ "$status" -eq 0 ] || echo "they differ"
exit "$status"
