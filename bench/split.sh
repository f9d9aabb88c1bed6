#!/usr/bin/env bash
# Measures `links` and `split` over a file of 1 GB, in large and in small pages, and a program over libogg's sync layer
# that does the same; and how long it takes to open such a file for recording, which reads all of its pages, beside the
# program that lists its links. Then it measures the same link out of a file of many links, and `salvage` over sound and
# over random bytes, beside a plain search for the capture pattern. CPU seconds (user and system) are the best of three runs
# that take turns, and the most memory that each had is printed. Not part of the tests.
#
#     apt-get install libogg-dev && bench/split.sh [BYTES]      none: 1000000000
. "$(dirname "$0")/common.bash"
bytes=${1:-1000000000}

built "$program" "$archive"
cc -O2 -o "$work/measured" "$here/measured.c" || exit 1
for name in pages_made split_libogg; do
    cc -O2 -o "$work/$name" "$here/$name.c" -logg || exit 1
done
cc -O2 -D_GNU_SOURCE -o "$work/captures" "$here/captures.c" || exit 1

# least FILE: the seconds and the memory of the run that took the fewest seconds.
least() { sort -n "$1" | head -n 1; }

# both NAME FILE OUR_WORDS .. -- THEIR_WORDS ..: runs both in turn, and prints what they took.
both() {
    local name=$1 file=$2 ours=() theirs=() run=$program
    shift 2
    while [ "$1" != -- ]; do ours+=("$1"); shift; done
    shift
    theirs=("$@")
    [ "${ours[0]}" != archive ] || run=$archive
    : >"$work/ours.s"
    : >"$work/theirs.s"
    for _ in 1 2 3; do
        "$work/measured" "$work/ours" /dev/null "$run" "${ours[@]}" >>"$work/ours.s" 2>"$work/told"
        "$work/measured" "$work/theirs" "$file" "${theirs[@]}" >>"$work/theirs.s"
    done
    local least_ours least_theirs what
    least_ours=$(least "$work/ours.s")
    least_theirs=$(least "$work/theirs.s")
    what="\`${name%%_*}\`, $(tr _ ' ' <<<"${name#*_}")"
    row "$what" 'CPU s' "${least_ours% *}" "$competitor" "${least_theirs% *}"
    row "$what" kB "${least_ours#* }" "$competitor" "${least_theirs#* }"
    echo "$name $(stat -c %s "$file") $least_ours $least_theirs" |
        awk '{ printf "%-42s %8.1f %10.2f %10.2f %7.2f %10d %10d\n", $1, $2 / 1e6, $3, $5, $3 / $5, $4, $6 }'
}

status=0
competitor='libogg, sync layer'
same() { cmp "$work/ours" "$work/theirs" || status=1; }

printf '%-42s %8s %10s %10s %7s %10s %10s\n' work MB 'ours, s' 'theirs, s' ratio 'ours, kB' 'theirs, kB'
for packet in 100 4000 65024; do
    "$work/pages_made" "$bytes" "$packet" >"$work/file"
    cat "$work/file" >/dev/null
    both "links_packets_of_${packet}_bytes" "$work/file" links "$work/file" -- "$work/split_libogg" links
    same
    cp "$work/file" "$work/opened"
    both "archive_of_nothing,_behind_packets_of_${packet}_bytes" "$work/file" archive "$work/opened" -- "$work/split_libogg" links
    rm "$work/opened"
    [ "$packet" != 4000 ] || continue
    both "split_packets_of_${packet}_bytes" "$work/file" split "$work/file" 0 -- "$work/split_libogg" split
    same
    both "split_a_stream_in_packets_of_${packet}_bytes" "$work/file" split "$work/file" 0 1 -- "$work/split_libogg" split
    same
    both "salvage_packets_of_${packet}_bytes" "$work/file" salvage "$work/file" -- "$work/split_libogg" salvage
    same
done
# The same number of pages in one link, and in 65,536 links: links cost what their pages cost.
for serials in 1 65536; do
    PYTHONPATH=$here/../tests/helpers python3 - "$serials" >"$work/feed" <<'END'
import sys
from records import begin, end, put
links = int(sys.argv[1])
for serial in range(1, links + 1):
    sys.stdout.buffer.write(begin([serial]) + b"".join(put([(serial, 0, b"x")]) for _ in range(65536 * 14 // links)) + end(serial))
END
    "$program" mux <"$work/feed" >"$work/file" 2>"$work/replies"
    for _ in 1 2 3; do "$work/measured" "$work/ours" /dev/null "$program" links "$work/file"; done >"$work/ours.s"
    took=$(least "$work/ours.s")
    [ "$serials" = 1 ] || row "\`links\`, the same pages in $serials links" 'CPU s' "${took% *}" 'ours, in one link' "${one% *}"
    one=$took
    echo "$serials $(stat -c %s "$work/file") $(least "$work/ours.s")" |
        awk '{ printf "%-42s %8.1f %10.2f %10s %7s %10d\n", "links_in_" $1 "_links", $2 / 1e6, $3, "", "", $4 }'
done
head -c "$bytes" /dev/urandom >"$work/file"
cat "$work/file" >/dev/null
competitor='a search for the pattern'
both salvage_random_bytes "$work/file" salvage "$work/file" -- "$work/captures"
[ "$status" -eq 0 ] || echo "they differ"
exit "$status"
