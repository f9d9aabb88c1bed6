#!/usr/bin/env bash
# Measures `archive` of a file of 1 GB, in pages of 4 kB and of 60 kB, beside `cp` with a sync, beside
# `feed | record --group 256`, and beside a C program that only makes the calls that write as many pages in such groups: it
# reads nothing and makes no page. CPU seconds (user and system) and seconds by the clock are the best of three runs that
# take turns. Not part of the tests.
#
#     apt-get install libogg-dev libsqlite3-dev && bench/archive.sh [BYTES]      none: 1000000000
#
# The files are made below TMPDIR, or /tmp: choose a folder on the disk that is to be measured.
. "$(dirname "$0")/common.bash"
bytes=${1:-1000000000}
# The name `program` is set anew by some wrappers of python3.
export recorder=$archive work

built "$archive"
cc -O2 -o "$work/pages_made" "$here/pages_made.c" -logg || exit 1
cc -O2 -o "$work/commits" "$here/record_commits.c" -lsqlite3 || exit 1

# took FILE COMMAND ..: adds the CPU seconds and the seconds by the clock that the command took.
took() {
    local file=$1
    shift
    python3 - "$@" >>"$file" <<'END'
import resource, subprocess, sys, time
begun = time.monotonic()
subprocess.run(sys.argv[1:], check=True)
spent = resource.getrusage(resource.RUSAGE_CHILDREN)
print(f"{spent.ru_utime + spent.ru_stime:.2f} {time.monotonic() - begun:.2f}")
END
}

# The competitors, as the rows name them.
declare -A names=([pair]='`feed` and `record --group 256`' [cp]='cp and a sync' [calls]='the calls alone')

# least FILE COLUMN: the fewest seconds.
least() { sort -n -k "$2" "$1" | head -n 1 | cut -d ' ' -f "$2"; }

printf '%-12s %8s %12s %12s %12s %12s %10s %10s\n' pages MB 'archive, s' 'pair, s' 'cp, s' 'calls, s' 'MB/s CPU' 'of pair'
for packet in 4000 60000; do
    "$work/pages_made" "$bytes" "$packet" >"$work/file"
    rm -f "$work"/*.s
    sync
    for _ in 1 2 3; do
        rm -f "$work/out.ogg"
        took "$work/archive.s" bash -c '"$recorder" archive "$work/out.ogg" <"$work/file" 2>"$work/err"'
        rm -f "$work/pair.ogg"
        took "$work/pair.s" bash -c 'set -o pipefail
            "$recorder" feed <"$work/file" | "$recorder" record "$work/pair.ogg" --group 256 >"$work/replies"'
        rm -f "$work/copy.ogg"
        took "$work/cp.s" bash -c 'cp "$work/file" "$work/copy.ogg" && sync "$work/copy.ogg"'
        rm -f "$work/raw"
        took "$work/calls.s" bash -c '"$work/commits" plain "$work/raw" $(($1 / $2)) "$2" 256 >"$work/replies"' _ "$bytes" "$packet"
    done
    # `archive` has ended the stream, and a byte 00 stands after the pages of both.
    pages=$(($(stat -c %s "$work/pair.ogg") - 1))
    cmp -n "$pages" "$work/out.ogg" "$work/pair.ogg" || exit 1
    for column in 1 2; do
        for other in pair cp calls; do
            row "\`archive\`, pages of $packet bytes" "$([ $column = 1 ] && echo CPU s || echo s)" "$(least "$work/archive.s" $column)" \
                "${names[$other]}" "$(least "$work/$other.s" $column)"
        done
        seconds=$(for it in archive pair cp calls; do least "$work/$it.s" $column; done)
        echo "$packet" "$(stat -c %s "$work/file")" $seconds $column |
            awk '{ printf "%-12s %8.1f %12.2f %12.2f %12.2f %12.2f %10.0f %10.2f %s\n", $1, $2 / 1e6, $3, $4, $5, $6, $2 / 1e6 / $3, $3 / $4, $7 == 1 ? "CPU" : "clock" }'
    done
done
