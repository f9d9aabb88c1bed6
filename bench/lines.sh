#!/usr/bin/env bash
# Lines of 64 bytes, recorded by `lines`, beside SQLite (WAL, synchronous=FULL, a row a line) and beside systemd-cat where journald
# runs: a commit for each line, a commit for 256 of them, and as many as come, of which the CPU seconds count. What is
# best of three runs that take turns counts. Not part of the tests.
#
#     apt-get install libsqlite3-dev && bench/lines.sh [LINES]      none: 1000000 in bulk, and 2000 with a commit each
. "$(dirname "$0")/common.bash"
lines=${1:-1000000}

built "$archive"
cc -O2 -o "$work/commits" "$here/record_commits.c" -lsqlite3 || exit 1
python3 -c "
import sys
for n in range($lines): sys.stdout.write('%09d %s\n' % (n, 'x' * 53))" >"$work/lines"

# took WHAT COMMAND ..: the CPU seconds and the seconds by the clock that the command took, on standard input as it is.
took() {
    python3 - "$@" <<'END'
import os, resource, subprocess, sys, time
begun = time.monotonic()
subprocess.run(sys.argv[1:], stdin=open(os.environ["INPUT"]), check=True, stdout=subprocess.DEVNULL, stderr=subprocess.DEVNULL)
spent = resource.getrusage(resource.RUSAGE_CHILDREN)
print(f"{spent.ru_utime + spent.ru_stime:.2f} {time.monotonic() - begun:.2f}")
END
}
least() { sort -n -k "$2" "$1" | head -n 1 | cut -d ' ' -f "$2"; }

# measure NAME LINES GROUP COLUMN UNIT: GROUP is 0 for as many as come.
measure() {
    local name=$1 count=$2 group=$3 column=$4
    head -n "$count" "$work/lines" >"$work/input"
    rm -f "$work"/*.s
    for _ in 1 2 3; do
        rm -f "$work"/file.*
        sync
        if [ "$group" -eq 0 ]; then
            INPUT=$work/input took "$archive" lines "$work/file.ogg" >>"$work/ours.s"
        else
            INPUT=$work/input took "$archive" lines "$work/file.ogg" --group "$group" >>"$work/ours.s"
        fi
        INPUT=/dev/null took "$work/commits" sqlite "$work/file.db" "$count" 64 "$((group ? group : 256))" >>"$work/sqlite.s"
        if [ -S /run/systemd/journal/stdout ]; then INPUT=$work/input took systemd-cat cat >>"$work/journal.s"; fi
    done
    row "lines, $name" "$5" "$(least "$work/ours.s" "$column")" SQLite "$(least "$work/sqlite.s" "$column")"
    [ ! -f "$work/journal.s" ] || row "lines, $name" "$5" "$(least "$work/ours.s" "$column")" systemd-cat "$(least "$work/journal.s" "$column")"
    printf '%-28s %9d %10s %10s %10s\n' "$name" "$count" "$(least "$work/ours.s" "$column")" "$(least "$work/sqlite.s" "$column")" \
        "$([ -f "$work/journal.s" ] && least "$work/journal.s" "$column" || echo -)"
}

printf '%-28s %9s %10s %10s %10s\n' 'lines of 64 bytes' lines 'lines, s' 'SQLite, s' 'journal, s'
measure 'a commit each' 2000 1 2 s
measure '256 a commit' 100000 256 2 s
measure 'as many as come, CPU' "$lines" 0 1 'CPU s'
