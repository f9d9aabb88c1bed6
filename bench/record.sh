#!/usr/bin/env bash
# Commits of packets into a file, by four programs:
#   record   ours
#   libogg   a C program that reads the same feed, makes the pages by libogg, and makes the same calls of the system; its
#            file and its replies are compared with ours, byte for byte
#   calls    a C program that makes only these calls: it reads no feed and makes no page, and there is no checksum
#   sqlite   SQLite (WAL, synchronous=FULL, a row a commit, groups in one transaction)
# Each feed goes through all four in turn, ROUNDS times (none: 9), and the best time of each counts: a disk's time varies more
# than the programs do. What was written before is on the disk when the first one begins. The seconds are by the clock,
# since what a commit costs is the disk's. Not part of the tests.
#
#     apt-get install libogg-dev libsqlite3-dev && bench/record.sh [FOLDER]    the files lie in FOLDER, else in a temporary one
[ $# -eq 0 ] || TMPDIR=$1
. "$(dirname "$0")/common.bash"

built "$program"
cc -O2 -o "$work/commits" "$here/record_commits.c" -lsqlite3 || exit 1
cc -O2 -o "$work/libogg" "$here/mux_libogg.c" -logg || exit 1

# clock REPLIES COMMAND ..: the seconds that the command takes on the feed; its replies go to REPLIES.
clock() {
    local replies=$1
    shift
    TIMEFORMAT=%R
    { time "$@" <"$work/feed" >"$replies" 2>/dev/null; } 2>&1
}
least() { printf '%s\n' "$@" | sort -n | head -n 1; }

status=0

# measure NAME PACKETS BYTES GROUP
measure() {
    local ours='' libogg='' calls='' sqlite=''
    PYTHONPATH=$here/../tests/helpers python3 - "$2" "$3" >"$work/feed" <<'END'
import sys
from records import begin, put
count, size = int(sys.argv[1]), int(sys.argv[2])
sys.stdout.buffer.write(begin([1]))
for n in range(count):
    sys.stdout.buffer.write(put([(1, n, bytes(n * 31 % 256 for _ in range(size)))]))
END
    sync
    for _ in $(seq "${ROUNDS:-9}"); do
        rm -f "$work"/file.*
        ours+="$(clock "$work/ours" "$program" record "$work/file.ogg" --group "$4") "
        libogg+="$(clock "$work/theirs" "$work/libogg" "$work/file.libogg" "$4") "
        calls+="$(clock /dev/null "$work/commits" plain "$work/file.raw" "$2" "$3" "$4") "
        sqlite+="$(clock /dev/null "$work/commits" sqlite "$work/file.db" "$2" "$3" "$4") "
        cmp "$work/file.ogg" "$work/file.libogg" && cmp "$work/ours" "$work/theirs" || status=1
    done
    ours=$(least $ours) libogg=$(least $libogg) calls=$(least $calls) sqlite=$(least $sqlite)
    row "commits, ${1//_/ }" s "$ours" 'libogg, the same calls' "$libogg"
    row "commits, ${1//_/ }" s "$ours" 'the calls alone' "$calls"
    row "commits, ${1//_/ }" s "$ours" 'SQLite' "$sqlite"
    echo "$1 $2 $ours $libogg $calls $sqlite" | awk '{
        printf "%-16s %8d %9.0f %9.0f %9.0f %9.0f %10.2f %10.2f %10.2f\n",
            $1, $2, $2 / $3, $2 / $4, $2 / $5, $2 / $6, $4 / $3, $5 / $3, $6 / $3 }'
}

printf '%-16s %8s %9s %9s %9s %9s %10s %10s %10s\n' packets count record/s libogg/s calls/s sqlite/s \
    'of libogg' 'of calls' 'of sqlite'
measure 64_bytes 2000 64 1
measure 65_kB 1000 65000 1
measure 64_bytes_by_256 200000 64 256
[ "$status" -eq 0 ] || echo "they differ"
exit "$status"
