#!/usr/bin/env bash
# Measures `cut` of an archive: ten seconds out of 10,000 files, beside `ls` of the folder, `list` of them, beside `ls -l`,
# and all of a recording in pages of 4 kB over files that go on with one another, once from its beginning and once from a
# time on at which a link was open, beside `cp` with a sync of as many bytes, and beside a program that reads and writes
# them. CPU seconds (user and system) and seconds by the clock are the best of three runs that take turns; kB are the most
# memory that a run had. Not part of the tests.
#
#     apt-get install libogg-dev && bench/cut.sh [BYTES]      none: 1000000000
#
# The files are made below TMPDIR, or /tmp: choose a folder on the disk that is to be measured.
. "$(dirname "$0")/common.bash"
bytes=${1:-1000000000}
built "$archive"
cc -O2 -o "$work/pages_made" "$here/pages_made.c" -logg || exit 1
cc -O2 -o "$work/measured" "$here/measured.c" || exit 1

# took FILE OUTPUT COMMAND ..: adds the CPU seconds, the seconds by the clock and the kB that the command took, with a sync
# of its output if that is a file that stays.
took() {
    local file=$1 output=$2 begun spent more
    shift 2
    begun=$EPOCHREALTIME
    spent=$("$work/measured" "$output" /dev/null "$@" 2>"$work/err")
    more="0 0"
    [ "${output##*.}" != ogg ] || more=$("$work/measured" /dev/null /dev/null /bin/sync "$output")
    echo "$spent $more $begun $EPOCHREALTIME" | awk '{ printf "%.3f %.4f %d\n", $1 + $3, $6 - $5, $2 }' >>"$file"
}

# least FILE COLUMN: the least.
least() { sort -n -k "$2,$2" "$1" | head -n 1 | cut -d ' ' -f "$2"; }

# ---- ten seconds out of 10,000 files of an hour
python3 - "$here/../tests/helpers" "$work/many" <<'END'
import os, sys, time
sys.path.insert(0, sys.argv[1])
from pages import page
folder = sys.argv[2]
os.mkdir(folder)
start = 1609509600000
begin = page(2, 0, 7, 0, [5], b"first")
packets = [page(0, 48000 * (at + 1), 7, 1 + at, [200], bytes(200)) for at in range(60)]
end = page(4, 48000 * 60, 7, 61, [], b"")
data = begin + b"".join(packets) + end
for number in range(1, 10001):
    when = start + number * 3600000
    stamp = time.strftime("%Y%m%dT%H%M%SZ", time.gmtime(when // 1000))
    name = f"{folder}/{number:06}-{stamp}"
    with open(name + ".ogg", "wb") as out:
        out.write(data)
    lines = [f"{len(begin)} {when} 0 {len(begin)}\n"]
    lines += [f"{len(begin) + len(packets[0]) * (at + 1)} {when + 1000 * (at + 1)} 0 {len(begin)}\n" for at in range(60)]
    lines += [f"{len(data)} {when + 61000} - -\n"]
    with open(name + ".times", "w") as out:
        out.writelines(lines)
END
for _ in 1 2 3; do
    took "$work/ten.s" "$work/ten" "$archive" cut "$work/many" --since 2021-08-01T10:00:10Z --until 2021-08-01T10:00:20Z
    took "$work/ls.s" "$work/names" /bin/ls "$work/many"
    took "$work/list.s" "$work/list" "$archive" list "$work/many"
    took "$work/long.s" "$work/long" /bin/ls -l "$work/many"
done
[ "$("$archive" links "$work/ten" | grep -c '^link')" = 1 ] && [ "$(grep -c '^file' "$work/list")" = 10000 ] || exit 1
# both NAME OURS COMPETITOR THEIRS: rows of the CPU seconds, the seconds and the kB.
both() {
    local column unit
    for column in 1 2 3; do
        unit=$(echo 'CPU s:s:kB' | cut -d : -f $column)
        row "$1" "$unit" "$(least "$2" $column)" "$3" "$(least "$4" $column)"
        printf '%s (%s): %s, %s %s\n' "$1" "$unit" "$(least "$2" $column)" "$3" "$(least "$4" $column)"
    done
}
both '`cut`, ten seconds of 10,000 files' "$work/ten.s" '`ls` of the folder' "$work/ls.s"
both '`list` of 10,000 files, each with its times' "$work/list.s" '`ls -l` of the folder' "$work/long.s"
rm -rf "$work/many"

# ---- all of a recording
"$work/pages_made" "$bytes" 4000 >"$work/file"
"$archive" archive "$work/all/" --every 1d --most-bytes $((bytes / 4)) <"$work/file" 2>"$work/err"
rm "$work/file"
# When the first line of times was written: the link is open there, and is joined.
since=$(python3 - "$work/all" <<'END'
import os, sys, time
folder = sys.argv[1]
name = sorted(name for name in os.listdir(folder) if name.endswith(".times"))[0]
when = int(open(f"{folder}/{name}").readline().split()[1])
print(time.strftime("%Y-%m-%dT%H:%M:%S", time.gmtime(when // 1000)) + f".{when % 1000:03}Z")
END
)
for _ in 1 2 3; do
    rm -f "$work/out.ogg" "$work/copy.ogg" "$work/joined.ogg"
    sync
    took "$work/joined.s" "$work/joined.ogg" "$archive" cut "$work/all" --since "$since"
    took "$work/cut.s" "$work/out.ogg" "$archive" cut "$work/all"
    took "$work/cp.s" "$work/copied" /bin/cp "$work/out.ogg" "$work/copy.ogg"
    took "$work/sync.s" "$work/copied" /bin/sync "$work/copy.ogg"
    # What any program takes that reads the bytes and writes them.
    took "$work/dd.s" "$work/dd.ogg" /bin/dd if="$work/copy.ogg" bs=256K
done
[ "$("$archive" links "$work/out.ogg" | grep -c '^link')" = 1 ] || exit 1
paste -d ' ' "$work/cp.s" "$work/sync.s" | awk '{ printf "%.3f %.4f %d\n", $1 + $4, $2 + $5, $3 }' >"$work/both.s"
name="\`cut\`, all of $((bytes / 1000000)) MB in $(ls "$work/all" | grep -c 'ogg$') files"
both "$name" "$work/cut.s" 'cp and a sync' "$work/both.s"
both "$name" "$work/cut.s" 'dd and a sync' "$work/dd.s"
both "\`cut\`, $(($(stat -c %s "$work/joined.ogg") / 1000000)) MB from within a link on" "$work/joined.s" 'cp and a sync' "$work/both.s"
