#!/usr/bin/env bash
# Measures archives that are folders beside archives that are files: what a run costs that begins many files, what a restart
# costs behind much that was recorded, and what a folder of 10,000 files costs whoever opens and lists it. CPU seconds (user
# and system) and seconds by the clock are the best of three runs that take turns. Not part of the tests.
#
#     apt-get install libogg-dev && bench/folder.sh [BYTES [BEHIND]]      none: 1000000000 2000000000
#
# BEHIND is how much was recorded before a restart. The files are made below TMPDIR, or /tmp.
. "$(dirname "$0")/common.bash"
bytes=${1:-1000000000}
behind=${2:-2000000000}
export recorder=$archive work

built "$archive"
cc -O2 -o "$work/pages_made" "$here/pages_made.c" -logg || exit 1

# took FILE COMMAND: adds the CPU seconds and the seconds by the clock that the command took.
took() {
    python3 - "$2" >>"$1" <<'END'
import resource, subprocess, sys, time
begun = time.monotonic()
subprocess.run(["bash", "-c", sys.argv[1]], check=True)
spent = resource.getrusage(resource.RUSAGE_CHILDREN)
print(f"{spent.ru_utime + spent.ru_stime:.3f} {time.monotonic() - begun:.3f}")
END
}
least() { sort -n -k "$2" "$1" | head -n 1 | cut -d ' ' -f "$2"; }
# compared NAME OURS COMPETITOR THEIRS: rows of two commands that take turns three times.
compared() {
    local unit column
    rm -f "$work"/*.s
    for _ in 1 2 3; do
        took "$work/ours.s" "$2"
        took "$work/theirs.s" "$4"
    done
    for column in 1 2; do
        unit=$([ $column = 1 ] && echo CPU s || echo s)
        row "$1" "$unit" "$(least "$work/ours.s" $column)" "$3" "$(least "$work/theirs.s" $column)"
        printf '%-60s %6s %10s   %s %s\n' "$1" "$unit" "$(least "$work/ours.s" $column)" "$3" "$(least "$work/theirs.s" $column)"
    done
}

"$work/pages_made" "$bytes" 4000 >"$work/file"
sync
one='rm -rf "$work/one.ogg" && "$recorder" archive "$work/one.ogg" <"$work/file" 2>"$work/err"'
compared '`archive DIR --every 1s`' \
    'rm -rf "$work/many" && "$recorder" archive "$work/many/" --every 1s <"$work/file" 2>"$work/err"' '`archive FILE`' "$one"
export size=$((bytes / 100))
compared '`archive DIR --most-bytes`, 100 files' \
    'rm -rf "$work/many" && "$recorder" archive "$work/many/" --most-bytes "$size" <"$work/file" 2>"$work/err"' '`archive FILE`' "$one"

# A restart reads one file.
rm -rf "$work/many" "$work/one.ogg"
"$work/pages_made" "$behind" 4000 >"$work/file"
export size=$((behind / 100))
"$archive" archive "$work/many/" --every 9999w --most-bytes "$size" <"$work/file" 2>"$work/err"
"$archive" archive "$work/one.ogg" <"$work/file" 2>"$work/err"
rm "$work/file"
compared "a restart of \`archive DIR\` behind $((behind / 1000000)) MB" '"$recorder" archive "$work/many/" --every 9999w </dev/null 2>"$work/err"' \
    '`archive FILE`' '"$recorder" archive "$work/one.ogg" </dev/null 2>"$work/err"'

# A folder of 10,000 files beside one of a single file.
rm -rf "$work/many" "$work/one.ogg"
"$work/pages_made" 100000 4000 >"$work/little"
"$archive" archive "$work/single/" --every 9999w <"$work/little" 2>"$work/err"
python3 - "$work/single" "$work/many" <<'END'
import os, sys, time
single, many = sys.argv[1:]
os.mkdir(many)
pages, times = sorted(it for it in os.listdir(single) if it.endswith((".ogg", ".times")))
for number in range(1, 10001):
    begin = time.strftime("%Y%m%dT%H%M%SZ", time.gmtime(time.time() - 3600 * (10001 - number)))
    for name in (pages, times):
        with open(os.path.join(single, name), "rb") as file:
            data = file.read()
        # A file that has ended has nothing after its pages.
        data = data.rstrip(b"\0") if name == pages else data
        with open(os.path.join(many, f"{number:06}-{begin}{os.path.splitext(name)[1]}"), "wb") as file:
            file.write(data)
END
compared 'beginning a file behind 10,000' '"$recorder" archive "$work/many/" --most-bytes 1 <"$work/little" 2>"$work/err"' \
    'behind one' '"$recorder" archive "$work/single/" --most-bytes 1 <"$work/little" 2>"$work/err"'
compared 'opening a folder of 10,000 files' '"$recorder" archive "$work/many/" --every 9999w </dev/null 2>"$work/err"' \
    'a folder of one' '"$recorder" archive "$work/single/" --every 9999w </dev/null 2>"$work/err"'
compared '`list` of 10,000 files' '"$recorder" list "$work/many" >"$work/out"' '`ls -l`' 'ls -l "$work/many" >"$work/out"'
