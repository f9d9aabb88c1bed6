#!/usr/bin/env bash
# Runs every measure with sizes that take less than a quarter of an hour together on a quiet machine, prints each script's
# own table as it comes, and writes bench/RESULTS.md: a row for each number of ours beside that of a competitor, with their
# ratio and the command that measures it. Its head has the date, the machine and what else ran. Not part of the tests.
#
#     bench/all.sh [NAME ..]      the scripts by name: mux record; none: all, and then alone the file is written
#
# Each script says in its head which packages it needs. The status is 1 if one of them failed; RESULTS.md names it.
set -u
here=$(cd "$(dirname "$0")" && pwd)
work=$(mktemp -d "${TMPDIR:-/tmp}/all-bench.XXXXXX")
trap 'rm -rf "$work"' EXIT
# The load before, as others made it.
load=$(cut -d ' ' -f 1 /proc/loadavg)
begun=$SECONDS
status=0

while read -r -a words; do
    name=${words[0]}
    [ $# -eq 0 ] || [[ " $* " = *" $name "* ]] || continue
    command="bench/$name.sh${words[1]:+ ${words[*]:1}}"
    echo "== $command"
    # One that failed, or a number that is missing, has no rows: half a comparison is none.
    if ROWS=$work/rows "$here/$name.sh" "${words[@]:1}" 2> >(tee "$work/err" >&2) &&
        [ -s "$work/rows" ] && ! grep -qE $'\t(\t|$)' "$work/rows"; then
        sed "s|\$|\t$command|" "$work/rows" >>"$work/all"
    else
        echo "$command failed: $(tail -n 1 "$work/err")" | tee -a "$work/failed"
        status=1
    fi
    rm -f "$work/rows"
done <<'END'
checksum
mux
pages
window 200000000
links
record
split 200000000
archive 200000000
folder 200000000 400000000
cut 200000000
lines
serve 200000000
station 5
station_files 2
END

[ -s "$work/all" ] || { echo "nothing was measured" >&2; exit 1; }
touch "$work/failed"
if [ $# -eq 0 ]; then
    python3 "$here/results.py" "$work/all" "$work/failed" "$load" "$((SECONDS - begun))" >"$here/RESULTS.md" || exit 1
    echo "bench/RESULTS.md is written, in $((SECONDS - begun)) seconds"
else
    python3 "$here/results.py" "$work/all" "$work/failed" "$load" "$((SECONDS - begun))"
fi
exit "$status"
