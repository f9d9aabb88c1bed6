#!/usr/bin/env bash
# A station over a folder: its files change while sources send, listeners hear, and clients fetch.
. "$(dirname "$0")/../helpers/common.bash"

# What can't be begun.
run station "$work/none/radio/" 127.0.0.1:0 </dev/null
came "two levels aren't made" 1 '' 'fault file\n'
mkdir "$work/held"
exec 9>"$work/held/lock"
flock -n 9
run station "$work/held" 127.0.0.1:0 </dev/null
check "a folder that is held: status $status" [ "$status" -eq 1 ]
check "a folder that is held: $(cat "$work/err")" grep -q '^fault locked' "$work/err"
exec 9>&-

# Standard input is recorded into files by their bytes, the last of which is sealed at the end.
python3 "$here/filing.py" stream 1 60 >"$work/stream"
timeout 60 "$program" station "$work/input/" 127.0.0.1:0 --most-bytes 500 --seal <"$work/stream" >"$work/out" 2>"$work/err"
status=$?
check "standard input: status $status" [ "$status" -eq 0 ]
check "standard input: several files" [ "$(ls "$work/input" | grep -c 'ogg$')" -gt 3 ]
check "standard input: what they hold" python3 "$here/filing.py" holds "$work/input" 60
check "standard input: all are ended" run verify "$work/input"

mkdir "$work/changing"
cc -O2 -shared -fPIC -D_GNU_SOURCE -o "$work/failing.so" "$here/failing.c" || exit 1
for what in hears pairs fetches lags shares limits; do
    check "changing.py $what" timeout 170 python3 "$here/changing.py" "$what" "$program" "$work/changing"
done
cc -O2 -shared -fPIC -D_GNU_SOURCE -o "$work/filling.so" "$here/filling.c" || exit 1
check "changing.py fills" timeout 170 python3 "$here/changing.py" fills "$program" "$work/filling.so" "$work/changing"
check "changing.py fails" timeout 300 python3 "$here/changing.py" fails "$program" "$work/failing.so" "$work/changing"
# A hundred kills at most: they belong to ./check --all.
kills=${KILLS:-20}
[ "$kills" -le 100 ] || kills=100
check "changing.py kills" timeout $((120 + 3 * kills)) python3 "$here/changing.py" kills "$program" "$work/changing" "$kills"
finish
