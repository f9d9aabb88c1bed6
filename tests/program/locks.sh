#!/usr/bin/env bash
# Of two programs that would write one file the second one ends and has changed nothing; whoever only reads goes on. And
# the folder of a new file is synced before anything is kept.
. "$(dirname "$0")/../helpers/common.bash"

asking() { timeout 30 python3 "$here/asking.py" "$@"; }

ogg=$work/one.ogg
pages "02 0 1 0 3 abc" >"$work/first"
{ cat "$work/first"; printf '\0'; } >"$work/open"
pages "02 0 1 0 3 abc" "00 5 1 1 5 hello" "04 5 1 2 - -" >"$work/pages"

# locked NAME WORD ..: checks that the program with these words is refused, and leaves the file as it is.
locked() {
    local name=$1
    shift
    cp "$ogg" "$work/was"
    run "$@" <"$top/examples/hello.feed"
    came "$name" 1 '' 'fault locked\n'
    check "$name: the file is as it was" cmp "$ogg" "$work/was"
}

# While a feed is recorded, nobody else writes the file.
mkfifo "$work/feed" "$work/replies"
timeout 60 "$program" record "$ogg" <"$work/feed" >"$work/replies" 2>"$work/recorded" &
running=$!
exec 3>"$work/feed" 4<"$work/replies"
head -c 52 "$top/examples/hello.feed" >&3
read -r -t 10 line <&4
check "the first command is kept: '$line'" [ "$line" = "kept 1 31" ]
locked "another record" record "$ogg"
locked "a server" serve "$ogg" 127.0.0.1:0 1
locked "a server with a feed" live "$ogg" 127.0.0.1:0 "$top/examples/hello.feed" 1
ln -s "$ogg" "$work/link.ogg"
locked "by another name" record "$work/link.ogg"
run links "$ogg"
came "its links" 0 'committed 31\nlink 0 0 31 1\nstream 1 31 1 open\n' ''
run split "$ogg" 0
check "a link of it" cmp "$work/out" "$work/first"
run finish "$ogg"
check "finished" cmp "$work/out" "$work/first"
run salvage "$ogg"
came "its good pages" 0 '0 31\n' ''
tail -c +53 "$top/examples/hello.feed" >&3
exec 3>&-
wait "$running"
check "the first program: its status" [ $? -eq 0 ]
check "the first program: its last line" [ "$(tail -n 1 <&4)" = "kept 3 91" ]
exec 4<&-
run record "$ogg" --seal </dev/null
came "once it has ended" 0 '' ''
check "once it has ended: all is kept" cmp "$ogg" "$work/pages"

# While a file is served, nobody records into it; so what ends with the server is what it found.
port=$(asking port)
timeout 60 "$program" serve "$ogg" "127.0.0.1:$port" 1 >"$work/served" 2>&1 &
server=$!
asking wait "$port"
locked "record beside a server" record "$ogg"
timeout 20 curl -s -o "$work/body" "http://127.0.0.1:$port/all"
check "the answer" cmp "$work/body" "$work/pages"
wait "$server"
check "served" [ $? -eq 0 ]
check "served: the file is sealed again" cmp "$ogg" "$work/pages"

# A program that was killed locks nothing.
rm "$ogg"
timeout 60 "$program" record "$ogg" <"$work/feed" >"$work/killed" 2>&1 &
running=$!
exec 3>"$work/feed"
head -c 52 "$top/examples/hello.feed" >&3
for _ in $(seq 100); do
    [ ! -s "$work/killed" ] || break
    sleep 0.1
done
pkill -KILL -P "$running"
wait "$running" 2>/dev/null
exec 3>&-
check "killed: one command was kept" is_text "$work/killed" 'kept 1 31\n'
check "killed: the file" cmp "$ogg" "$work/open"
run record "$ogg" </dev/null
came "after a kill" 0 '' ''

# The first device call of a recording is the sync of its file's folder. If it fails, nothing is kept, and the same
# line goes on later. A folder that can be entered and not read can't be synced.
cc -O2 -shared -fPIC -D_GNU_SOURCE -o "$work/failing.so" "$here/failing.c" || exit 1
FAILING_CALL=1 FAILING_HOW=io LD_PRELOAD=$work/failing.so run record "$work/new.ogg" <"$top/examples/hello.feed"
came "a folder that can't be synced" 1 '' 'fault file\n'
check "a folder that can't be synced: nothing is kept" [ ! -s "$work/new.ogg" ]
run record "$work/new.ogg" --seal <"$top/examples/hello.feed"
came "a folder that can be synced again" 0 'kept 1 31\nkept 2 64\nkept 3 91\n' ''
mkdir "$work/blind"
chmod 777 "$work/blind"
chmod 755 "$work"
[ "$program" -ef "$work/program" ] || cp "$program" "$work/program"
nobody=()
[ "$(id -u)" -ne 0 ] || nobody=(setpriv --reuid 65534 --clear-groups)
chmod 333 "$work/blind"
timeout 20 "${nobody[@]}" "$work/program" record "$work/blind/one.ogg" <"$top/examples/hello.feed" >"$work/out" 2>"$work/err"
status=$?
came "a folder that can't be read" 1 '' 'fault file\n'
chmod 777 "$work/blind"

finish
