#!/usr/bin/env bash
# If a feed comes slowly, each command's pages and its reply are written before more of the feed is there.
. "$(dirname "$0")/../helpers/common.bash"

# line NAME LINE: checks that within a bounded time the line comes.
line() {
    local line=''
    read -r -t 10 line <&4
    check "$1: '$line'" [ "$line" = "$2" ]
}

# replies NAME LINE SIZE: checks that the line comes, and that by then the pages have this size.
replies() {
    line "$1" "$2"
    check "$1: size of the pages" [ "$(wc -c <"$work/out")" -eq "$3" ]
}

mkfifo "$work/in" "$work/replies"
timeout 20 "$program" mux <"$work/in" >"$work/out" 2>"$work/replies" &
running=$!
exec 3>"$work/in" 4<"$work/replies"

head -c 30 "$top/examples/hello.feed" >&3
sleep 0.3
check "half a command: nothing is written" [ ! -s "$work/out" ]
head -c 52 "$top/examples/hello.feed" | tail -c 22 >&3
replies "begin" "kept 1 31" 31
head -c 80 "$top/examples/hello.feed" | tail -c 28 >&3
replies "put" "kept 2 64" 64
echo 'put 1 4 x' | feed >&3
replies "put back" "refused 15 PositionBack" 64
tail -c 9 "$top/examples/hello.feed" >&3
replies "end" "kept 3 91" 91
exec 3>&-
wait "$running"
check "status" [ $? -eq 0 ]
pages "02 0 1 0 3 abc" "00 5 1 1 5 hello" "04 5 1 2 - -" >"$work/pages"
check "pages" cmp "$work/out" "$work/pages"

# Lines of commands that wait for their group may be written together, but not after more input is waited for.
mkfifo "$work/grouped" "$work/lines"
timeout 20 "$program" record "$work/file.ogg" --group 3 <"$work/grouped" >"$work/lines" 2>"$work/err" &
running=$!
exec 3>"$work/grouped" 4<"$work/lines"

head -c 66 "$top/examples/hello.feed" >&3
line "a command, and half of the next one" "held 1"
head -c 80 "$top/examples/hello.feed" | tail -c 14 >&3
line "the other half" "held 2"
tail -c 9 "$top/examples/hello.feed" >&3
line "the last of its group" "kept 3 91"
exec 3>&-
wait "$running"
check "a group: status" [ $? -eq 0 ]

finish
