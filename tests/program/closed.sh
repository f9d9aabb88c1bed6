#!/usr/bin/env bash
# Standard streams that are closed: no file that the program opens gets their numbers, so that nothing that is told is
# written into a recording, and no recording is read as input.
. "$(dirname "$0")/../helpers/common.bash"

feed=$top/examples/hello.feed
"$program" mux <"$feed" >"$work/pages" 2>"$work/err"
"$program" record "$work/whole.ogg" <"$feed" >"$work/out" 2>"$work/err"

# closed NAME STATUS COMMAND ..: runs the command on $work/file.ogg, and checks its status and that the file is whole.
closed() {
    local name=$1 want=$2
    shift 2
    timeout 20 bash -c "$*"
    status=$?
    check "$name: status $status, not $want" [ "$status" -eq "$want" ]
    check "$name: the file is whole" cmp -s -n 91 "$work/file.ogg" "$work/whole.ogg"
    rm -f "$work/file.ogg"
}
export program feed work

# The first reply can't be told, after its command was kept: that ends the run, as with any writer that fails.
timeout 20 "$program" record "$work/file.ogg" <"$feed" >&- 2>"$work/err"
check "record without standard output: the fault" is_text "$work/err" 'fault write\n'
check "record without standard output: what was kept" cmp -s -n 31 "$work/file.ogg" "$work/whole.ogg"
rm -f "$work/file.ogg"

closed "record without standard error" 0 '"$program" record "$work/file.ogg" <"$feed" >"$work/out" 2>&-'
closed "archive without standard error" 0 '"$program" archive "$work/file.ogg" <"$work/pages" 2>&-'
closed "archive without standard output" 0 '"$program" archive "$work/file.ogg" <"$work/pages" >&- 2>"$work/err"'
closed "archive with neither" 0 '"$program" archive "$work/file.ogg" <"$work/pages" >&- 2>&-'
closed "archive twice with neither" 0 \
    '"$program" record "$work/file.ogg" <"$feed" >"$work/out"; "$program" archive "$work/file.ogg" <"$work/pages" >&- 2>&-'
cp "$work/whole.ogg" "$work/file.ogg"
closed "archive without any" 1 '"$program" archive "$work/file.ogg" <&- >&- 2>&-'
cp "$work/whole.ogg" "$work/file.ogg"
closed "record without standard input" 1 '"$program" record "$work/file.ogg" <&- >"$work/out" 2>"$work/err"'
cp "$work/whole.ogg" "$work/file.ogg"
check "record without standard input: the fault" is_text "$work/err" 'fault feed 5 Read\n'
cp "$work/whole.ogg" "$work/file.ogg"
closed "a station without standard input" 1 '"$program" station "$work/file.ogg" 127.0.0.1:0 --seal <&- >"$work/out" 2>"$work/err"'
check "a station without standard input records nothing" grep -qx 'archived 0 0 91 0' "$work/err"

finish
