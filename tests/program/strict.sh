#!/usr/bin/env bash
# With --strict a run ends at the first refusal; at a terminal a run prints its totals.
. "$(dirname "$0")/../helpers/common.bash"

records 'begin([1]), put([(7, 5, b"x")]), put([(1, 5, b"hello")])' >"$work/feed"
pages "02 0 1 0 3 abc" >"$work/first"

run mux --strict <"$work/feed"
check "mux: status" [ "$status" -eq 1 ]
check "mux: the pages before the refusal" cmp "$work/out" "$work/first"
check "mux: nothing after the refusal" is_text "$work/err" 'kept 1 31\nrefused 12 UnknownSerial\nfault refused\n'

run mux --check --strict <"$work/feed"
came "check" 1 'kept 1 31\nrefused 12 UnknownSerial\n' 'fault refused\n'

run mux --check <"$work/feed"
came "a refusal is no fault otherwise" 0 'kept 1 31\nrefused 12 UnknownSerial\nkept 2 64\n' ''

# What waits is kept, and the file isn't sealed.
run record "$work/strict.ogg" --group 8 --seal --strict <"$work/feed"
came "record" 1 'held 1\nrefused 12 UnknownSerial\nkept 1 31\n' 'fault refused\n'
{ cat "$work/first"; printf '\0'; } >"$work/want"
check "record: the file" cmp "$work/strict.ogg" "$work/want"

records 'put([(1, 5, b"hello")])' >"$work/feed"
run record "$work/strict.ogg" --seal --strict <"$work/feed"
came "record: nothing is refused" 0 'kept 1 64\n' ''
check "record: sealed" [ "$(stat -c %s "$work/strict.ogg")" -eq 64 ]

# at_terminal FEED WORD ..: prints what the program writes to standard error if that is a terminal.
at_terminal() {
    timeout 20 python3 - "$program" "$@" <<'END'
import os, pty, subprocess, sys
program, feed, words = sys.argv[1], sys.argv[2], sys.argv[3:]
ours, its = pty.openpty()
with open(feed, "rb") as given:
    subprocess.run([program] + words, stdin=given, stdout=subprocess.DEVNULL, stderr=its, timeout=10)
os.close(its)
told = b""
try:
    while piece := os.read(ours, 4096):
        told += piece
except OSError:
    pass
sys.stdout.write(told.decode().replace("\r\n", "\n"))
END
}
records 'begin([1]), put([(7, 5, b"x")]), flush(), put([(1, 5, b"hello")])' >"$work/feed"
at_terminal "$work/feed" mux --check >"$work/told"
check "a terminal is told what the run came to" is_text "$work/told" '3 commands, 2 kept, 1 refused\n'
at_terminal "$work/feed" record "$work/told.ogg" --strict >"$work/told"
check "also of a run that a refusal ended" is_text "$work/told" '2 commands, 1 kept, 1 refused\nfault refused\n'

finish
