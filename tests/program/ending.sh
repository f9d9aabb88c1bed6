#!/usr/bin/env bash
# With --end-open a recording that was stopped in the middle of a link goes on with the next one.
. "$(dirname "$0")/../helpers/common.bash"

not() { ! "$@"; }
ogg=$work/radio.ogg
records 'begin([1, 2]), put([(1, 5, b"hello")])' >"$work/stopped"
records 'begin([3]), put([(3, 7, b"again")]), end(3)' >"$work/next"

# Without it the next link is refused, and with it each open stream is ended by a command of its own.
run record "$ogg" <"$work/stopped"
came "a run that stops in the middle" 0 'kept 1 62\nkept 2 95\n' ''
cp "$ogg" "$work/was.ogg"
run record "$ogg" <"$work/next"
came "the same line again" 0 'refused 2 LinkOpen\nrefused 12 UnknownSerial\nrefused 12 UnknownSerial\n' ''
check "the same line again: nothing is recorded" cmp "$ogg" "$work/was.ogg"
run record "$ogg" --end-open --seal <"$work/next"
came "with --end-open" 0 'kept 1 122\nkept 2 149\nkept 3 180\nkept 4 213\nkept 5 240\n' ''
pages "02 0 1 0 3 abc" "02 0 2 0 3 abc" "00 5 1 1 5 hello" "04 5 1 2 - -" "04 0 2 1 - -" "02 0 3 0 3 abc" "00 7 3 1 5 again" "04 7 3 2 - -" \
    >"$work/want"
check "with --end-open: the file" cmp "$ogg" "$work/want"

# If no stream is open nothing is done; the ends wait for their group like any command.
run record "$ogg" --end-open </dev/null
came "nothing is open" 0 '' ''
cp "$work/was.ogg" "$work/group.ogg"
run record "$work/group.ogg" --end-open --group 8 --seal <"$work/next"
came "in a group" 0 'held 1\nheld 2\nheld 3\nheld 4\nheld 5\nkept 5 240\n' ''
check "in a group: the file" cmp "$work/group.ogg" "$work/want"
cp "$work/was.ogg" "$work/none.ogg"
run record "$work/none.ogg" --end-open --group 8 </dev/null
came "no record" 0 'held 1\nheld 2\nkept 2 149\n' ''

# With --renumber what is open is ended too, and a stream whose serial the file has gets the first free one, whatever run
# the serial is of; one whose serial is free keeps it.
cp "$work/was.ogg" "$work/renumbered.ogg"
run record "$work/renumbered.ogg" --renumber --seal <"$work/next"
came "with --renumber, free serials" 0 'kept 1 122\nkept 2 149\nkept 3 180\nkept 4 213\nkept 5 240\n' ''
check "with --renumber, free serials: the file" cmp "$work/renumbered.ogg" "$work/want"
cp "$work/was.ogg" "$work/renumbered.ogg"
run record "$work/renumbered.ogg" --renumber --seal <"$work/stopped"
came "with --renumber, taken serials" 0 'kept 1 122\nkept 2 149\nkept 3 211\nkept 4 244\n' ''
pages "02 0 1 0 3 abc" "02 0 2 0 3 abc" "00 5 1 1 5 hello" "04 5 1 2 - -" "04 0 2 1 - -" "02 0 0 0 3 abc" "02 0 3 0 3 abc" "00 5 0 1 5 hello" \
    >"$work/taken"
check "with --renumber, taken serials: the file" cmp "$work/renumbered.ogg" "$work/taken"
for turn in 1 2 3; do
    run record "$work/renumbered.ogg" --renumber --group 8 <"$work/stopped"
    check "with --renumber, turn $turn: nothing is refused" not grep -q refused "$work/out"
done
run links "$work/renumbered.ogg"
check "with --renumber: five links" [ "$(grep -c '^link ' "$work/out")" -eq 5 ]
check "with --renumber: each serial once" [ "$(sed -n 's/^stream \([0-9]*\) .*/\1/p' "$work/out" | sort -u | wc -l)" -eq 10 ]
cp "$work/was.ogg" "$work/refused.ogg"
records 'begin([1, 1]), begin([1]), put([(1, 5, b"hello")]), end(1)' >"$work/twice"
run record "$work/refused.ogg" --renumber --strict <"$work/twice"
check "with --renumber: a link that is refused otherwise is refused" grep -q '^refused' "$work/out"
check "with --renumber and --strict: status" [ "$status" -eq 1 ]

# A reply that can't be written, and a device that fails, are told as ever, and the next run goes on.
cp "$work/was.ogg" "$work/mute.ogg"
timeout 20 "$program" record "$work/mute.ogg" --end-open <"$work/next" >/dev/full 2>"$work/err"
check "no output: status" [ $? -eq 1 ]
check "no output: the fault" is_text "$work/err" 'fault write\n'
run record "$work/mute.ogg" --end-open --seal <"$work/next"
check "no output: the next run goes on" cmp "$work/mute.ogg" "$work/want"
cc -O2 -shared -fPIC -D_GNU_SOURCE -o "$work/failing.so" "$here/failing.c" || exit 1
for call in $(seq 1 24); do
    cp "$work/was.ogg" "$work/fails.ogg"
    FAILING_CALL=$call FAILING_HOW=io FAILING_MET=$work/met LD_PRELOAD=$work/failing.so run record "$work/fails.ogg" --end-open <"$work/next"
    [ -e "$work/met" ] || break
    rm "$work/met"
    check "call $call fails: status $status" [ "$status" -eq 1 ]
    run record "$work/fails.ogg" --end-open </dev/null
    check "call $call fails: the next run finds a file" [ "$status" -eq 0 ]
    check "call $call fails: what was kept before is there" cmp -n 95 "$work/fails.ogg" "$work/want"
    run links "$work/fails.ogg"
    check "call $call fails: no stream is open" eval '! grep -q open "$work/out"'
done

# An encoder that is stopped again and again: the same line goes on each time.
rm -f "$work/many.ogg"
for turn in $(seq 1 20); do
    records "begin([$turn]), put([($turn, 1, b'one')]), put([($turn, 2, b'two')]), end($turn)" >"$work/turn"
    head -c $((turn * 7 + 30)) "$work/turn" | timeout 20 "$program" record "$work/many.ogg" --end-open >>"$work/all" 2>"$work/err"
done
check "stopped twenty times: nothing was refused" eval '! grep -q refused "$work/all"'
run links "$work/many.ogg"
check "stopped twenty times: as many links as begun" [ "$(grep -c ^link "$work/out")" -eq "$(sort -u "$work/out" | grep -c ^stream)" ]
check "stopped twenty times: most links were begun" [ "$(grep -c ^link "$work/out")" -ge 15 ]
check "stopped twenty times: one link at most is open" [ "$(grep -c open "$work/out")" -le 1 ]

finish
