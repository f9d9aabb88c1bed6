#!/usr/bin/env bash
# ./check itself counts a script that fails, hangs, ends badly, checks nothing or has no count as failed, keeps together what
# each one says, and ends what a script has left running. A small tree with scripts of a line each stands for this one.
. "$(dirname "$0")/../helpers/counting.bash"

tree=$work/tree
mkdir -p "$tree/tests/program" "$work/bin"
cp "$top/check" "$tree"

# script NAME LINE ..: a script of the tree.
script() {
    local name=$1
    shift
    printf '#!/bin/bash\n' >"$tree/tests/program/$name.sh"
    printf '%s\n' "$@" >>"$tree/tests/program/$name.sh"
    chmod +x "$tree/tests/program/$name.sh"
}
# checks WORD ..: runs ./check there, and leaves its status in `status` and what it says in `said`.
checks() {
    CHECK_SECONDS=2 timeout 60 "$tree/check" "$@" >"$work/said" 2>"$work/err"
    status=$?
}
says() { grep -qxF -- "$1" "$work/said" || { cat "$work/said"; return 1; }; }

script well 'echo some line; sleep 0.5; echo another line' 'echo 3 passed, 0 failed'
script fails 'echo 3 passed, 2 failed; exit 1'
script ends_badly 'echo 3 passed, 0 failed; exit 3'
script says_nothing 'exit 0'
script checks_nothing 'echo 0 passed, 0 failed'
script says_more 'echo 3 passed, 0 failed; echo and a line after it'
script hangs 'echo 3 passed, 0 failed; sleep 1000'
script leaves 'sleep 1003 & timeout 1004 sleep 1005 &' "echo \$\$ >'$work/session'" 'echo 1 passed, 0 failed'

: >"$work/session"
checks well leaves
check "two that pass: status $status" [ "$status" -eq 0 ]
check "two that pass: their counts" [ "$(tail -n 1 "$work/said")" = "4 passed, 0 failed" ]
check "what one says stands together" [ "$(grep -A 3 -x '== well' "$work/said" | tr '\n' '/')" = "== well/some line/another line/3 passed, 0 failed/" ]
check "how long it took" grep -qxE '== well: 3 passed, 0 failed in [0-9]+ s' "$work/said"
check "nothing runs on" [ -z "$(ps -o stat= -s "$(cat "$work/session")" | grep -v Z)" ]

# fails NAME PASSED FAILED WHY: checks that the run of this script alone has these counts, and tells why.
fails() {
    checks "$1"
    check "$1: status $status" [ "$status" -eq 1 ]
    check "$1: its counts" [ "$(tail -n 1 "$work/said")" = "$2 passed, $3 failed" ]
    check "$1: it is named" says "failed: $1"
    [ -z "$4" ] || check "$1: why" says "FAILED: $1: $4"
}
fails fails 3 2 ''
fails ends_badly 3 1 'it ended with status 3'
fails says_nothing 0 1 "its last line, with status 0, is no 'N passed, M failed'"
fails checks_nothing 0 1 'it has checked nothing'
fails says_more 0 1 "its last line, with status 0, is no 'N passed, M failed'"
fails hangs 3 1 'it hangs: it has taken more than 2 seconds'

# All of them, after the proofs, which alone fail here: there is no rt, or one that says so.
printf '#!/bin/sh\necho 0 passed, 1 failed\nexit 1\n' >"$work/bin/rt"
chmod +x "$work/bin/rt"
PATH=$work/bin:$PATH checks
check "all of them: status $status" [ "$status" -eq 1 ]
check "all of them: what can't be run" says "FAILED: borrows: it can't be run: [Errno 2] No such file or directory: 'tests/borrows.py'"
check "all of them: those that failed" says \
    "failed: proofs promises wrong_bodies borrows checks_nothing ends_badly fails hangs says_more says_nothing"
check "all of them: the counts" [ "$(tail -n 1 "$work/said")" = "13 passed, 11 failed" ]

# One that is interrupted ends what it runs, at once.
: >"$work/session"
script waits "echo \$\$ >'$work/session'" 'sleep 1000'
"$tree/check" waits well >"$work/said" 2>"$work/err" &
running=$!
for _ in $(seq 100); do
    [ ! -s "$work/session" ] || break
    sleep 0.1
done
began=$SECONDS
kill -TERM "$running"
wait "$running"
check "interrupted: status $?" [ $? -eq 130 ]
check "interrupted: it ends at once" [ $((SECONDS - began)) -lt 30 ]
check "interrupted: nothing runs on" [ -z "$(ps -o stat= -s "$(cat "$work/session")" | grep -v Z)" ]
rm "$tree/tests/program/waits.sh"

checks nonesuch
check "no such check: status $status" [ "$status" -eq 1 ]
check "no such check: it says so" grep -q 'there is no nonesuch; ./check --list has the names$' "$work/err"
checks --list
check "the list has each script" [ "$(grep -c 'tests/program/' "$work/said")" -eq 8 ]
checks --media
check "what others wrote: each is tried" says "failed: media cut_media archives fronts player"

finish
