# What the tests of the built program share.
. "$(dirname "${BASH_SOURCE[0]}")/counting.bash"
. "$top/tools/programs.bash"

# What runs the program that answers a word. PROGRAM names another one, which answers all.
table=
for program in $programs; do
    words=words_of_$program
    for word in ${!words}; do table="$table $word:$program"; done
    if [ -z "${PROGRAM:-}" ] && [ ! -x "$top/crates/$program/out/$program" ]; then
        echo "$program isn't built: ./check and ./kudzuturret --build build it"
        echo "0 passed, 1 failed"
        exit 1
    fi
done
program=${PROGRAM:-$work/program}
[ -n "${PROGRAM:-}" ] ||
    cc -O2 -DCRATES="\"$top/crates\"" -DTABLE="\"$table \"" -o "$program" "$here/program.c" || exit 1

# Runs the program on standard input as it is, for a bounded time. Leaves its status in `status`, and what it wrote in
# out and err.
run() {
    timeout 20 "$program" "$@" >"$work/out" 2>"$work/err"
    status=$?
}

# came NAME STATUS OUT ERR: checks that the last run had this status, and wrote these texts to its standard streams. The
# sentence that may follow a fault's line isn't part of ERR: sentences.sh has them.
came() {
    check "$1: status $status, not $2" [ "$status" -eq "$2" ]
    check "$1: standard output" is_text "$work/out" "$3"
    sed -E 's/^(fault [^:]*): .*/\1/' "$work/err" >"$work/fronts"
    check "$1: standard error" is_text "$work/fronts" "$4"
}

# writes COMMAND NAME WANT WORD ..: checks that what the command writes with these words is this file.
writes() {
    local command=$1 name=$2 want=$3
    shift 3
    run "$command" "$@"
    check "$name: status $status" [ "$status" -eq 0 ]
    check "$name: pages" cmp "$work/out" "$want"
    check "$name: standard error" [ ! -s "$work/err" ]
}

feed() { python3 "$top/examples/feed.py"; }
pages() { python3 "$here/pages.py" "$@"; }
records() { python3 "$here/records.py" "$1"; }
bytes() { printf '%b' "$(printf '%s' "$*" | tr -d ' \n' | sed 's/../\\x&/g')"; }
