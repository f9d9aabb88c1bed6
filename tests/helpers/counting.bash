# What every script of the tests shares: a folder of its own, its counts, and `finish`, which prints 'N passed, M failed'.
set -u
here=$(cd "$(dirname "${BASH_SOURCE[0]}")" && pwd)
top=$(cd "$here/../.." && pwd)
work=$(mktemp -d)
trap 'rm -rf "$work"' EXIT
passed=0
failed=0

# check NAME COMMAND ..: passes if the command does.
check() {
    local name=$1
    shift
    if "$@"; then
        passed=$((passed + 1))
    else
        failed=$((failed + 1))
        echo "FAILED: $name"
    fi
}

# is_text FILE TEXT: whether the file holds exactly the text, in which \n is a line feed.
is_text() {
    local want
    want=$(printf '%b.' "$2")
    [ "$(cat "$1"; echo .)" = "$want" ] || {
        echo "expected: $2"
        echo "found:    $(head -c 500 "$1")"
        return 1
    }
}

# A script that has checked nothing has failed.
finish() {
    [ "$((passed + failed))" -gt 0 ] || failed=1
    echo "$passed passed, $failed failed"
    [ "$failed" -eq 0 ]
    exit
}
