#!/usr/bin/env bash
# Help, the version and command lines that can't be read give a text on standard error, nothing on standard output, and
# status 2.
. "$(dirname "$0")/../helpers/common.bash"

# shows NAME TEXT: checks that the last run ended with status 2 and has the text on standard error.
shows() {
    check "$1: status $status, not 2" [ "$status" -eq 2 ]
    check "$1: standard output" is_text "$work/out" ""
    check "$1: no '$2' on standard error" grep -qF -- "$2" "$work/err"
}

run </dev/null
shows "no words" "Usage: kudzuturret"
run --help </dev/null
shows "--help" "examples/hello.feed"
run -h </dev/null
shows "-h" "mux"
run help </dev/null
shows "help" "examples/hello.feed"
run help mux </dev/null
shows "help mux" "kept COUNT END"
run mux --help </dev/null
shows "mux --help" "kept COUNT END"
run --version </dev/null
shows "--version" "kudzuturret 0.1.0"
run --check </dev/null
shows "a flag of mux alone" "--check"
run mix </dev/null
shows "a subcommand misspelt" "mux"
run mux --chekc </dev/null
shows "a flag misspelt" "--check"
run mux hello.feed </dev/null
shows "a word too many" "hello.feed"
run mux "$(printf '\xff')" </dev/null
shows "an argument that is no text" "text"
run "$(printf 'mux\xc3')" </dev/null
shows "a subcommand that is no text" "text"

# The words are read before the feed.
feed <"$top/examples/hello.txt" >"$work/feed"
run mux --chekc <"$work/feed"
shows "a flag misspelt, with a feed" "--check"

finish
