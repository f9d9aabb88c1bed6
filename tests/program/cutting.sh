#!/usr/bin/env bash
# What `cut` gives of an archive between two times is what the tests' own plain program says, over archives that it makes.
. "$(dirname "$0")/../helpers/common.bash"

cutting() {
    local files=$1
    shift
    timeout 600 python3 "$here/cutting.py" "$files" "$program" "$@"
}

check "files that go on with one another, and those that don't" cutting meeting
check "2000 random pairs of times" cutting cuts 2000
check "200 random divisions of time" cutting parts 200
check "times that are missing or wrong, files that are damaged or gone" cutting odd
check "links that have the serials of links before" cutting again
check "a file that is damaged in its middle, between sound ones, before them and after them" cutting damaged
check "links that begin just before a file ends, and files that are full within a commit" cutting filled
check "clocks that stood still, went back or ran ahead" cutting clocks 400
check "what no line of times tells of yet, up to now and from now on" cutting untold
check "an archive that is recorded, with restarts, while it is cut" cutting growing

# Nothing is written of nothing.
mkdir "$work/empty"
run cut "$work/empty"
came "an empty folder" 1 '' 'fault cut 1 Nothing\n'
run cut "$work/empty" --since -90s --until -0s
came "an empty folder, up to now" 1 '' 'fault cut 1 Nothing\n'
run cut "$work/none"
came "no folder" 1 '' 'fault file\n'

finish
