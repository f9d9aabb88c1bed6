#!/usr/bin/env bash
# Pages, packets and chains in bytes of all kinds are read by the program test_read and by the tests' own plain program.
. "$(dirname "$0")/../helpers/counting.bash"
reader=${READ_OGG:-$top/crates/test_read/out/test_read}

for files in damage foreign random edges; do
    check "$files" timeout 300 python3 "$here/reading.py" "$reader" "$files"
done

finish
