#!/usr/bin/env bash
# Random feeds, the same in each run, go through the program and through the tests' own plain program.
. "$(dirname "$0")/../helpers/common.bash"

for seed in 1000 2000 3000 4000; do
    check "feeds from $seed on" timeout 120 python3 "$here/model.py" "$program" "$seed" 50
done

finish
