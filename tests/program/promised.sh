#!/usr/bin/env bash
# tools/proofs.py prints what a crate promises, and its --check finds a page that is stale, names that aren't there, and
# promises and wrong bodies without each other. A small tree with one crate stands for this one.
. "$(dirname "$0")/../helpers/counting.bash"

tree=$work/tree
one=$tree/crates/one
mkdir -p "$one/src" "$one/wrong-bodies" "$tree/docs/proofs" "$tree/tests" "$tree/tools"
cp "$top"/tools/*.py "$tree/tools"
cp "$top"/tests/*.py "$tree/tests"
printf '# A line for each crate.\n\n# The only family\none:\n' >"$tree/crates.txt"
printf 'one 12 34\n' >"$tree/tools/seconds.txt"
printf '/// Gives 1.\npub fn first() -> u8\n    ensures is_one { result ≡ 1 }\n{\n    1\n}\n' >"$one/src/lib.rt"
printf 'promise: gives\nsays: one is given\nby: `first`: is_one\n' >"$one/promises.txt"
printf 'promise: gives\nrefused: first\nfile: src/lib.rt\nold:     1\nnew:     2\n' >"$one/wrong-bodies/two_is_given.edit"
echo 'Nothing tells the time.' >"$one/tested.md"
printf 'promise: gives\nsays: it gives one\nby: `first`: is_one\ntried: by nobody\n' >"$tree/docs/proofs/program.txt"
echo 'That it is wanted.' >"$tree/docs/proofs/not-proved.md"

# proofs WORD ..: runs it there, and leaves its status in `status` and what it says in `said`.
proofs() {
    "$tree/tools/proofs.py" "$@" >"$work/said" 2>"$work/err"
    status=$?
}
# changed FILE OLD NEW COUNTS WHY: whether --check finds a change of a file, with these counts, and says why.
changed() {
    cp "$tree/$1" "$work/kept"
    sed -i "s/$2/$3/" "$tree/$1"
    ! cmp -s "$tree/$1" "$work/kept" || return 1
    proofs --check
    cp "$work/kept" "$tree/$1"
    [ "$status" -eq 1 ] && grep -qF -- "FAILED: $5" "$work/said" && [ "$(tail -n 1 "$work/said")" = "$4" ] \
        || { cat "$work/said"; return 1; }
}

proofs
check "it is made: status $status" [ "$status" -eq 0 ]
check "the page has the promise" grep -qxF -- '- It gives one.' "$tree/docs/PROOFS.md"
check "the page has what isn't proved" grep -qxF 'That it is wanted.' "$tree/docs/PROOFS.md"
check "the page has nothing of a crate" bash -c "! grep -q two_is_given '$tree/docs/PROOFS.md'"
proofs --check
check "all is well: status $status" is_text "$work/said" '2 passed, 0 failed\n'

proofs one
check "a crate" is_text "$work/said" \
    '### one\n\n- **gives**: one is given.\n  - By `first`: is_one.\n  - Refused: two_is_given.\n\nNothing tells the time.\n'
proofs --all
check "all: its wrong bodies" grep -qxF '  - Refused: two_is_given.' "$work/said"
check "all: its seconds" grep -qE '^\| one +\|.*\| +12 \| +34 \|$' "$work/said"
proofs two
check "no such crate: status $status" [ "$status" -eq 1 ]
check "no such crate: it says so" grep -q 'crates.txt has no two$' "$work/err"
proofs one --check
check "two kinds at once: status $status" [ "$status" -eq 1 ]

promises=crates/one/promises.txt
program=docs/proofs/program.txt
edit=crates/one/wrong-bodies/two_is_given.edit
one='1 passed, 1 failed'
check "a stale page" changed docs/PROOFS.md 'It gives one' 'It gives two' "$one" 'docs/PROOFS.md is stale'
check "a changed promise" changed "$program" 'it gives one' 'it gives two' "$one" 'docs/PROOFS.md is stale'
check "a lost function" changed "$promises" '`first`' '`second`' "$one" 'one/gives is carried by second, which'
check "a lost clause" changed "$promises" is_one is_two "$one" 'one/gives is carried by is_two (a clause), which'
check "a lost wrong body" changed "$promises" '^by' 'tried: by other (one)\nby' "$one" 'one/gives is tried by other, which'
check "a lost promise" changed "$edit" 'promise: gives' 'promise: takes' '1 passed, 2 failed' \
    'one/two_is_given names the promise takes, which'
check "a promise that nothing tries" changed "$edit" 'promise: gives' 'mistake: two' '1 passed, 2 failed' 'one/gives has no wrong body'
check "a lost function of the program" changed "$program" '`first`' '`third`' '0 passed, 2 failed' \
    'gives is carried by third, which is in no crate'

finish
