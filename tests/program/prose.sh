#!/usr/bin/env bash
# In README.md, in docs/, in the heads of crates and in what --help says no line of prose is longer than 120 columns
# (rows of tables and indented lines may be), no word stands that is wrong wherever it stands, and each row of a table has
# the cells of its head. What is found is printed with its place: prose.py has the words, and why.
. "$(dirname "$0")/../helpers/counting.bash"
cd "$top" || exit 1

prose() { python3 "$here/prose.py" "$@"; }

# Each search finds what it should in a small page, and nothing else.
{
    printf '%0121d\n' 0
    printf '%0120d\n' 0
    printf '| %0200d |\n' 0
    printf '    %0200d\n' 0
} >"$work/page.md"
(cd "$work" && prose lines page.md) >"$work/found"
check "a long line is found" is_text "$work/found" 'page.md:1: 121 columns\n'
{
    echo 'It shows some'
    echo 'first commands, and the position is no pos in the sequence; a sequel follows, and not so much.'
} >"$work/page.md"
(cd "$work" && prose words page.md | sed 's/: a number has.*//; s/: the word.*//') >"$work/found"
check "words are found, also over the end of a line" is_text "$work/found" "page.md:1: 'some first'\npage.md:2: 'pos'\n"
cat >"$work/page.md" <<'END'
| a | b |
|---|---|
| a bar `\|` in code | c |
| one |
| one | two | three |

| no line below |
END
(cd "$work" && prose tables page.md) >"$work/found"
check "rows with other cells than their head are found" is_text "$work/found" \
    'page.md:4: 1 cells, and the head has 2\npage.md:5: 3 cells, and the head has 2\npage.md:7: this row has no line of dashes below it, so it begins no table\n'

pages=(README.md CONTRIBUTING.md CHANGELOG.md docs/*.md docs/proofs/* crates/*/promises.txt crates/*/tested.md)
check "long lines" prose lines "${pages[@]}"
check "tables" prose tables "${pages[@]}"
check "words" prose words "${pages[@]}" crates/*/src/lib.rt crates/*/src/main.rt crates/command_line/src/*.rt

finish
