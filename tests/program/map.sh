#!/usr/bin/env bash
# docs/crates.svg is what tools/map.py draws of crates.txt: each crate in its family, each family above those that it
# stands on. Small lists of crates show which arrows are drawn.
. "$(dirname "$0")/../helpers/counting.bash"

"$top/tools/map.py" --check >"$work/said"
check "the picture is as it would be drawn" is_text "$work/said" '1 passed, 0 failed\n'

tree=$work/tree
mkdir -p "$tree/tools" "$tree/docs"
cp "$top/tools/map.py" "$tree/tools"
# drawn LINE ..: draws these lines of crates.txt.
drawn() {
    printf '%s\n' '# A line for each crate.' "$@" >"$tree/crates.txt"
    "$tree/tools/map.py"
    python3 -c 'import sys, xml.dom.minidom as dom; dom.parse(sys.argv[1])' "$tree/docs/crates.svg"
}
# has COUNT PATTERN: whether so many lines of the picture have it.
has() { [ "$(grep -cE -- "$2" "$tree/docs/crates.svg")" -eq "$1" ]; }

check "three families are drawn" drawn '# Low: what is below' 'first:' 'second: first' '# Middle' 'third: second std' \
    '# High & last' 'fourth: first third'
check "their crates" has 4 '>(first|second|third|fourth)</text>'
check "their names" has 3 '>(Low</tspan><tspan>: what is below|Middle|High &amp; last)</tspan>'
check "no arrow for what another way says" has 2 '<path class="way" d="M[0-9]+ [0-9]+ V'
check "no arrow up" has 0 'class="way up"'
"$tree/tools/map.py" --check >"$work/said"
check "it is as it would be drawn: status $?" is_text "$work/said" '1 passed, 0 failed\n'
echo 'fifth:' >>"$tree/crates.txt"
"$tree/tools/map.py" --check >"$work/said"
check "a stale picture: status $?" is_text "$work/said" \
    'FAILED: docs/crates.svg is stale: tools/map.py draws it\n0 passed, 1 failed\n'

check "a use of what stands above is drawn" drawn '# Low' 'first: third' '# Middle' 'second: first' '# High' 'third: second'
check "a broken arrow" has 1 'class="way up"'
check "its crates" has 1 '>first uses third</text>'

finish
