#!/usr/bin/env bash
# Whatever stands in a folder, and whatever the clock says, `archive DIR` records into it.
. "$(dirname "$0")/../helpers/common.bash"

harming() { python3 "$here/harming.py" "$@"; }
# passes NAME WORD ..: says how many runs there were, and none went wrong.
passes() {
    local name=$1 told
    shift
    told=$(harming "$@")
    check "$name: $told" grep -qxE '[0-9]+ runs, 0 wrong' <<<"${told##*$'\n'}"
}
passes "the newest file harmed anywhere" harms "$program" "$work" "${HARMS:-80}"
passes "ten thousand files" many "$program" "$work"
cc -O2 -shared -fPIC -D_GNU_SOURCE -o "$work/setting.so" "$here/setting.c" || exit 1
passes "a clock that jumps" clocks "$program" "$work/setting.so" "$work"
finish
