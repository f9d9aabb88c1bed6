#!/usr/bin/env bash
# A station over a folder: its files are listed, and fetched by their numbers and by times.
. "$(dirname "$0")/../helpers/common.bash"

mkdir "$work/fetching"
check "fetching.py answers" timeout 170 python3 "$here/fetching.py" answers "$program" "$work/fetching"
check "fetching.py grows" timeout 170 python3 "$here/fetching.py" grows "$program" "$work/fetching"
check "fetching.py goes" timeout 170 python3 "$here/fetching.py" goes "$program" "$work/fetching"
check "fetching.py from" timeout 170 python3 "$here/fetching.py" from "$program" "$work/fetching"
check "fetching.py origins" timeout 170 python3 "$here/fetching.py" origins "$program" "$work/fetching"
check "fetching.py pesters" timeout 170 python3 "$here/fetching.py" pesters "$program" "$work/fetching"
check "fetching.py follows" timeout 170 python3 "$here/fetching.py" follows "$program" "$work/fetching"
finish
