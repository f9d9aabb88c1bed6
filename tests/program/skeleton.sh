#!/usr/bin/env bash
# The Skeletons that `archive` makes say the time of day at which their links begin, in a file and in a folder.
. "$(dirname "$0")/../helpers/common.bash"

# utcs FILE ..: the time of day in the fishead of each link, a line each.
utcs() {
    python3 - "$here" "$@" <<'PYTHON'
import sys

sys.path.insert(0, sys.argv[1])
from archiving import links_of

for path in sys.argv[2:]:
    with open(path, "rb") as file:
        for link in links_of(file.read()):
            heads = [packets[0] for packets, _ in link.values() if packets[0].startswith(b"fishead\0")]
            print(*[head[44:64].decode("ascii", "backslashreplace") for head in heads] or ["none"])
PYTHON
}
# within NAME FROM TO TIME: the time of day is one of Skeleton 3.0's, and lies between these.
within() {
    check "$1: $4 is a time of day" grep -qxE '[0-9]{8}T[0-9]{6}\.[0-9]{3}Z' <<<"$4"
    check "$1: $4 is from $2 to $3" [ "$4" \> "$2" -a "$4" \< "$3" ]
}
now() { date -u +%Y%m%dT%H%M%S.%3NZ; }
stream() { python3 "$here/filing.py" stream "$1" "$2"; }

stream 1 8 >"$work/one"
stream 2 8 >"$work/two"

# A link that comes later begins later, though one run records both.
before=$(now)
sleep 0.01
run archive "$work/both.ogg" --skeleton 900 < <(cat "$work/one"; sleep 1.2; cat "$work/two")
check "two links: status $status" [ "$status" -eq 0 ]
sleep 0.01
after=$(now)
mapfile -t times < <(utcs "$work/both.ogg")
check "two links: ${times[*]}" [ "${#times[@]}" -eq 2 ]
within "the first link" "$before" "$after" "${times[0]}"
within "the second link" "${times[0]}" "$after" "${times[1]}"
check "the second link came a second later" [ "$((10#${times[1]:9:6} - 10#${times[0]:9:6}))" -ne 0 ]

# Without --skeleton there is none.
run archive "$work/plain.ogg" <"$work/one"
check "no Skeleton is made: $(utcs "$work/plain.ogg")" [ "$(utcs "$work/plain.ogg")" = none ]

# A Skeleton of the stream that says a time of day keeps it, one that says none gets it.
for said in 20260102T030405.006Z none; do
    python3 - "$here" "$said" >"$work/said" <<'PYTHON'
import struct
import sys

sys.path.insert(0, sys.argv[1])
from archiving import stream
from pages import page

utc = bytes(20) if sys.argv[2] == "none" else sys.argv[2].encode()
head = b"fishead\0" + struct.pack("<HHqqqq", 3, 0, 0, 1000, 0, 1000) + utc
pages = list(stream(9, 6))
sys.stdout.buffer.write(b"".join([page(2, 0, 99, 0, [len(head)], head), pages[0], page(4, 0, 99, 1, [0], b""), *pages[1:]]))
PYTHON
    before=$(now)
    sleep 0.01
    rm -f "$work/said.ogg"
    run archive "$work/said.ogg" --skeleton 900 <"$work/said"
    sleep 0.01
    check "a Skeleton that is said: status $status" [ "$status" -eq 0 ]
    time=$(utcs "$work/said.ogg")
    if [ "$said" = none ]; then
        within "a Skeleton without a time of day" "$before" "$(now)" "$time"
    else
        check "the time of day that is said stays: $time" [ "$time" = "$said" ]
    fi
done

# A link that begins again in the next file has its own time there.
before=$(now)
sleep 0.01
run archive "$work/folder/" --every 1s --skeleton 900 < <(head -c 150 "$work/one"; sleep 1.1; tail -c +151 "$work/one")
check "a folder: status $status" [ "$status" -eq 0 ]
sleep 0.01
mapfile -t times < <(utcs "$work/folder"/*.ogg)
check "a folder: ${times[*]}" [ "${#times[@]}" -ge 2 ]
within "the first file" "$before" "$(now)" "${times[0]}"
within "the next file" "${times[0]}" "$(now)" "${times[1]}"

finish
