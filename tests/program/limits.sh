#!/usr/bin/env bash
# Tests the most streams of a link, and the most links of a file.
. "$(dirname "$0")/../helpers/common.bash"

# 64 streams, a packet for each, and their ends: 64 pages of 31, 64 of 28 + 5 and 64 of 27 bytes.
records 'begin(range(1, 65)), put([(s, s, b"hello") for s in range(1, 65)]), *map(end, range(1, 65)), begin(range(65, 130))' \
    >"$work/feed"
run mux <"$work/feed"
check "64 streams: status" [ "$status" -eq 0 ]
check "64 streams: length" [ "$(wc -c <"$work/out")" -eq $((64 * 31 + 64 * 33 + 64 * 27)) ]
check "64 streams: commands" [ "$(grep -c '^kept ' "$work/err")" -eq 66 ]
check "65 streams" [ "$(tail -n 1 "$work/err")" = "refused 5 TooMany" ]
check "64 streams: the last kept" [ "$(grep '^kept ' "$work/err" | tail -n 1)" = "kept 66 $((64 * 31 + 64 * 33 + 64 * 27))" ]

# 65,536 links of a stream each, of 31 + 27 bytes, and one more; each serial stays taken.
records '*(begin([n]) + end(n) for n in range(1, 65537)), begin([65537]), begin([7])' >"$work/feed"
run mux --check <"$work/feed"
check "65,536 links: status" [ "$status" -eq 0 ]
check "65,536 links: each is kept" [ "$(grep -c '^kept ' "$work/out")" -eq 131072 ]
tail -n 3 "$work/out" >"$work/last"
check "65,536 links: the last answers" is_text "$work/last" \
    'kept 131072 3801088\nrefused 18 LinksFull\nrefused 6 SerialTaken\n'

finish
