#!/usr/bin/env bash
# Measures what the checksum of a page costs: by folding and by the tables alone (`test_read folding` and `test_read
# tables`, which call page_checksum), by libogg, and beside a plain read of the same memory. All but that must find the
# same checksum. Each goes over a page of 512 bytes, of 4 kB and of 65 kB until it has seen 2 GB; of 512 bytes folding
# is the tables too. The GB in a second of a processor are from the best of three runs that take turns. Not part of the
# tests.
#
#     apt-get install libogg-dev && bench/checksum.sh [BYTES]      none: 2000000000
. "$(dirname "$0")/common.bash"
bytes=${1:-2000000000}

built "$reader"
cc -O2 -o "$work/measured" "$here/measured.c" || exit 1
cc -O2 -o "$work/pages_made" "$here/pages_made.c" -logg || exit 1
cc -O2 -o "$work/checksums" "$here/checksums.c" -logg || exit 1

# rate WAY: the GB in a second, of the run that took the fewest seconds.
rate() { sort -n "$work/$1.s" | head -n 1 | awk -v bytes="$((size * turns))" '{ printf "%.2f", $1 ? bytes / $1 / 1e9 : 0 }'; }

printf '%-10s %10s %10s %10s %10s   GB/s\n' 'page, bytes' folding tables libogg memory
status=0
for packet in 483 4053 65024; do
    # The first page, with its checksum left blank.
    "$work/pages_made" 1 "$packet" >"$work/page"
    printf '\0\0\0\0' | dd of="$work/page" bs=1 seek=22 conv=notrunc status=none
    size=$(stat -c %s "$work/page")
    turns=$((bytes / size))
    rm -f "$work"/*.s
    for _ in 1 2 3; do
        for way in folding tables; do
            "$work/measured" "$work/$way" "$work/page" "$reader" "$way" "$turns" >>"$work/$way.s"
        done
        for way in libogg memory; do
            "$work/measured" "$work/$way" "$work/page" "$work/checksums" "$way" "$turns" >>"$work/$way.s"
        done
        for way in folding tables; do
            cmp <(head -n 1 "$work/$way") "$work/libogg" || status=1
        done
    done
    for way in tables libogg memory; do
        row "the checksum of a page of $size bytes" GB/s "$(rate folding)" \
            "$(case $way in tables) echo 'ours, by tables' ;; libogg) echo libogg ;; memory) echo 'a plain read of it' ;; esac)" "$(rate $way)"
    done
    printf '%-11s %10s %10s %10s %10s\n' "$size" "$(rate folding)" "$(rate tables)" "$(rate libogg)" "$(rate memory)"
done
[ "$status" -eq 0 ] || echo "they differ" >&2
exit "$status"
