#!/usr/bin/env bash
# Measures whether a command costs what it adds and not what the file has: commands per CPU second over files of 1,024
# and of 65,536 links, begun and ended, each the best of three runs. Then it measures whether a command costs the same
# whoever has chosen the serials: files of 65,536 links of four streams have 262,144 serials, and the ratio to random
# ones is given. Not part of the tests.
#
#     bench/links.sh [STREAMS]      streams of each link; none: 1
. "$(dirname "$0")/common.bash"
streams=${1:-1}

built "$program"

# feed LINKS STREAMS ORDER: links with an empty header for each stream, and the ends of all of them.
feed() {
    PYTHONPATH=$here/../tests/helpers python3 -c '
import random, sys
from records import begin, end
links, streams, order = int(sys.argv[1]), int(sys.argv[2]), sys.argv[3]
count = links * streams
chosen = {
    "rising": lambda: range(count),
    "random": lambda: random.Random(1).sample(range(1 << 32), count),
    "low": lambda: [(k << 32 - (count - 1).bit_length()) + 0x155 for k in random.Random(2).sample(range(count), count)],
    "high": lambda: [0xAAAAAAAA >> (count - 1).bit_length() << (count - 1).bit_length() | k for k in random.Random(3).sample(range(count), count)],
}[order]()
write = sys.stdout.buffer.write
for link in range(links):
    serials = chosen[link * streams : (link + 1) * streams]
    write(begin(serials, b"") + b"".join(map(end, serials)))
' "$1" "$2" "$3"
}

# seconds: the CPU seconds of `mux --check` over the feed, the best of three runs
seconds() {
    local TIMEFORMAT='%U %S'
    for _ in 1 2 3; do
        { time "$program" mux --check <"$work/feed" >"$work/replies"; } 2>&1 | awk '{ print $1 + $2 }'
    done | sort -n | head -n 1
}

printf '%-8s %10s %10s %14s\n' links commands 'mux, s' 'commands per s'
few=
for links in 1024 65536; do
    feed "$links" "$streams" rising >"$work/feed"
    best=$(seconds)
    commands=$(grep -c '^kept ' "$work/replies")
    rate=$(echo "$commands $best" | awk '{ printf "%.0f", $2 ? $1 / $2 : 0 }')
    [ -z "$few" ] || row "commands over $links links" 'commands/s' "$rate" 'ours, over 1024 links' "$few"
    few=${few:-$rate}
    echo "$links $commands $best" | awk '{ printf "%-8s %10s %10.2f %14.0f\n", $1, $2, $3, $3 ? $2 / $3 : 0 }'
done

echo
printf '%-16s %10s %10s %10s\n' '262144 serials' commands 'mux, s' ratio
random=
for order in random rising low high; do
    feed 65536 4 "$order" >"$work/feed"
    best=$(seconds)
    commands=$(grep -c '^kept ' "$work/replies")
    random=${random:-$best}
    case $order in low) name='same low bits' ;; high) name='same high bits' ;; *) name=$order ;; esac
    [ "$order" = random ] || row "262,144 serials, $name" 'CPU s' "$best" 'ours, random serials' "$random"
    echo "$commands $best $random" | awk -v name="$name" '{ printf "%-16s %10s %10.2f %10.2f\n", name, $1, $2, $3 ? $2 / $3 : 0 }'
done
