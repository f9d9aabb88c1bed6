#!/usr/bin/env python3
"""Writes a feed of one shape to standard output: bench/feeds.py SHAPE [MEGABYTES OF PACKETS]

The packets' bytes come from a fixed seed, so that each run has the same feed.
"""
import os
import random
import struct
import sys

sys.path.insert(0, os.path.join(os.path.dirname(os.path.abspath(__file__)), "..", "tests", "helpers"))
from records import record

# For each shape: streams, packets in a put (neighbours are of one stream), bytes in a packet.
SHAPES = {
    "tiny": (1, 1, 100),
    "audio": (1, 50, 100),
    "streams": (64, 64, 400),
    "frames": (1, 1, 20000),
    "large": (1, 1, 1000000),
}


def main(shape, megabytes):
    streams, entries, size = SHAPES[shape]
    noise = random.Random(1).randbytes(size + 4096)
    write = sys.stdout.buffer.write
    begin = b"\0" + struct.pack("<H", streams)
    for serial in range(1, streams + 1):
        begin += struct.pack("<IHI", serial, 3, 30) + noise[:30]
        begin += struct.pack("<I", 60) + noise[:60] + struct.pack("<I", 3000) + (noise * 3)[:3000]
        begin += bytes(31)
    write(record(1, begin))
    turn = 0
    for _ in range(megabytes * 1000000 // (entries * size)):
        payload = [struct.pack("<H", entries)]
        for k in range(entries):
            start = turn * 7 % 4096
            payload.append(struct.pack("<IQI", turn % streams + 1, turn // streams * 960, size))
            payload.append(noise[start : start + size])
            turn += 1
        write(record(2, b"".join(payload)))
    for serial in range(1, streams + 1):
        write(record(3, struct.pack("<I", serial)))


if __name__ == "__main__":
    if len(sys.argv) < 2 or sys.argv[1] not in SHAPES:
        sys.exit(__doc__ + "\nShapes: " + ", ".join(SHAPES))
    main(sys.argv[1], int(sys.argv[2]) if len(sys.argv) > 2 else 110)
