#!/usr/bin/env python3
"""Writes FILE as a recorder does, for SECONDS: pages after a closed byte, and then that byte; with its times beside it.

    growing.py FILE SECONDS      FILE ends in .ogg; the first page has 31 bytes, and each group of two has 8,086
"""
import os
import sys
import time

from pages import page

path, seconds = sys.argv[1], float(sys.argv[2])
file = os.open(path, os.O_RDWR | os.O_CREAT | os.O_TRUNC)
times = open(path.removesuffix(".ogg") + ".times", "w", encoding="ascii")
front = page(2, 0, 1, 0, [3], b"abc")
os.pwrite(file, front + b"\0", 0)
end, sequence, told = len(front), 1, 0.0
until = time.time() + seconds
while time.time() < until:
    body = os.urandom(4000)
    lacing = [255] * 15 + [4000 - 255 * 15]
    both = b"".join(page(0, sequence + more, 1, sequence + more, lacing, body) for more in range(2))
    sequence += 2
    os.pwrite(file, both[1:2000], end + 1)
    os.pwrite(file, both[2000:] + b"\0", end + 2000)
    os.pwrite(file, both[:1], end)
    end += len(both)
    if time.time() - told > 0.2:
        told = time.time()
        times.write(f"{end} {int(told * 1000)} 0 31\n")
        times.flush()
