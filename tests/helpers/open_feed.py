#!/usr/bin/env python3
"""Cuts a feed before the first end of a stream in its last link. The result is the feed of a recording that goes on."""
import struct
import sys

feed = sys.stdin.buffer.read()
at = cut = 0
ended = False
while at < len(feed):
    kind, length = struct.unpack_from("<BI", feed, at)
    if kind == 1:
        ended = False
    if kind == 3 and not ended:
        ended, cut = True, at
    at += 5 + length
sys.stdout.buffer.write(feed[:cut] if ended else feed)
