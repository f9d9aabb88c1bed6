#!/usr/bin/env python3
"""Writes Ogg pages (RFC 3533, section 6) for the tests, with a separate checksum.

Each argument is a page, FLAGS POSITION SERIAL SEQUENCE LACING BODY: FLAGS in hex, LACING with commas, each value as N or
N*COUNT, or - for none; BODY as text, BYTE*COUNT, or - for nothing.
"""
import struct
import sys


def remainder(rest):
    for _ in range(8):
        rest = (rest << 1) ^ 0x04C11DB7 if rest & 0x80000000 else rest << 1
    return rest & 0xFFFFFFFF


REMAINDERS = [remainder(byte << 24) for byte in range(256)]


def checksum(data):
    rest = 0
    for byte in data:
        rest = (rest << 8 & 0xFFFFFFFF) ^ REMAINDERS[rest >> 24 ^ byte]
    return rest


def page(flags, position, serial, sequence, lacing, body):
    assert len(lacing) <= 255 and sum(lacing) == len(body)
    front = b"OggS\0" + struct.pack("<BqII", flags, position, serial, sequence)
    table = bytes([len(lacing)]) + bytes(lacing)
    return front + struct.pack("<I", checksum(front + b"\0\0\0\0" + table + body)) + table + body


def values(text):
    found = []
    for part in [] if text == "-" else text.split(","):
        value, _, count = part.partition("*")
        found += [int(value)] * int(count or 1)
    return found


def content(text):
    if text == "-":
        return b""
    byte, star, count = text.rpartition("*")
    return byte.encode() * int(count) if star else text.encode()


if __name__ == "__main__":
    # The checksum that others publish for these bytes.
    assert checksum(b"123456789") == 0x89A1897F
    for text in sys.argv[1:]:
        flags, position, serial, sequence, lacing, body = text.split()
        sys.stdout.buffer.write(
            page(int(flags, 16), int(position), int(serial), int(sequence), values(lacing), content(body))
        )
