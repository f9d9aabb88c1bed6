#!/usr/bin/env python3
"""Records of a feed of version 1, for the tests. Run with an expression that makes a list of records, it writes them:

    records.py 'begin([1, 2]), put([(1, 5, b"hello")]), end(1)'
"""
import struct
import sys


def record(kind, payload):
    return struct.pack("<BI", kind, len(payload)) + payload


def begin(serials, header=b"abc"):
    """A link of these streams, each with this one header and no more."""
    streams = [struct.pack("<IHI", serial, 1, len(header)) + header + bytes(31) for serial in serials]
    return record(1, b"\0" + struct.pack("<H", len(streams)) + b"".join(streams))


def put(entries):
    """Entries of a serial, a position and a packet."""
    packets = [struct.pack("<IQI", serial, position, len(packet)) + packet for serial, position, packet in entries]
    return record(2, struct.pack("<H", len(packets)) + b"".join(packets))


def end(serial):
    return record(3, struct.pack("<I", serial))


def flush():
    return record(4, b"")


if __name__ == "__main__":
    sys.stdout.buffer.write(b"".join(eval(f"[{sys.argv[1]}]")))
