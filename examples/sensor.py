#!/usr/bin/env python3
"""Records packets with their times: examples/sensor.py FILE < LINES. Each line is a packet, and a commit.

It writes a feed of version 2 to `kudzuturret record` and reads its replies: a packet is on the disk once its `kept` line came.
docs/FORMATS.md has feeds. `kudzuturret lines` does the same for whoever has lines; this is for packets of other kinds.
"""
import os
import struct
import subprocess
import sys
import time


def record(kind, payload=b""):
    return struct.pack("<BI", kind, len(payload)) + payload


def text(word):
    return struct.pack("<H", len(word)) + word


program = os.path.join(os.path.dirname(os.path.abspath(__file__)), "..", "kudzuturret")
command = [os.environ.get("PROGRAM", program), "record", sys.argv[1], "--renumber"]
# What a stop left open is ended by a run of its own, so that all replies below are those of the records below.
subprocess.run(command, stdin=subprocess.DEVNULL, stdout=subprocess.DEVNULL, check=True)
recorder = subprocess.Popen(command, stdin=subprocess.PIPE, stdout=subprocess.PIPE)


def send(*records):
    """Writes records, and reads replies until all that was sent is kept."""
    recorder.stdin.write(b"".join(records) + record(4))
    recorder.stdin.flush()
    for _ in range(len(records) + 1):
        reply = recorder.stdout.readline()
        if not reply.startswith(b"kept "):
            sys.exit(f"not kept: {reply.decode()}")


header = b"MySensor"
skeleton = struct.pack("<I", 1000) + struct.pack("<qqqq", 0, 1, 0, 1) + bytes(20)
stream = struct.pack("<IH", 1, 1) + struct.pack("<I", len(header)) + header + text(b"application/octet-stream")
# A second has 1,000 units of positions; one message field.
stream += struct.pack("<qqqIB", 1000, 1, 0, 0, 0) + struct.pack("<H", 1) + text(b"Name") + text(b"sensor")
recorder.stdin.write(record(0, b"\2"))
send(record(1, b"\1" + skeleton + struct.pack("<H", 1) + stream))
for line in sys.stdin.buffer:
    packet = line.rstrip(b"\n")
    send(record(2, struct.pack("<HIQI", 1, 1, int(time.time() * 1000), len(packet)) + packet))
recorder.stdin.write(record(3, struct.pack("<I", 1)))
recorder.stdin.close()
sys.exit(recorder.wait())
