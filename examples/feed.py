#!/usr/bin/env python3
"""Makes a feed from lines: examples/feed.py < FILE.txt > FILE.feed

    version 2                      at the front: the feed is of version 2, whose streams have message fields
    begin STREAM [; STREAM] ..     STREAM: SERIAL HEADER [HEADER] ..
    skeleton SERIAL ; STREAM ..    a begin with a Skeleton of this serial; STREAM: SERIAL MEDIA RATE HEADER [HEADER] ..,
                                   RATE as 44100/1; in version 2 also -- NAME VALUE [NAME VALUE] .. at its end
    put ENTRY [; ENTRY] ..         ENTRY: SERIAL POSITION PACKET
    end SERIAL
    flush                          what waits is to be kept at once

A header or a packet is a word, or BYTE*COUNT, as x*600 for six hundred bytes `x`. Words are split as a shell splits
them, so "" is an empty packet, and a semicolon stands between spaces. Empty lines and lines that begin with # are
passed over. No rule is looked at: a feed that must be refused can be written too.
"""
import shlex
import struct
import sys


def packet(word):
    byte, star, count = word.rpartition("*")
    if star and len(byte.encode()) == 1 and count.isdigit():
        return byte.encode() * int(count)
    return word.encode()


def listed(data):
    return struct.pack("<I", len(data)) + data


def record(kind, payload):
    return struct.pack("<BI", kind, len(payload)) + payload


def text(word):
    return struct.pack("<H", len(word.encode())) + word.encode()


def fields_of(version, words):
    """A stream's message fields, after their number. In version 1 there are none, nor a number."""
    return struct.pack("<H", len(words) // 2) + b"".join(map(text, words)) if version == 2 else b""


def stream(version, serial, *headers):
    packets = b"".join(listed(packet(header)) for header in headers)
    # No media type, rate 0/0, base position 0, preroll 0, shift 0: without a Skeleton nobody reads these.
    numbers = struct.pack("<HqqqIB", 0, 0, 0, 0, 0, 0)
    return struct.pack("<IH", int(serial), len(headers)) + packets + numbers + fields_of(version, [])


def described(version, serial, media, rate, *words):
    headers = words[: words.index("--")] if "--" in words else words
    packets = b"".join(listed(packet(header)) for header in headers)
    numbers = struct.pack("<qqqIB", *map(int, rate.split("/")), 0, 0, 0)
    front = struct.pack("<IH", int(serial), len(headers)) + packets + text(media) + numbers
    return front + fields_of(version, words[len(headers) + 1 :])


def entry(serial, position, word):
    return struct.pack("<IQ", int(serial), int(position)) + listed(packet(word))


def items(words):
    found, rest = [], []
    for word in words + [";"]:
        if word == ";":
            if rest:
                found.append(rest)
            rest = []
        else:
            rest.append(word)
    return found


def record_of(version, words):
    """The record of a line's words."""
    kind, rest = words[0], words[1:]
    if words == ["version", "2"]:
        return record(0, b"\2")
    if kind == "begin":
        streams = [stream(version, *item) for item in items(rest)]
        return record(1, b"\0" + struct.pack("<H", len(streams)) + b"".join(streams))
    if kind == "skeleton":
        head, *rest = items(rest)
        streams = [described(version, *item) for item in rest]
        front = struct.pack("<BIqqqq20x", 1, int(head[0]), 0, 1, 0, 1)
        return record(1, front + struct.pack("<H", len(streams)) + b"".join(streams))
    if kind == "put":
        entries = [entry(*item) for item in items(rest)]
        return record(2, struct.pack("<H", len(entries)) + b"".join(entries))
    if kind == "end":
        (serial,) = rest
        return record(3, struct.pack("<I", int(serial)))
    if words == ["flush"]:
        return record(4, b"")
    raise ValueError("a line begins with version, begin, skeleton, put, end or flush")


# The text for a line that has too few words, or too many.
FORMS = {
    "begin": "begin SERIAL HEADER [HEADER] .. [; ..]",
    "skeleton": "skeleton SERIAL ; SERIAL MEDIA RATE HEADER [HEADER] .. [; ..]",
    "put": "put SERIAL POSITION PACKET [; ..]",
    "end": "end SERIAL",
}


def feed_of(lines):
    feed, version = b"", 1
    for number, line in enumerate(lines.splitlines(), 1):
        if not line.strip() or line.strip().startswith("#"):
            continue
        try:
            words = shlex.split(line)
            version = 2 if words == ["version", "2"] else version
            feed += record_of(version, words)
        except (ValueError, TypeError, IndexError, struct.error) as fault:
            form = FORMS.get(line.split()[0])
            sys.exit(f"feed.py: line {number}: {line.strip()}: {'it should be ' + form if form else fault}")
    return feed


if __name__ == "__main__":
    if len(sys.argv) > 1:
        sys.exit(__doc__)
    sys.stdout.buffer.write(feed_of(sys.stdin.read()))
