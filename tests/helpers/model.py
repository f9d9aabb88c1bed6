#!/usr/bin/env python3
"""What `mux` must write and answer, as the tests' own plain program says; and random feeds to try both on.

    model.py mux [--check] < FEED       does what the program does
    model.py PROGRAM SEED COUNT         runs the program on COUNT random feeds, and says where it differs
"""
import os
import random
import re
import struct
import subprocess
import sys

sys.path.insert(0, os.path.dirname(os.path.abspath(__file__)))
from pages import page
from records import record

MOST_PAYLOAD = 33554432
MOST_PACKET = 8388608
ANNOUNCEMENT, BEGIN, PUT, END, FLUSH = range(5)


class Fault(Exception):
    pass


class Reader:
    """Numbers and bytes from the front; `Fault` if there are too few."""

    def __init__(self, data):
        self.data, self.at = data, 0

    def take(self, count):
        if self.at + count > len(self.data):
            raise Fault
        self.at += count
        return self.data[self.at - count : self.at]

    def number(self, size):
        return int.from_bytes(self.take(size), "little")


def text_of(reader):
    return reader.take(reader.number(2))


def begin_of(reader, version):
    """The Skeleton's head, if there is one, and the streams. Message fields stand in a feed of version 2 alone."""
    has_skeleton = reader.number(1)
    if has_skeleton > 1:
        raise Fault
    skeleton = struct.unpack("<Iqqqq20s", reader.take(56)) if has_skeleton else None
    streams = []
    for _ in range(reader.number(2)):
        serial = reader.number(4)
        headers = [reader.take(reader.number(4)) for _ in range(reader.number(2))]
        media = text_of(reader)
        numbers = struct.unpack("<qqqIB", reader.take(29))
        fields = [(text_of(reader), text_of(reader)) for _ in range(reader.number(2))] if version == 2 else []
        streams.append((serial, headers, media, numbers, fields))
    return skeleton, streams


def put_of(reader):
    return [(reader.number(4), reader.number(8), reader.take(reader.number(4))) for _ in range(reader.number(2))]


def payload_of(kind, reader, version):
    """What a payload says; `Fault` if it isn't exactly one spelling."""
    if kind == ANNOUNCEMENT:
        if reader.data != b"\2":
            raise Fault
        value = reader.number(1)
    elif kind == BEGIN:
        value = begin_of(reader, version)
    elif kind == PUT:
        value = put_of(reader)
    elif kind == END:
        value = reader.number(4)
    else:
        value = ()
    if reader.at != len(reader.data):
        raise Fault
    return value


def records(data):
    """The feed's commands and flushes, and at its end a fault or nothing."""
    at, version = 0, 1
    while at < len(data):
        if at + 5 > len(data):
            yield "fault feed 1 Truncated", None
            return
        kind, size = struct.unpack_from("<BI", data, at)
        payload = Reader(data[at + 5 : at + 5 + size])
        if not (ANNOUNCEMENT if at == 0 else BEGIN) <= kind <= FLUSH:
            yield "fault feed 2 Kind", None
            return
        if size > MOST_PAYLOAD:
            yield "fault feed 3 Length", None
            return
        if len(payload.data) < size:
            yield "fault feed 1 Truncated", None
            return
        try:
            value = payload_of(kind, payload, version)
        except Fault:
            yield "fault feed 4 Form", None
            return
        if kind == ANNOUNCEMENT:
            version = 2
        else:
            yield kind, value
        at += 5 + size


def run_pages(serial, sequence, flags, items):
    """The pages of packets with their positions: joined lacing values, cut into pieces of 255."""
    values = []
    for position, packet in items:
        values += [(255, None)] * (len(packet) // 255) + [(len(packet) % 255, position)]
    body, pages, continued = b"".join(packet for _, packet in items), [], 0
    for at in range(0, len(values), 255):
        piece = values[at : at + 255]
        size = sum(value for value, _ in piece)
        ends = [position for _, position in piece if position is not None]
        pages.append(
            page(flags | continued, ends[-1] if ends else -1, serial, sequence + len(pages), [v for v, _ in piece], body[:size])
        )
        body, flags, continued = body[size:], 0, int(piece[-1][1] is None)
    return pages


def is_media(media):
    return 1 <= len(media) <= 255 and all(0x20 <= byte <= 0x7E for byte in media) and media == media.strip(b" ")


def is_field(name, value):
    return re.fullmatch(rb"[A-Za-z0-9-]{1,64}", name) and name.lower() != b"content-type" and is_media(value)


def fisbone(serial, headers, media, numbers, fields):
    numerator, denominator, base, preroll, shift = numbers
    front = struct.pack("<8sIIIqqqIB3x", b"fisbone", 44, serial, len(headers), numerator, denominator, base, preroll, shift)
    return front + b"".join(name + b": " + value + b"\r\n" for name, value in [(b"Content-Type", media)] + fields)


class Model:
    def __init__(self):
        # of the last link, by serial: [next sequence, last position, ended]
        self.streams, self.serials = {}, set()

    def answer(self, kind, value):
        return (self.begin, self.put, self.end)[kind - 1](value)

    def is_open(self):
        return not all(ended for _, _, ended in self.streams.values())

    def begin(self, value):
        skeleton, streams = value
        if self.is_open():
            return "2 LinkOpen"
        if not streams:
            return "4 Empty"
        if len(streams) + (skeleton is not None) > 64 or any(
            len(headers) > 256 or len(fields) > 16 for _, headers, _, _, fields in streams
        ):
            return "5 TooMany"
        seen = set(self.serials)
        if skeleton:
            serial, _, presentation, _, base, _ = skeleton
            if serial in seen:
                return "6 SerialTaken"
            if presentation <= 0 or base <= 0:
                return "11 BadRate"
            seen.add(serial)
        for serial, headers, media, (numerator, denominator, *_), fields in streams:
            if serial in seen:
                return "6 SerialTaken"
            if not headers:
                return "7 NoHeader"
            if len(headers[0]) > 65024:
                return "8 HeadTooLong"
            if any(len(header) > MOST_PACKET for header in headers[1:]):
                return "9 PacketTooLong"
            if skeleton and not (is_media(media) and all(is_field(*field) for field in fields)):
                return "10 BadType"
            if skeleton and (numerator <= 0 or denominator <= 0):
                return "11 BadRate"
            seen.add(serial)
        if sum(len(header) for _, headers, *_ in streams for header in headers) > 16777216:
            return "16 BatchTooLong"
        self.serials = seen
        self.streams = {serial: [1, 0, False] for serial, *_ in streams}
        pages = [run_pages(serial, 0, 2, [(0, headers[0])])[0] for serial, headers, *_ in streams]
        if skeleton:
            own, times, utc = skeleton[0], skeleton[1:5], skeleton[5]
            self.streams[own] = [len(streams) + 2, 0, True]
            pages = run_pages(own, 0, 2, [(0, struct.pack("<8sHHqqqq20s", b"fishead", 3, 0, *times, utc))]) + pages
            for number, stream in enumerate(streams):
                pages += run_pages(own, 1 + number, 0, [(0, fisbone(*stream))])
        for serial, headers, *_ in streams:
            more = run_pages(serial, 1, 0, [(0, header) for header in headers[1:]])
            self.streams[serial][0] += len(more)
            pages += more
        if skeleton:
            pages += run_pages(own, len(streams) + 1, 4, [(0, b"")])
        return b"".join(pages)

    def put(self, entries):
        if not self.is_open():
            return "3 NoLink"
        if not entries:
            return "4 Empty"
        if len(entries) > 4096:
            return "5 TooMany"
        last = {serial: stream[1] for serial, stream in self.streams.items()}
        for serial, position, packet in entries:
            if len(packet) > MOST_PACKET:
                return "9 PacketTooLong"
            if serial not in last:
                return "12 UnknownSerial"
            if self.streams[serial][2]:
                return "13 StreamEnded"
            if position >= 2**63:
                return "14 PositionRange"
            if position < last[serial]:
                return "15 PositionBack"
            last[serial] = position
        if sum(len(packet) for _, _, packet in entries) > 16777216:
            return "16 BatchTooLong"
        runs = []
        for serial, position, packet in entries:
            if not runs or runs[-1][0] != serial:
                runs.append((serial, []))
            runs[-1][1].append((position, packet))
        pages = []
        for serial, items in runs:
            stream = self.streams[serial]
            more = run_pages(serial, stream[0], 0, items)
            stream[0] += len(more)
            stream[1] = items[-1][0]
            pages += more
        return b"".join(pages)

    def end(self, serial):
        if not self.is_open():
            return "3 NoLink"
        stream = self.streams.get(serial)
        if stream is None:
            return "12 UnknownSerial"
        if stream[2]:
            return "13 StreamEnded"
        stream[2] = True
        return page(4, stream[1], serial, stream[0], [], b"")


def mux(data):
    """The pages, the lines and the status."""
    model, pages, lines, kept = Model(), b"", "", 0
    for kind, value in records(data):
        if value is None:
            return pages, lines, kind + "\n", 1
        if kind == FLUSH:
            lines += f"kept {kept} {len(pages)}\n"
            continue
        answer = model.answer(kind, value)
        if isinstance(answer, bytes):
            pages += answer
            kept += 1
            lines += f"kept {kept} {len(pages)}\n"
        else:
            lines += f"refused {answer}\n"
    return pages, lines, "", 0


def random_feed(chance):
    """Commands near the rules' edges, of either version, and now and then a broken byte or a cut."""

    def listed(data):
        return struct.pack("<I", len(data)) + data

    def text(data):
        return struct.pack("<H", len(data)) + data

    def field():
        name = chance.choice((b"", b"content-TYPE", b"a:b", b"n" * 65)) if chance.random() < 0.05 else chance.choice((b"Title", b"Role", b"n" * 64))
        value = chance.choice((b"", b" One", b"One\r", b"v" * 256)) if chance.random() < 0.05 else chance.choice((b"One", b"a: b", b"v" * 255))
        return text(name) + text(value)

    def packet(sizes):
        return chance.randbytes(chance.choice(sizes)) if chance.random() < 0.9 else b""

    small = (0, 1, 2, 10, 100, 253, 254, 255, 256, 509, 510, 511, 765)
    sizes = small * 6 + (64769, 64770, 65024, 65025, 65026)
    serials, begun, position = chance.sample(range(1, 2**32), 30), [], 0
    version = chance.choice((1, 2))
    feed = struct.pack("<BIB", 0, 1, 2 if chance.random() < 0.95 else chance.randrange(4)) if version == 2 else b""
    for _ in range(chance.randrange(1, 14)):
        draw = chance.random()
        if draw < 0.2 or not begun and draw < 0.9:
            payload = bytes([chance.random() < 0.3])
            if payload[0]:
                payload += struct.pack("<Iqqqq20s", chance.choice(serials), *(chance.choice((0, 1000)) if chance.random() < 0.1 else 1000 for _ in range(4)), b"")
            begun = [chance.choice(serials) for _ in range(chance.choice((0, 1, 1, 1, 2, 2, 3)))]
            payload += struct.pack("<H", len(begun))
            for serial in begun:
                headers = [packet(sizes) for _ in range(chance.choice((1, 1, 1, 1, 2, 3, chance.randrange(2))))]
                payload += struct.pack("<IH", serial, len(headers)) + b"".join(map(listed, headers))
                media = chance.choice((b"", b" a/b", b"a/b ", b"a\nb", b"m" * 255, b"m" * 256)) if chance.random() < 0.1 else b"audio/vorbis"
                rate = [chance.randrange(-1, 2) if chance.random() < 0.1 else chance.randrange(1, 2**63) for _ in range(2)]
                payload += text(media) + struct.pack("<qq", *rate) + chance.randbytes(13)
                if version == 2:
                    fields = [field() for _ in range(chance.choice((0, 0, 1, 1, 2, 3, 16, 17 if chance.random() < 0.3 else 0)))]
                    payload += struct.pack("<H", len(fields)) + b"".join(fields)
            kind = BEGIN
        elif draw < 0.27:
            payload, kind = b"", FLUSH
        elif draw < 0.8:
            count = chance.choice((0, 1, 1, 2, 3, 5, 10, 254, 255, 256, 300))
            # One put in ten has one odd entry.
            odd = chance.randrange(count) if count and chance.random() < 0.1 else -1
            entries, serial = b"", chance.choice(begun or serials)
            for k in range(count):
                serial = chance.choice(begun or serials) if chance.random() < 0.1 else serial
                position += chance.randrange(3)
                at = chance.choice((0, 2**63 - 1, 2**63, 2**64 - 1)) if k == odd else position
                entries += struct.pack("<IQ", chance.choice(serials) if k == odd and at > 0 else serial, at)
                entries += listed(packet(sizes if count < 20 else small))
            payload, kind = struct.pack("<H", count) + entries, PUT
        else:
            serial = chance.choice(begun or serials)
            begun = [other for other in begun if other != serial] if chance.random() < 0.8 else begun
            payload, kind = struct.pack("<I", serial), END
        feed += record(kind, payload)
    if chance.random() < 0.1:
        return feed[: chance.randrange(len(feed) + 1)]
    if chance.random() < 0.1:
        at = chance.randrange(min(len(feed), 200))
        return feed[:at] + bytes([chance.randrange(256)]) + feed[at + 1 :]
    return feed


def compare(program, seed, count):
    differences, kept, refused, faults = 0, 0, 0, 0
    for n in range(seed, seed + count):
        feed = random_feed(random.Random(n))
        pages, lines, fault, status = mux(feed)
        ran = subprocess.run([program, "mux"], input=feed, capture_output=True, timeout=20)
        if (ran.stdout, ran.stderr.decode(), ran.returncode) != (pages, lines + fault, status):
            differences += 1
            print(f"feed {n} differs: status {ran.returncode}, not {status}; {len(ran.stdout)} bytes, not {len(pages)}")
            print(f"  {ran.stderr.decode()!r}\n  not {lines + fault!r}")
        kept += lines.count("kept")
        refused += lines.count("refused")
        faults += status
    print(f"{count} feeds: {kept} commands kept, {refused} refused, {faults} feeds with a fault, {differences} differences")
    return differences


if __name__ == "__main__":
    if sys.argv[1:2] == ["mux"]:
        pages, lines, fault, status = mux(sys.stdin.buffer.read())
        if "--check" in sys.argv:
            sys.stdout.write(lines)
        else:
            sys.stdout.buffer.write(pages)
            sys.stderr.write(lines)
        sys.stderr.write(fault)
        sys.exit(status)
    sys.exit(compare(sys.argv[1], int(sys.argv[2]), int(sys.argv[3])) > 0)
