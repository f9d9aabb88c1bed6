#!/usr/bin/env python3
"""Asks a program that serves a file, and compares each answer with that of the plain program below.

serving.py PROGRAM WORK [ROUNDS]: serves files made here on 127.0.0.1, and asks for everything in them, and for things
that they don't have. Prints a line for each difference; the status is 1 if there was one.
"""
import random
import re
import socket
import struct
import subprocess
import sys
import time

import pages

PIECE = 4096


# ---- the answers that must come
def links_of(data):
    """Each link: its first byte, its length, and its streams in order, each with its pages and whether it has ended."""
    links, at = [], 0
    while at + 27 <= len(data) and data[at:at + 4] == b"OggS":
        flags = data[at + 5]
        serial, = struct.unpack_from("<I", data, at + 14)
        values = data[at + 27:at + 27 + data[at + 26]]
        size = 27 + len(values) + sum(values)
        page = data[at:at + size]
        begins = bool(flags & 2)
        if begins and (not links or all(stream["ended"] for stream in links[-1]["streams"].values())):
            links.append({"start": at, "length": 0, "streams": {}})
        stream = links[-1]["streams"].setdefault(serial, {"pages": [], "ended": False})
        stream["pages"].append(page)
        stream["ended"] = bool(flags & 4)
        links[-1]["length"] += size
        at += size
    return links, at


def listing(data):
    links, end = links_of(data)
    lines = ["committed %d" % end]
    for number, link in enumerate(links):
        lines.append("link %d %d %d %d" % (number, link["start"], link["length"], len(link["streams"])))
        for serial, stream in link["streams"].items():
            state = "ended" if stream["ended"] else "open"
            lines.append("stream %d %d %d %s" % (serial, sum(map(len, stream["pages"])), len(stream["pages"]), state))
    return ("\n".join(lines) + "\n").encode()


def content(data, target):
    """What a target has: its type and its bytes, or None."""
    links, end = links_of(data)
    target = re.sub(rb"\A(?i:http)://[^/]*", b"", target) or b"/"
    if target == b"/":
        return b"text/plain", listing(data)
    if target == b"/all":
        return b"application/ogg", data[:end]
    number = rb"(0|[1-9][0-9]{0,9})"
    found = re.fullmatch(rb"/link/" + number + rb"(?:/" + number + rb")?", target)
    if not found or any(int(part) > 0xFFFFFFFF for part in found.groups() if part):
        return None
    if int(found[1]) >= len(links):
        return None
    link = links[int(found[1])]
    if found[2] is None:
        return b"application/ogg", data[link["start"]:link["start"] + link["length"]]
    stream = link["streams"].get(int(found[2]))
    return stream and (b"application/ogg", b"".join(stream["pages"]))


def range_of(text, size):
    """The first and the last byte that a Range field asks for, "none" if it can't be met, or None for all."""
    found = re.fullmatch(rb"(?i:bytes)=([0-9]*)-([0-9]*)", text)
    if not found or not (found[1] or found[2]) or size == 0:
        return None
    most = 2 ** 64 - 1
    first, last = (int(part) if part else None for part in found.groups())
    if first is None:
        last = min(last, most)
        return (size - min(last, size), size - 1) if last else "none"
    first = min(first, most)
    if last is not None and min(last, most) < first:
        return None
    if first >= size:
        return "none"
    return first, size - 1 if last is None else min(last, most, size - 1)


def head(status, *fields):
    return b"\r\n".join([b"HTTP/1.1 " + status, *fields, b"Connection: close", b"", b""])


def answer(data, method, target, minor, fields):
    """The answer to a request that is whole."""
    empty = b"Content-Length: 0"
    names = [name.lower() for name, _ in fields]
    if minor == 1 and names.count(b"host") != 1:
        return head(b"400 Bad Request", empty)
    if method not in (b"GET", b"HEAD"):
        return b"HTTP/1.1 405 Method Not Allowed\r\n" + empty + b"\r\nAllow: GET, HEAD\r\nConnection: close\r\n\r\n"
    found = content(data, target)
    if found is None:
        return head(b"404 Not Found", empty)
    kind, body = found
    length = b"Content-Length: %d" % len(body)
    if kind == b"text/plain":
        return head(b"200 OK", b"Content-Type: text/plain", length) + (body if method == b"GET" else b"")
    ogg = b"Content-Type: application/ogg"
    part = None
    if method == b"GET" and names.count(b"range") == 1 and b"if-range" not in names:
        part = range_of(dict((name.lower(), value) for name, value in fields)[b"range"].strip(b" \t"), len(body))
    if part is None:
        return head(b"200 OK", ogg, length, b"Accept-Ranges: bytes") + (body if method == b"GET" else b"")
    if part == "none":
        return head(b"416 Range Not Satisfiable", empty, b"Content-Range: bytes */%d" % len(body), b"Accept-Ranges: bytes")
    first, last = part
    place = b"Content-Range: bytes %d-%d/%d" % (first, last, len(body))
    return head(b"206 Partial Content", ogg, b"Content-Length: %d" % (last - first + 1), place, b"Accept-Ranges: bytes") + body[first:last + 1]


# ---- asking
def free_port():
    """A port that is free, below those that the system gives to clients: none of them takes it before it is bound."""
    while True:
        port = random.SystemRandom().randrange(10000, 32768)
        with socket.socket() as probe:
            try:
                probe.bind(("127.0.0.1", port))
            except OSError:
                continue
        return port


def listens(port):
    """Whether a port of this machine is listened to, without a connection."""
    with open("/proc/net/tcp") as table:
        return any(line.split()[1].endswith(":%04X" % port) and line.split()[3] == "0A" for line in list(table)[1:])


def start(words, port):
    process = subprocess.Popen(words, stdout=subprocess.PIPE, stderr=subprocess.PIPE)
    for _ in range(2000):
        if listens(port) or process.poll() is not None:
            break
        time.sleep(0.01)
    return process


def ask(port, *pieces, shut=False, most=None):
    """What comes back until the server closes, if these bytes are sent."""
    got = b""
    with socket.create_connection(("127.0.0.1", port), timeout=20) as stream:
        for piece in pieces:
            stream.sendall(piece)
            if len(pieces) > 1:
                time.sleep(0.02)
        if shut:
            stream.shutdown(socket.SHUT_WR)
        while most is None or len(got) < most:
            try:
                piece = stream.recv(65536)
            except ConnectionResetError:
                break
            if not piece:
                break
            got += piece
    return got


def request(method, target, minor, fields):
    lines = [method + b" " + target + b" HTTP/1.%d" % minor] + [name + b": " + value for name, value in fields]
    return b"\r\n".join(lines) + b"\r\n\r\n"


# ---- files and requests
def random_file(source):
    """Some links of some streams, whose pages alternate; the last link may be open."""
    data = b""
    for _ in range(source.randrange(1, 5)):
        serials = source.sample(range(1, 40), source.randrange(1, 5))
        numbers = {}
        for serial in serials:
            numbers[serial] = 1
            data += pages.page(2, 0, serial, 0, [3], b"abc")
        for _ in range(source.randrange(0, 12)):
            serial = source.choice(serials)
            size = source.choice([0, 1, 254, 255, 5000, 60000])
            lacing = [255] * (size // 255) + [size % 255]
            data += pages.page(0, numbers[serial], serial, numbers[serial], lacing, bytes(source.randrange(256) for _ in range(size)))
            numbers[serial] += 1
        for serial in serials:
            data += pages.page(4, numbers[serial], serial, numbers[serial], [], b"")
    if source.random() < 0.5:
        data += pages.page(2, 0, 77, 0, [2], b"de")
    return data


def random_request(source, data):
    links, end = links_of(data)
    targets = [b"/", b"/all", b"/all", b"/link/99", b"/link/0/99", b"/link/00", b"/link/", b"/nothing", b"*", b"http://a.b/all", b"HTTP://a"]
    for number, link in enumerate(links):
        targets.append(b"/link/%d" % number)
        targets += [b"/link/%d/%d" % (number, serial) for serial in link["streams"]]
    method = source.choice([b"GET"] * 8 + [b"HEAD", b"HEAD", b"POST", b"get"])
    minor = source.choice([1, 1, 1, 0])
    fields = [(b"Host", b"a")] * source.choice([1, 1, 1, 1, 1, 1, 0, 2]) + [(b"User-Agent", b"x" * source.randrange(100))]
    if source.random() < 0.6:
        low = source.choice([0, 1, 27, end // 2, end - 1, end, 2 ** 70])
        high = source.choice([0, low + 1, low + 5000, end - 1, end + 9, 2 ** 66])
        text = source.choice([b"bytes=%d-%d" % (low, high), b"bytes=%d-" % low, b"Bytes=-%d" % high, b"bytes=5-1", b"bytes=1-2,5-6", b"items=0-1", b"bytes=-0"])
        fields.append((source.choice([b"Range", b"range"]), text))
        if source.random() < 0.1:
            fields.append((b"If-Range", b'"x"'))
    source.shuffle(fields)
    return method, source.choice(targets), minor, fields


def compare(name, got, want):
    if got == want:
        return 0
    at = next((n for n, (a, b) in enumerate(zip(got, want)) if a != b), min(len(got), len(want)))
    print("%s: %d bytes and not %d, they differ at %d: %r and not %r" % (name, len(got), len(want), at, got[at:at + 60], want[at:at + 60]))
    return 1


def main():
    program, work = sys.argv[1:3]
    rounds = int(sys.argv[3]) if len(sys.argv) > 3 else 3
    source = random.Random(7)
    differences = asked = 0
    for turn in range(rounds):
        data = random_file(source)
        path = "%s/served%d.ogg" % (work, turn)
        with open(path, "wb") as file:
            file.write(data)
        count = 70
        port = free_port()
        process = start([program, "serve", path, "127.0.0.1:%d" % port, str(count)], port)
        for _ in range(count):
            parts = random_request(source, data)
            text = request(*parts)
            pieces = [text]
            if source.random() < 0.1:
                cut = source.randrange(1, len(text))
                pieces = [text[:cut], text[cut:]]
            differences += compare(repr(parts), ask(port, *pieces), answer(data, *parts))
            asked += 1
        out, err = process.communicate(timeout=20)
        if process.returncode or out or err:
            print("serve: status %d, %r, %r" % (process.returncode, out, err))
            differences += 1
        with open(path, "rb") as file:
            differences += compare("the file afterwards", file.read(), data)
    print("%d requests, %d differences" % (asked, differences))
    return 1 if differences or not asked else 0


if __name__ == "__main__":
    sys.exit(main())
