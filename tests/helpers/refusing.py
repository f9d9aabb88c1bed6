#!/usr/bin/env python3
"""Refuses memory to the program, request by request: refusing.py PROGRAM LIBRARY WORK

The program runs with its first request for memory refused, then with the second, up to a run in which none is refused,
and the same again with every request refused from that one on.

Feeds go through `mux` and `record`, in groups; lines are recorded, and written again; files are made into feeds, listed,
split, finished, salvaged and served; an archive is listed and verified.
A run may end by a fault, whose status is 1, or by a text in place of the work, whose status is 2. What it wrote is what
a run that is refused nothing writes over the commands that it said it took, or the front of that. Prints a line for
each run that differs; the status is 1 if there was one.
"""
import functools
import os
import re
import shutil
import socket
import struct
import subprocess
import sys
import time

from records import begin, end, flush, put, record
from serving import free_port

SKELETON = record(1, b"\1" + struct.pack("<Iqqqq", 9, 0, 1000, 0, 1000) + bytes(20) + struct.pack("<H", 1)
                  + struct.pack("<IHI", 1, 1, 3) + b"abc" + struct.pack("<H", 12) + b"audio/vorbis"
                  + struct.pack("<qqqIB", 44100, 1, 0, 0, 0))
HEADERS = record(1, b"\0" + struct.pack("<H", 1) + struct.pack("<IH", 1, 3)
                 + b"".join(struct.pack("<I", len(one)) + one for one in (b"abc", b"de", b"f")) + bytes(31))
FEEDS = {
    "packets of four lengths": [begin([1]), put([(1, 0, bytes(n)) for n in (0, 254, 255, 510)])],
    "a Skeleton": [SKELETON, put([(1, 1, b"x")]), end(1)],
    "three headers": [HEADERS, put([(1, 0, b"a")])],
    "two streams": [begin([1, 2]), put([(1, 0, b"a"), (1, 0, b"b"), (2, 0, b"c"), (1, 0, b"d")])],
    "a flush, and a packet of two pages": [begin([1]), put([(1, 5, b"hello")]), flush(), put([(1, 6, bytes(65025))]), end(1),
                                           begin([2]), put([(3, 1, b"z")]), end(2)],
}


# A fault for want of memory, or the text of a command line that couldn't be read for want of memory.
TOLD = re.compile(rb"^(fault (memory|(feed 6|make 9|open 3|index 3|serve [0-9]+) Memory)|error: out of memory)$", re.MULTILINE)


def run(words, given=b"", **more):
    return subprocess.run(words, input=given, stdout=subprocess.PIPE, stderr=subprocess.PIPE, timeout=20, env={**os.environ, **more})


class Refusals:
    """Environments that refuse the first request, the second and so on, until a run has met no refusal."""

    def __init__(self, library, work):
        self.library, self.mark, self.runs, self.wrong = library, os.path.join(work, "refused"), 0, 0

    def each(self, name):
        for onward in ({}, {"REFUSING_ON": "1"}):
            for call in range(1, 3000):
                if os.path.exists(self.mark):
                    os.remove(self.mark)
                yield {"LD_PRELOAD": self.library, "REFUSING_CALL": str(call), "REFUSING_MET": self.mark, **onward}, call
                if not os.path.exists(self.mark):
                    break
                self.runs += 1
            else:
                self.say("%s: no end" % name)

    def tells(self, ran):
        """The run says that it has no memory: by a fault, or in place of the work."""
        return ran.returncode == (2 if ran.stderr.startswith(b"error") else 1) and bool(TOLD.search(ran.stderr))

    def say(self, text):
        print(text)
        self.wrong += 1


def answers(text):
    return [line.split() for line in text.decode().splitlines() if line.split()[:1] in (["kept"], ["held"], ["refused"])]


def taken(records, replies):
    """The commands that were taken, by their replies, and how many of them were said to be kept."""
    given, kept = [], 0
    for one, words in zip(records, replies):
        if words[0] != "refused" and one[0] != 4:
            given.append(one)
        if words[0] == "kept":
            kept = int(words[1])
    # A flush at the end has a separate line.
    for words in replies[len(records):]:
        if words[0] == "kept":
            kept = int(words[1])
    return given, kept


def check_feed(refusals, program, work, name, records, most):
    feed = b"".join(records)
    path = os.path.join(work, "refused.ogg")
    words = [program, "mux"] if most == 0 else [program, "record", path, "--group", str(most)]
    if os.path.exists(path):
        os.remove(path)
    whole = run(words, feed)
    ordinary = answers(whole.stderr if most == 0 else whole.stdout)
    muxed = functools.cache(lambda commands: run([program, "mux"], commands).stdout)
    for refusing, call in refusals.each(name):
        if os.path.exists(path):
            os.remove(path)
        ran = run(words, feed, **refusing)
        replies = answers(ran.stderr if most == 0 else ran.stdout)
        given, kept = taken(records, replies)
        pages = muxed(b"".join(given[:kept]))
        if most == 0:
            written = ran.stdout
        else:
            opened = run([program, "record", path])
            listed = run([program, "links", path]).stdout.split()
            with open(path, "rb") as file:
                written = file.read()[:int(listed[1])]
            if opened.returncode:
                refusals.say("%s, request %d: not opened again, %r" % (name, call, opened.stderr))
        told = refusals.tells(ran) and len(replies) <= len(records)
        if written != pages or not (told or ran.returncode == 0 and len(replies) >= len(records)):
            refusals.say("%s, request %d, groups of %d: status %d, %d bytes and not %d, %r"
                         % (name, call, most, ran.returncode, len(written), len(pages), ran.stderr[-200:]))
        # Up to the first refusal for want of memory, or the flush before a fault, the replies are the ordinary ones.
        front = next((n for n, words in enumerate(replies) if words[:2] == ["refused", "20"]), len(replies) - (ran.returncode == 1))
        if replies[:max(front, 0)] != ordinary[:max(front, 0)]:
            refusals.say("%s, request %d, groups of %d: %r and not %r" % (name, call, most, replies, ordinary))


def check_file(refusals, program, words, path):
    words = [program, words[0], path] + words[1:]
    before = open(path, "rb").read()
    whole = run(words).stdout
    for refusing, call in refusals.each(words[1]):
        ran = run(words, **refusing)
        done = ran.returncode == 0 and ran.stdout == whole
        told = refusals.tells(ran) and whole.startswith(ran.stdout)
        if not (done or told) or open(path, "rb").read() != before:
            refusals.say("%s, request %d: status %d, %d bytes of %d, %r"
                         % (words[1], call, ran.returncode, len(ran.stdout), len(whole), ran.stderr[-200:]))


def check_lines(refusals, program, path):
    """What was told as kept is there, in order, and nothing else but lines that came after it."""
    text = b"".join(b"line %d\n" % at for at in range(20))
    for refusing, call in refusals.each("lines"):
        clear(path)
        ran = run([program, "lines", path, "--group", "7", "--acks"], text, **refusing)
        kept = max((int(line.split()[1]) for line in ran.stdout.splitlines()), default=0)
        given = run([program, "packets", path.rstrip("/")]).stdout
        done = ran.returncode == 0 and given == text and kept == 20
        # A fault is told, whichever it is, and what was refused before.
        told = ran.returncode in (1, 2) and ran.stderr.splitlines()[-1:][0].startswith((b"fault ", b"error"))
        if not (done or told and text.startswith(given) and given.count(b"\n") >= kept):
            refusals.say("lines %s, request %d: status %d, %d kept, %d there, %r"
                         % (path, call, ran.returncode, kept, given.count(b"\n"), ran.stderr[-200:]))
    if run([program, "packets", path.rstrip("/")]).stdout != text:
        refusals.say("lines %s: not all is there" % path)


def clear(path):
    if path.endswith("/"):
        shutil.rmtree(path, ignore_errors=True)
    elif os.path.exists(path):
        os.remove(path)


def check_made(refusals, program, path):
    """The feed of a file: what was written before memory was refused is the front of it."""
    with open(path, "rb") as file:
        data = file.read()
    whole = run([program, "feed"], data).stdout
    for refusing, call in refusals.each("feed"):
        ran = run([program, "feed"], data, **refusing)
        done = ran.returncode == 0 and ran.stdout == whole
        if not done and not (refusals.tells(ran) and whole.startswith(ran.stdout)):
            refusals.say("feed, request %d: status %d, %d bytes of %d, %r" % (call, ran.returncode, len(ran.stdout), len(whole), ran.stderr[-200:]))


def asked(port, target, server):
    """The answer of the server, or nothing if it has ended before."""
    for _ in range(400):
        try:
            with socket.create_connection(("127.0.0.1", port), timeout=10) as link:
                link.sendall(b"GET %s HTTP/1.1\r\nHost: a\r\n\r\n" % target)
                got = b""
                while piece := link.recv(65536):
                    got += piece
                return got
        except ConnectionRefusedError:
            if server.poll() is not None:
                return b""
            time.sleep(0.005)
        except ConnectionResetError:
            return b""
    return b""


def serve(program, path, target, **more):
    port = free_port()
    server = subprocess.Popen([program, "serve", path, "127.0.0.1:%d" % port, "1"], stdout=subprocess.PIPE, stderr=subprocess.PIPE,
                              env={**os.environ, **more})
    try:
        got = asked(port, target, server)
        _, told = server.communicate(timeout=20)
        return got, server.returncode, told
    finally:
        if server.poll() is None:
            server.kill()


def check_served(refusals, program, path, target):
    whole, _, _ = serve(program, path, target)
    for refusing, call in refusals.each("serve"):
        got, status, told = serve(program, path, target, **refusing)
        done = status == 0 and got == whole
        failed = status in (1, 2) and TOLD.search(told) and whole.startswith(got)
        if not (done or failed):
            refusals.say("serve %r, request %d: status %d, %d bytes of %d, %r" % (target, call, status, len(got), len(whole), told[-200:]))
    if not whole.startswith(b"HTTP/1.1 200") or serve(program, path, target)[0] != whole:
        refusals.say("serve %r: another answer" % target)


def check_archive(refusals, program, words, path):
    """Of an archive, whose newest file is open, all is told that there is, and no damage that isn't there."""
    words = [program, words[0], path] + words[1:]
    whole = run(words)
    for refusing, call in refusals.each(" ".join(words[1:])):
        ran = run(words, **refusing)
        done = ran.returncode == 0 and ran.stdout == whole.stdout
        told = refusals.tells(ran) and whole.stdout.startswith(ran.stdout)
        if not (done or told):
            refusals.say("%s, request %d: status %d, %r, %r" % (" ".join(words[1:]), call, ran.returncode, ran.stdout[-200:], ran.stderr[-200:]))
    if whole.returncode:
        refusals.say("%s: status %d, %r" % (" ".join(words[1:]), whole.returncode, whole.stdout[-200:]))


def make_archive(path, file):
    os.mkdir(path)
    pages = open(file, "rb").read()
    for name, tail in (("000001-20261128T130000Z", b""), ("000002-20261128T140000Z-on", b"\0")):
        with open("%s/%s.ogg" % (path, name), "wb") as one:
            one.write(pages + tail)
        with open("%s/%s.times" % (path, name), "w", encoding="ascii") as one:
            one.write("31 1795870800500 0 31\n%d 1795870801500 - -\n" % len(pages))


def main():
    program, library, work = sys.argv[1:]
    refusals = Refusals(library, work)
    for name, records in FEEDS.items():
        for most in (0, 3):
            check_feed(refusals, program, work, name, records, most)
    path = os.path.join(work, "row.ogg")
    lines = os.path.join(work, "lines")
    check_lines(refusals, program, lines + ".ogg")
    check_lines(refusals, program, lines + "/")
    for words in (["packets"], ["packets", "--json"]):
        check_file(refusals, program, words, lines + ".ogg")
    for words in (["links"], ["split", "0"], ["split", "0", "1"], ["finish"], ["finish", "0"], ["salvage"]):
        check_file(refusals, program, words, path)
    check_made(refusals, program, path)
    radio = os.path.join(work, "radio")
    make_archive(radio, path)
    for words in (["list"], ["list", "--links"], ["verify"]):
        check_archive(refusals, program, words, radio)
    for target in (b"/", b"/all", b"/link/0", b"/link/0/2"):
        check_served(refusals, program, path, target)
    print("%d runs, %d wrong" % (refusals.runs, refusals.wrong))
    return 1 if refusals.wrong or refusals.runs < 500 else 0


if __name__ == "__main__":
    sys.exit(main())
