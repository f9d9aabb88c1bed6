#!/usr/bin/env python3
"""Pesters a server while it records a feed: pestering.py PROGRAM WORK

Sends 200 requests for everything in the file and for things that it doesn't have, with ranges of each kind. Some come
byte by byte or in halves, some with more bytes after the head. Some clients send no head, half of one or too much, and
some go away in the middle of an answer. Each answer must be that of the plain program of serving.py over the bytes of
the first commands, as many commands as an answer before it showed, or more. Prints a line for each other answer; the
status is 1 if there was one.
"""
import random
import socket
import subprocess
import sys
import time

import serving
from records import begin, end, flush, put

REQUESTS = 200


def feed_of(source):
    """Links of some streams, whose packets come in turn."""
    records = []
    for link in range(4):
        serials = [10 * link + n for n in range(source.randrange(1, 4))]
        records.append(begin(serials))
        for turn in range(source.randrange(60, 90)):
            serial = source.choice(serials)
            records.append(put([(serial, turn, bytes([turn]) * source.choice([0, 1, 300, 5000, 60000]))]))
            if source.random() < 0.1:
                records.append(flush())
        records += [end(serial) for serial in serials]
    return records


def run(words, given):
    return subprocess.run(words, input=given, stdout=subprocess.PIPE, stderr=subprocess.PIPE, timeout=20)


def commits(program, path, records, most):
    """Where the committed bytes end, from the first command on, and the bytes. The first command has a separate run."""
    told = b""
    for feed in (records[0], b"".join(records[1:])):
        told += run([program, "record", path, "--group", str(most), "--seal"], feed).stdout
    with open(path, "rb") as file:
        data = file.read()
    return list(dict.fromkeys(int(line.split()[2]) for line in told.decode().splitlines() if line.startswith("kept"))), data


class Pest:
    def __init__(self, port, ends, data):
        self.port, self.ends, self.data, self.at, self.wrong = port, ends, data, 0, 0

    def compare(self, name, got, parts, is_front=False):
        """The answer over the committed bytes of some moment from the last one on, or the front of it."""
        for at in range(self.at, len(self.ends)):
            want = serving.answer(self.data[:self.ends[at]], *parts)
            if got == want or is_front and want.startswith(got):
                self.at = self.at if is_front else at
                return
        print("%s: %r: %d bytes that no moment answers: %r" % (name, parts, len(got), got[:200]))
        self.wrong += 1

    def said(self, name, got, want):
        if got != want:
            print("%s: %r and not %r" % (name, got[:200], want))
            self.wrong += 1

    def ask(self, source):
        parts = serving.random_request(source, self.data[:self.ends[self.at]])
        text = serving.request(*parts)
        kind = source.choice(["whole", "whole", "whole", "halves", "bytes", "more", "away", "none", "half", "long"])
        if kind == "halves":
            cut = source.randrange(1, len(text))
            self.compare(kind, serving.ask(self.port, text[:cut], text[cut:]), parts)
        elif kind == "bytes":
            self.compare(kind, slowly(self.port, text), parts)
        elif kind == "more":
            # Bytes after a head are never read, and may make the system drop the end of the answer.
            self.compare(kind, serving.ask(self.port, text + text), parts, is_front=True)
        elif kind == "away":
            self.compare(kind, serving.ask(self.port, text, most=source.randrange(1, 5000)), parts, is_front=True)
        elif kind == "none":
            self.said(kind, serving.ask(self.port, shut=True), b"")
        elif kind == "half":
            self.said(kind, serving.ask(self.port, text[:source.randrange(1, len(text) - 4)], shut=True), b"")
        elif kind == "long":
            got = serving.ask(self.port, b"GET /all HTTP/1.1\r\nX: " + b"y" * 8171)
            self.said(kind, got, b"HTTP/1.1 400 Bad Request\r\nContent-Length: 0\r\nConnection: close\r\n\r\n")
        else:
            self.compare(kind, serving.ask(self.port, text), parts)


def slowly(port, text):
    """What comes back if each byte is sent by itself, up to what needs no more."""
    got = b""
    with socket.create_connection(("127.0.0.1", port), timeout=20) as stream:
        stream.setsockopt(socket.IPPROTO_TCP, socket.TCP_NODELAY, 1)
        for n in range(len(text)):
            stream.sendall(text[n:n + 1])
        while piece := stream.recv(65536):
            got += piece
    return got


def main():
    program, work = sys.argv[1:3]
    source = random.Random(11)
    wrong = 0
    for most in (1, 8):
        records = feed_of(source)
        path, feed = "%s/pestered.ogg" % work, "%s/pestering.feed" % work
        ends, data = commits(program, "%s/all%d.ogg" % (work, most), records, most)
        first = run([program, "mux"], records[0])
        with open(path, "wb") as file:
            file.write(first.stdout)
        with open(feed, "wb") as file:
            file.write(b"".join(records[1:]))
        port = serving.free_port()
        words = [program, "live", path, "127.0.0.1:%d" % port, feed, str(REQUESTS), "--group", str(most)]
        server = serving.start(words, port)
        pest = Pest(port, ends, data)
        begun = time.monotonic()
        for _ in range(REQUESTS):
            pest.ask(source)
        out, err = server.communicate(timeout=20)
        wrong += pest.wrong
        with open(path, "rb") as file:
            wrong += serving.compare("the file afterwards", file.read(), data)
        if server.returncode or err:
            print("live: status %d, %r" % (server.returncode, err))
            wrong += 1
        print("%d requests in groups of %d: %d of %d moments seen, %.1f s" % (REQUESTS, most, pest.at + 1, len(ends), time.monotonic() - begun))
        if pest.at < len(ends) // 2:
            print("too little was recorded meanwhile")
            wrong += 1
    print("%d wrong" % wrong)
    return 1 if wrong else 0


if __name__ == "__main__":
    sys.exit(main())
