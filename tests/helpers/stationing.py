#!/usr/bin/env python3
"""Sources, listeners and clients of a station, on 127.0.0.1.

`stationing.py sources PROGRAM WORK` offers streams in each way that encoders do, good and bad ones.
`stationing.py answers PROGRAM WORK` has 64 connections at once ask for everything, their bytes interleaved at random, of
a file that rests and of one that grows: each answer must be that of the plain program of serving.py.
`stationing.py hears PROGRAM WORK` listens while one source follows another.
`stationing.py fails PROGRAM LIBRARY WORK` has each device call fail once, by the library of failing.c, while two sources
come one after the other that end without an end page, in a file of which an earlier run left a link open: one of them may
lose something, and is told so.
`stationing.py kills PROGRAM WORK COUNT` kills the station while a source sends and twenty listen: what any of them heard
must be in the file, and the same command line goes on.

Each prints a line for what is wrong, and last how much was tried; the status is 1 if something was wrong.
"""
import base64
import os
import random
import re
import selectors
import socket
import struct
import subprocess
import sys
import threading
import time

import serving
from archiving import found, packet, stream
from pages import page

PASSWORD = b"se:cret"
BASIC = b"Authorization: Basic " + base64.b64encode(b"source:" + PASSWORD)


# ---- a station
class Station:
    def __init__(self, program, path, *words, given=subprocess.DEVNULL, **more):
        self.port = serving.free_port()
        secret = os.path.join(os.path.dirname(path), "password")
        with open(secret, "wb") as file:
            file.write(PASSWORD + b"\n")
        command = [program, "station", path, "127.0.0.1:%d" % self.port, "--password-file", secret, *words]
        self.process = subprocess.Popen(
            command, stdin=given, stdout=subprocess.PIPE, stderr=subprocess.PIPE, env={**os.environ, **more}
        )
        for _ in range(4000):
            if serving.listens(self.port) or self.process.poll() is not None:
                break
            time.sleep(0.005)

    def connect(self):
        one = socket.create_connection(("127.0.0.1", self.port), timeout=20)
        one.setsockopt(socket.IPPROTO_TCP, socket.TCP_NODELAY, 1)
        return one

    def ask(self, *parts):
        """What comes back for these bytes, which are sent one after the other."""
        with self.connect() as one:
            for part in parts:
                one.sendall(part)
                time.sleep(0.002 if len(parts) > 1 else 0)
            return read_all(one)

    def committed(self):
        got = self.ask(b"GET / HTTP/1.0\r\n\r\n")
        return int(got.split(b"committed ")[1].split()[0])

    def stop(self):
        """Kills it, and returns what it wrote to standard error."""
        self.process.kill()
        return self.process.communicate(timeout=20)[1]


def read_all(one):
    got = []
    try:
        while piece := one.recv(65536):
            got.append(piece)
    except (ConnectionError, socket.timeout):
        pass
    return b"".join(got)


def until(condition, seconds=10):
    """Whether the condition holds within this time."""
    for _ in range(int(seconds * 100)):
        if condition():
            return True
        time.sleep(0.01)
    return False


class Told:
    def __init__(self):
        self.tried = self.wrong = 0

    def check(self, name, holds, *what):
        self.tried += 1
        if not holds:
            self.wrong += 1
            print(name, *what)

    def end(self):
        print("%d tried, %d wrong" % (self.tried, self.wrong))
        return 1 if self.wrong or not self.tried else 0


# ---- sources
def chunked(data, source):
    out, at = b"", 0
    while at < len(data):
        size = source.randrange(1, 5000)
        piece = data[at : at + size]
        out += b"%x%s\r\n%s\r\n" % (len(piece), source.choice([b"", b";name=value"]), piece)
        at += size
    return out + b"0\r\n\r\n"


def request(method, *fields, version=b"1.1"):
    return b"\r\n".join([method + b" /radio.ogg HTTP/" + version, b"Host: a", *fields, b"", b""])


def in_pieces(one, data, source):
    at = 0
    while at < len(data):
        size = source.choice([1, 30, 3000, 30000])
        one.sendall(data[at : at + size])
        at += size


def sources(program, work):
    told, source = Told(), random.Random(4)
    path = os.path.join(work, "sources.ogg")
    station = Station(program, path)
    seed = 0

    def offer(name, head, body, status, framed, closes=True):
        """Sends a stream, and compares the answer's status and what the file holds then."""
        nonlocal seed
        with station.connect() as one:
            one.sendall(head)
            in_pieces(one, body, source)
            if closes and not framed:
                one.shutdown(socket.SHUT_WR)
            got = read_all(one)
        told.check(name, got.startswith(b"HTTP/1.") and got.split()[1] == status, got[:200])
        return got

    # Each way to send a stream.
    for name, head, framed, status in (
        ("PUT to the end", request(b"PUT", BASIC), False, None),
        ("PUT that expects", request(b"PUT", BASIC, b"Expect: 100-continue"), False, b"100"),
        ("SOURCE to the end", request(b"SOURCE", BASIC, version=b"1.0"), False, b"200"),
        ("PUT in chunks", request(b"PUT", BASIC, b"Transfer-Encoding: chunked"), True, b"200"),
        ("PUT with a length", None, True, b"200"),
        ("another user", request(b"PUT", b"Authorization: bAsIc " + base64.b64encode(b"x:" + PASSWORD)), False, None),
    ):
        seed += 1
        whole = b"".join(stream(seed, 60))
        if head is None:
            head = request(b"PUT", BASIC, b"Content-Length: %d" % len(whole))
        body = chunked(whole, source) if b"chunked" in head else whole
        if status is None:
            with station.connect() as one:
                one.sendall(head)
                in_pieces(one, body, source)
                one.shutdown(socket.SHUT_WR)
                told.check(name, read_all(one) == b"")
        else:
            offer(name, head, body, status, framed)
        with open(path, "rb") as file:
            streams, _ = found(file.read())
        told.check(name + ": links", len(streams) == seed, len(streams))
        last = streams[-1]
        first = struct.unpack("<II", last["packets"][0])[0]
        whole = [packet(first, number) for number in range(1, 119)]
        told.check(name + ": packets", first == seed and last["packets"][1:119] == whole and last["ended"])

    # What is refused changes nothing.
    end = station.committed()
    body = b"".join(stream(99, 5))
    wrong = b"Authorization: Basic " + base64.b64encode(b"source:se:cre")
    long = b"X: " + b"y" * 8192
    for name, head, status in (
        ("no password", request(b"PUT"), b"401"),
        ("a wrong password", request(b"PUT", wrong), b"401"),
        ("a password that begins so", request(b"PUT", b"Authorization: Basic " + base64.b64encode(b"s:" + PASSWORD + b"x")), b"401"),
        ("another scheme", request(b"PUT", b"Authorization: Bearer " + PASSWORD), b"401"),
        ("no password, and no body", request(b"SOURCE", b"Content-Length: 0", version=b"1.0"), b"401"),
        ("no body", request(b"PUT", BASIC, b"Content-Length: 0"), b"200"),
        ("two lengths", request(b"PUT", BASIC, b"Content-Length: 5", b"Content-Length: 6"), b"400"),
        ("a length and chunks", request(b"PUT", BASIC, b"Content-Length: 5", b"Transfer-Encoding: chunked"), b"400"),
        ("another coding", request(b"PUT", BASIC, b"Transfer-Encoding: gzip"), b"400"),
        ("a length with a sign", request(b"PUT", BASIC, b"Content-Length: +5"), b"400"),
        ("a long head", request(b"PUT", BASIC, long), b"400"),
        ("a control byte", request(b"PUT", BASIC, b"X: a\x01b"), b"400"),
    ):
        got = offer(name, head, b"" if b"Length: 0" in head else body, status, True)
        told.check(name + ": the file", station.committed() == end)
        if status == b"401":
            told.check(name + ": how to ask", b"\r\nWWW-Authenticate: Basic realm=" in got)

    # Bytes after the last chunk are no part of the stream, and neither is a chunk that is none.
    head = request(b"PUT", BASIC, b"Transfer-Encoding: chunked")
    offer("bytes after the last chunk", head, chunked(b"".join(stream(98, 3)), source) + body, b"200", True)
    with open(path, "rb") as file:
        streams, end = found(file.read())
    told.check("bytes after the last chunk: the last link", struct.unpack("<II", streams[-1]["packets"][0])[0] == 98)
    offer("a chunk of 2^64", head, b"10000000000000000\r\n", b"400", True)
    told.check("a chunk of 2^64: the file", station.committed() == end)

    # The answer says what became of the stream. What is at fault in it doesn't take back what came before.
    whole = b"".join(stream(97, 3))
    length = request(b"PUT", BASIC, b"Content-Length: %d" % (len(whole) + 1))
    for name, start, sent in (
        ("a body that breaks off", length, whole),
        ("chunks that break off", head, chunked(whole, source)[:-5]),
        ("a chunk whose end is malformed", head, b"%x\r\n" % len(whole) + whole + b"xx"),
    ):
        with station.connect() as one:
            one.sendall(start)
            in_pieces(one, sent, source)
            one.shutdown(socket.SHUT_WR)
            told.check(name, read_all(one).startswith(b"HTTP/1.1 400 "))
        with open(path, "rb") as file:
            streams, end = found(file.read())
        told.check(name + ": what came before", struct.unpack("<II", streams[-1]["packets"][0])[0] == 97)
    back = page(2, 0, 77, 0, [8], struct.pack("<II", 96, 0)) + page(0, 5, 77, 1, [5], b"hello") + page(0, 4, 77, 2, [4], b"back")
    offer("a position that goes back", request(b"PUT", BASIC, b"Content-Length: %d" % len(back)), back, b"500", True)
    end = station.committed()

    # One source at a time.
    with station.connect() as first:
        first.sendall(request(b"PUT", BASIC) + b"".join(stream(50, 3)))
        told.check("on the air", until(lambda: station.committed() > end))
        offer("another source", request(b"PUT", BASIC), body, b"403", True)
    told.check("off the air", until(lambda: b"open" not in station.ask(b"GET / HTTP/1.0\r\n\r\n")))
    seed = 60
    offer("the next source", request(b"SOURCE", BASIC, version=b"1.0"), b"".join(stream(60, 3)), b"200", False)
    lines = foreign(told, station, path, offer)
    err = station.stop().split(b"\n")
    wrong = [line for line in err if line.startswith(b"fault") and not re.fullmatch(NO_OGG, line)]
    told.check("standard error", not wrong and sum(1 for line in err if re.fullmatch(NO_OGG, line)) == lines, err)
    return told.end()


NO_OGG = rb"fault archive 4 NoPage: 127\.0\.0\.1:[0-9]+ sends no Ogg"


def foreign(told, station, path, offer):
    """Streams that aren't Ogg: 65,536 bytes without a page say so, before they end. Returns how many there were."""
    noise = random.Random(8)
    mp3 = b"".join(b"\xff\xfb\x90\x64" + noise.randbytes(413) for _ in range(400))
    page = b"<!DOCTYPE html>\n" + b"O" * 30000 + b"OggS" * 20000
    end = station.committed()
    lines = 0

    def ends_at_once(name, head, body, want):
        nonlocal lines
        lines += 1
        with station.connect() as one:
            one.sendall(head + body)
            got = read_all(one)
        told.check(name, got.startswith(want) and got.count(b"HTTP/1.") == 1, got[:200])
        told.check(name + ": the file", station.committed() == end)

    in_chunks = request(b"PUT", BASIC, b"Transfer-Encoding: chunked")
    no_media = b"HTTP/1.1 415 Unsupported Media Type\r\nContent-Length: 0\r\nConnection: close\r\n\r\n"
    ends_at_once("no Ogg", request(b"PUT", BASIC), mp3, no_media)
    ends_at_once("no Ogg, with a length", request(b"PUT", BASIC, b"Content-Length: 1000000000"), mp3, no_media)
    ends_at_once("no Ogg, in chunks", in_chunks, chunked(mp3, noise)[:-5], no_media)
    ends_at_once("no Ogg, by SOURCE in HTTP/1.1", request(b"SOURCE", BASIC), mp3, no_media)
    ends_at_once("no Ogg, by SOURCE", request(b"SOURCE", BASIC, version=b"1.0"), mp3, b"HTTP/1.0 200 OK\r\n\r\n")
    ends_at_once("a web page", in_chunks, chunked(page, noise)[:-5], no_media)

    # A byte fewer says nothing yet, and neither does a page that begins at the last of them. A page's head has 27 bytes.
    whole = b"".join(stream(61, 3))
    for name, head in (("no page so far", request(b"PUT", BASIC)), ("no page so far, in chunks", in_chunks)):
        lines += 1
        with station.connect() as one:
            one.sendall(head + (b"ffff\r\n" if head is in_chunks else b"") + bytes(65535))
            one.settimeout(0.3)
            told.check(name, read_all(one) == b"")
            one.sendall((b"\r\n1b\r\n" if head is in_chunks else b"") + bytes(27))
            one.settimeout(20)
            told.check(name + ": and a head more", read_all(one) == no_media)
    lines += 1
    sent = bytes(65536) + whole
    offer("a page after 65,536 bytes", request(b"PUT", BASIC, b"Content-Length: %d" % len(sent)), sent, b"415", True)
    told.check("a page after 65,536 bytes: the file", station.committed() == end)
    sent = bytes(65535) + whole + bytes(200000) + b"".join(stream(62, 3))
    offer("a page after 65,535 bytes", request(b"PUT", BASIC, b"Content-Length: %d" % len(sent)), sent, b"200", True)
    with open(path, "rb") as file:
        streams, _ = found(file.read())
    firsts = [struct.unpack("<II", one["packets"][0])[0] for one in streams[-2:]]
    told.check("a page after 65,535 bytes: both streams", firsts == [61, 62], firsts)

    # The air is free at once, also for a source that waits for it.
    with station.connect() as first, station.connect() as second:
        lines += 1
        first.sendall(request(b"PUT", BASIC) + mp3[:60000])
        time.sleep(0.2)
        sent = b"".join(stream(63, 3))
        second.sendall(request(b"PUT", BASIC, b"Content-Length: %d" % len(sent)) + sent)
        first.sendall(mp3[60000:])
        told.check("a source that waits", read_all(second).startswith(b"HTTP/1.1 200 "))
        told.check("no Ogg before it", read_all(first) == no_media)
    return lines


# ---- answers
def answers(program, work):
    told, source = Told(), random.Random(9)
    path = os.path.join(work, "answers.ogg")
    station = Station(program, path)
    for seed in range(5):
        station.ask(request(b"PUT", BASIC, b"Transfer-Encoding: chunked"), chunked(b"".join(stream(seed, source.randrange(2, 300))), source))
    with open(path, "rb") as file:
        data = file.read()
    data = data[: found(data)[1]]
    many(station, source, data, [len(data)], told, "at rest")

    # While a source sends, an answer is that of one moment.
    sender = threading.Thread(target=send_slowly, args=(station, 77, 400))
    sender.start()
    rounds = [ask_many(station, source, data, 64) for _ in range(4)]
    sender.join()
    until(lambda: b"open" not in station.ask(b"GET / HTTP/1.0\r\n\r\n"))
    with open(path, "rb") as file:
        now = file.read()
    ends = ends_of(now, len(data))
    for asked in rounds:
        for parts, got in asked:
            fits = any(serving.answer(now[:end], *parts) == got for end in ends)
            told.check("growing: %r" % (parts,), fits, got[:200])
    err = station.stop()
    told.check("standard error", b"fault" not in err, err)
    return told.end()


def ends_of(data, start):
    """The ends of the pages from `start` on."""
    ends, at = [start], start
    while data[at : at + 4] == b"OggS":
        count = data[at + 26]
        at += 27 + count + sum(data[at + 27 : at + 27 + count])
        ends.append(at)
    return ends


def send_slowly(station, seed, count):
    with station.connect() as one:
        one.sendall(request(b"PUT", BASIC))
        for page in stream(seed, count):
            one.sendall(page)
            time.sleep(0.004)


def many(station, source, data, ends, told, name):
    for _ in range(6):
        for parts, got in ask_many(station, source, data, 64):
            fits = any(serving.answer(data[:end], *parts) == got for end in ends)
            told.check("%s: %r" % (name, parts), fits, got[:200])


def ask_many(station, source, data, count):
    """As many requests at once, their bytes interleaved at random, and their answers read in small pieces."""
    asked = []
    with selectors.DefaultSelector() as selector:
        for _ in range(count):
            parts = serving.random_request(source, data)
            one = station.connect()
            one.setblocking(False)
            state = {"parts": parts, "left": serving.request(*parts), "got": b"", "one": one}
            asked.append(state)
            selector.register(one, selectors.EVENT_READ | selectors.EVENT_WRITE, state)
        open_now = count
        end = time.monotonic() + 60
        while open_now and time.monotonic() < end:
            ready = selector.select(1)
            source.shuffle(ready)
            for key, mask in ready[: source.randrange(1, 40)]:
                state = key.data
                try:
                    if mask & selectors.EVENT_WRITE and state["left"]:
                        sent = state["one"].send(state["left"][: source.choice([1, 7, 40, 4000])])
                        state["left"] = state["left"][sent:]
                        if not state["left"]:
                            selector.modify(state["one"], selectors.EVENT_READ, state)
                    if mask & selectors.EVENT_READ:
                        piece = state["one"].recv(source.choice([1, 100, 5000, 70000]))
                        state["got"] += piece
                        if not piece:
                            selector.unregister(state["one"])
                            state["one"].close()
                            open_now -= 1
                except BlockingIOError:
                    pass
                except ConnectionError:
                    selector.unregister(state["one"])
                    state["one"].close()
                    open_now -= 1
    return [(state["parts"], state["got"]) for state in asked]


# ---- listeners
class Listener(threading.Thread):
    def __init__(self, station):
        super().__init__(daemon=True)
        self.got = b""
        self.one = None
        try:
            self.one = station.connect()
            self.one.sendall(b"GET /live HTTP/1.0\r\nIcy-MetaData: 1\r\nRange: bytes=0-\r\n\r\n")
        except OSError:
            pass

    def run(self):
        try:
            while self.one:
                piece = self.one.recv(65536)
                if not piece:
                    break
                self.got += piece
        except OSError:
            pass
        if self.one:
            self.one.close()

    def body(self):
        return self.got.partition(b"\r\n\r\n")[2]


def faults_heard(heard, known):
    """What is wrong with what was heard: a chain of links, each with its first packet and then packets in turn."""
    streams, _ = found(heard)
    for one in streams:
        seed, first = struct.unpack_from("<II", one["packets"][0])
        numbers = [struct.unpack_from("<II", each)[1] for each in one["packets"][1:] if each]
        if first != 0:
            yield "a link of %d begins with packet %d" % (seed, first)
        if numbers and numbers != list(range(numbers[0], numbers[0] + len(numbers))):
            yield "a link of %d has packets %r .." % (seed, numbers[:20])
        for each in one["packets"]:
            if each and each not in known:
                yield "a packet of %d was heard that the file hasn't" % seed
                break


def hears(program, work):
    told, source = Told(), random.Random(2)
    path = os.path.join(work, "hears.ogg")
    station = Station(program, path)
    early = Listener(station)
    early.start()
    listeners = [early]
    sent = []
    for seed in (31, 32, 33):
        pages = list(stream(seed, 150))
        sent.append(b"".join(pages))
        with station.connect() as one:
            one.sendall(request(b"PUT", BASIC))
            for number, page in enumerate(pages):
                one.sendall(page)
                time.sleep(0.003)
                if number in (20, 100):
                    late = Listener(station)
                    late.start()
                    listeners.append(late)
    until(lambda: b"open" not in station.ask(b"GET / HTTP/1.0\r\n\r\n"))
    with open(path, "rb") as file:
        data = file.read()
    streams, end = found(data)
    until(lambda: all(one.body()[-40:] == data[end - 40 : end] for one in listeners))
    told.check("recorded", len(streams) == 3 and all(one["ended"] for one in streams))
    known = {each for one in streams for each in one["packets"]}
    told.check("heard from the first page on: all as it is recorded", early.body() == data[:end], len(early.body()), end)
    for number, one in enumerate(listeners):
        told.check("a head", one.got.startswith(b"HTTP/1.1 200 OK\r\n"), one.got[:100])
        for fault in faults_heard(one.body(), known):
            told.check("listener %d" % number, False, fault)
        told.check("listener %d: the end" % number, one.body()[-40:] == data[end - 40 : end])
    for one in listeners:
        one.one.shutdown(socket.SHUT_RDWR)
    err = station.stop()
    told.check("standard error", b"fault" not in err, err)
    return told.end()


# ---- faults of the disk
def fails(program, library, work):
    told = Told()
    path, mark = os.path.join(work, "fails.ogg"), os.path.join(work, "met")
    for how in ("io", "full"):
        for call in range(1, 200):
            if os.path.exists(mark):
                os.remove(mark)
            with open(path, "wb") as file:
                file.write(b"".join(stream(50, 3)))
            failing = {"LD_PRELOAD": library, "FAILING_CALL": str(call), "FAILING_HOW": how, "FAILING_MET": mark}
            station = Station(program, path, **failing)
            answers = {}
            for seed in (51, 52):
                body = b"".join(stream(seed, 6))
                if station.process.poll() is None:
                    answers[seed] = station.ask(request(b"PUT", BASIC, b"Content-Length: %d" % len(body)), body)
            err = station.stop()
            if not os.path.exists(mark):
                break
            name = "%s at call %d" % (how, call)
            again = subprocess.run([program, "archive", path], stdin=subprocess.DEVNULL, capture_output=True, timeout=20)
            told.check("%s: the file is opened again" % name, again.returncode == 0, again.stderr)
            with open(path, "rb") as file:
                streams, _ = found(file.read())
            kept = {seed: [one for one in streams if one["packets"][0] == struct.pack("<II", seed, 0)] for seed in (50, 51, 52)}
            told.check("%s: all streams have ended" % name, all(one["ended"] for one in streams))
            told.check("%s: what an earlier run left" % name, len(kept[50]) == 1 and is_whole(kept[50], 50, 3))
            whole = [seed for seed in answers if is_whole(kept[seed], seed, 6)]
            taken = [seed for seed in answers if b" 200 " in answers[seed].split(b"\r\n")[0]]
            told.check("%s: whoever is told 200 is whole" % name, set(taken) <= set(whole), taken, whole, err)
            told.check("%s: one source loses something at most" % name, len(taken) >= len(answers) - 1, answers, err)
            told.check("%s: no link is refused" % name, b"LinkOpen" not in err, err)
            # Without an answer the station has ended: its file couldn't be opened.
            told.check("%s: it goes on" % name, len(answers) == 2 or err.splitlines()[-1].startswith(b"fault "), err)
        else:
            told.check("%s: it ends" % how, False)
    return told.end()


def is_whole(kept, seed, count):
    """Whether the packets of these streams, one after the other, are all that `stream` has."""
    packets = [each for one in kept for each in one["packets"]]
    return packets == [struct.pack("<II", seed, 0)] + [packet(seed, number) for number in range(1, 2 * count - 1)]


# ---- kills
def kills(program, work, count):
    told, source = Told(), random.Random(11)
    path = os.path.join(work, "kills.ogg")
    before, heard = b"", 0
    for turn in range(count):
        station = Station(program, path)
        sender = threading.Thread(target=send_until_killed, args=(station, 1000 + turn, source.choice([0, 0.0005, 0.003])), daemon=True)
        sender.start()
        listeners = []
        end = time.monotonic() + source.uniform(0.05, 0.8)
        while time.monotonic() < end:
            if len(listeners) < 20:
                listeners.append(Listener(station))
                listeners[-1].start()
            time.sleep(0.005)
        station.process.send_signal(9)
        err = station.process.communicate(timeout=20)[1]
        sender.join(20)
        for one in listeners:
            one.join(20)
        with open(path, "rb") as file:
            data = file.read()
        streams, size = found(data)
        told.check("turn %d: what was there" % turn, data[: len(before)] == before)
        told.check("turn %d: open links" % turn, all(one["ended"] for one in streams[:-1]))
        known = {each for one in streams for each in one["packets"]}
        for one in listeners:
            heard += len(one.body())
            for fault in faults_heard(one.body(), known):
                told.check("turn %d" % turn, False, fault)
        told.check("turn %d: standard error" % turn, b"fault" not in err and b"mended" not in err, err)
        before = data[:size]
    told.check("something was recorded", len(streams) > count / 2, len(streams))
    told.check("something was heard", heard > 1000 * count, heard)
    return told.end()


def send_until_killed(station, seed, pause):
    try:
        with station.connect() as one:
            one.sendall(request(b"PUT", BASIC))
            for page in stream(seed, 1 << 30):
                one.sendall(page)
                time.sleep(pause)
    except OSError:
        pass


def main():
    what, program, work = sys.argv[1:4]
    if what == "kills":
        return kills(program, work, int(sys.argv[4]))
    if what == "fails":
        return fails(program, work, sys.argv[4])
    return {"sources": sources, "answers": answers, "hears": hears}[what](program, work)


if __name__ == "__main__":
    sys.exit(main())
