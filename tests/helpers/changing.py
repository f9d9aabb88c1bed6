#!/usr/bin/env python3
"""A station over a folder: its files change while sources send, listeners hear and clients fetch, on 127.0.0.1.

`changing.py hears PROGRAM WORK` has listeners join before and while three sources send, over files of few bytes: whoever
was there first hears each source as one link, whatever the files; and so does who joins later, from there on.
`changing.py pairs PROGRAM WORK` has one listener hear a source of two streams over files of few bytes, as one link.
`changing.py fetches PROGRAM WORK` has clients ask for a long file that ends before they read what they get.
`changing.py lags PROGRAM WORK` has a listener that reads nothing while files of several megabytes come and go: it hears
all that was sent then, as one link.
`changing.py shares PROGRAM WORK` has forty clients read a long file that has ended as fast as it comes: others are
answered meanwhile.
`changing.py limits PROGRAM WORK` has as many connections as may be, most of which read a file that has ended.
`changing.py fails PROGRAM LIBRARY WORK` has each device call fail once, by the library of failing.c, while two sources
come one after the other: one of them may lose something, and is told so.
`changing.py fills PROGRAM LIBRARY WORK` has the device run full until the oldest file is thrown away, by the library of
filling.c, while a listener hears: the file is opened again, and nothing of it is heard twice.
`changing.py kills PROGRAM WORK COUNT` kills the station again and again over one growing folder while a source sends and
ten listen: what any of them heard must be in its files, and the same command line goes on.

Each prints a line for what is wrong, and last how much was tried; the status is 1 if something was wrong.
"""
import contextlib
import os
import random
import select
import socket
import struct
import sys
import threading
import time

from archiving import found, stream
from filing import files_of, wrong
from finishing import FIRST
from finishing import pages_of as pages_in
from pages import page
from stationing import BASIC, Listener, Station, Told, faults_heard, is_whole, read_all, request, send_until_killed, until


def made(work, name):
    path = os.path.join(work, name)
    os.mkdir(path)
    return path + "/"


def found_pages(data):
    """Where the whole pages end."""
    at = 0
    while data[at : at + 4] == b"OggS" and len(data) >= at + 27:
        count = data[at + 26]
        size = 27 + count + sum(data[at + 27 : at + 27 + count])
        if len(data) < at + size:
            break
        at += size
    return at


def pages_of(folder):
    """The pages of each file, in the order of the files."""
    files = [data for _, _, _, data, _ in files_of(folder)]
    return [data[: found(data)[1]] for data in files]


def heard_on(folder):
    """What is heard of the files, from the first page of the first one on. The link that is open at the end of a file goes
    on in the next one, if its name says so: without the pages that end its streams there, without those that begin them
    here, and under the serials and with the numbers that they have so far. Here each stream begins with one page."""
    heard = []
    for _, _, goes_on, data, _ in files_of(folder):
        pages = [one[:6] for one in pages_in(data[: found_pages(data)])]
        if not goes_on:
            heard += pages
            continue
        ends = []
        while not heard[-1][4]:
            ends.insert(0, heard.pop())
        names = {new[2]: (old[2], old[3] - 1) for new, old in zip(pages, ends)}
        first = len(ends)
        last = next((at for at in range(first, len(pages)) if pages[at][0] & FIRST), len(pages))
        for flags, position, serial, number, *rest in pages[first:last]:
            heard.append([flags, position, names[serial][0], names[serial][1] + number, *rest])
        heard += pages[last:]
    return b"".join(page(*one) for one in heard)


def is_open(station):
    return b"open" in station.ask(b"GET / HTTP/1.0\r\n\r\n")


def open_files(pid):
    """The paths that a process has open. What it closes meanwhile is left out."""
    paths = []
    for it in os.listdir("/proc/%d/fd" % pid):
        with contextlib.suppress(FileNotFoundError):
            paths.append(os.readlink("/proc/%d/fd/%s" % (pid, it)))
    return paths


def hears(program, work):
    told = Told()
    folder = made(work, "hears")
    station = Station(program, folder, "--most-bytes", "2500")
    early = Listener(station)
    early.start()
    time.sleep(0.3)
    late, whole = [], {}
    for seed in (31, 32, 33):
        pages = list(stream(seed, 160))
        whole[seed] = 2 * 159
        with station.connect() as one:
            one.sendall(request(b"PUT", BASIC))
            for number, page in enumerate(pages):
                one.sendall(page)
                time.sleep(0.003)
                if number % 13 == 7:
                    late.append(Listener(station))
                    late[-1].start()
    told.check("the last link ends", until(lambda: not is_open(station)))
    files = pages_of(folder)
    data = heard_on(folder)
    until(lambda: len(early.body()) >= len(data))
    until(lambda: all(one.body()[-40:] == data[-40:] for one in late))
    faults, _ = wrong(folder, whole, ended=True)
    told.check("the files", not faults, faults[:5])
    told.check("files change", len(files) > 10, len(files))
    told.check("who was there first hears each link on", early.body() == data, len(early.body()), len(data))
    told.check("it hears three links", len(found(early.body())[0]) == 3)
    known = {each for one in files for link in found(one)[0] for each in link["packets"]}
    over = 0
    for number, one in enumerate(late):
        heard = one.body()
        for fault in faults_heard(heard, known):
            told.check("listener %d" % number, False, fault)
        # What is heard of the link in which it joined goes on to its end; each one after that is heard whole.
        links = [link["packets"] for link in found(heard)[0]]
        sources = [link["packets"] for link in found(data)[0]]
        told.check("listener %d: the links after its own" % number, links[1:] == sources[len(sources) - len(links) + 1 :])
        joined = sources[len(sources) - len(links)]
        told.check("listener %d: the end of its own" % number, joined[len(joined) + 1 - len(links[0]) :] == links[0][1:])
        over += len(links[0]) * 2 > len(joined) or len(links) > 1
    told.check("many hear changes", over > len(late) / 2, over, len(late))
    for one in [early, *late]:
        told.check("a listener goes on", one.is_alive())
        one.one.shutdown(socket.SHUT_RDWR)
    err = station.stop()
    told.check("standard error", b"fault" not in err and b"lost" not in err, err[-300:])
    told.check("each file is told", err.count(b" begins ") == len(files) and err.count(b" ends ") == len(files) - 1)
    return told.end()


def fetches(program, work):
    told = Told()
    folder = made(work, "fetches")
    station = Station(program, folder, "--most-bytes", "9000000")
    body = b"".join(stream(41, 60000))
    told.check("a long source", b" 200 " in station.ask(request(b"PUT", BASIC, b"Content-Length: %d" % len(body)), body)[:20])
    length = station.committed()
    asked = {
        b"GET /link/0 HTTP/1.0\r\n\r\n": (0, length),
        b"GET /link/0 HTTP/1.0\r\nRange: bytes=1000-\r\n\r\n": (1000, length),
        b"GET /link/0/77 HTTP/1.0\r\n\r\n": (0, length),
    }
    waiting = []
    for head in asked:
        one = station.connect()
        one.setsockopt(socket.SOL_SOCKET, socket.SO_RCVBUF, 65536)
        one.sendall(head)
        waiting.append((head, one, one.recv(100)))
    for seed in (42, 43):
        more = b"".join(stream(seed, 60000))
        answer = station.ask(request(b"PUT", BASIC, b"Content-Length: %d" % len(more)), more)
        told.check("a source", b" 200 " in answer[:20], answer)
    files = pages_of(folder)
    told.check("the file has changed", len(files) > 1, [len(one) for one in files])
    for head, one, front in waiting:
        got = (front + read_all(one)).partition(b"\r\n\r\n")
        one.close()
        start, end = asked[head]
        told.check("%r is sent to its end" % head, got[2] == files[0][start:end], len(got[2]), end - start)
    newest = station.ask(b"GET /link/0 HTTP/1.0\r\n\r\n").partition(b"\r\n\r\n")[2]
    told.check("what is asked for now is of the newest", files[-1].startswith(newest) and newest)
    # Nobody reads the files that have ended: they are closed again.
    links = lambda: open_files(station.process.pid)
    told.check("files that have ended are closed", until(lambda: sum(it.endswith(".ogg") for it in links()) <= 2), links())
    err = station.stop()
    told.check("standard error", b"fault" not in err, err[-300:])
    faults, _ = wrong(folder, {seed: 2 * 59999 for seed in (41, 42, 43)}, ended=True)
    told.check("the files", not faults, faults[:5])
    return told.end()


def pair(count):
    """A link of two streams, whose pages come in turn."""
    for serial in (5, 6):
        yield page(2, 0, serial, 0, [8], struct.pack("<II", serial, 0))
    for number in range(1, count):
        for serial in (5, 6):
            yield page(0, number * serial, serial, number, [8], struct.pack("<II", serial, number))


def pairs(program, work):
    told = Told()
    folder = made(work, "pairs")
    station = Station(program, folder, "--most-bytes", "1500")
    listener = Listener(station)
    listener.start()
    time.sleep(0.3)
    with station.connect() as one:
        one.sendall(request(b"PUT", BASIC))
        for each in pair(200):
            one.sendall(each)
            time.sleep(0.003)
    told.check("the link ends", until(lambda: not is_open(station)))
    data = heard_on(folder)
    until(lambda: len(listener.body()) >= len(data))
    told.check("files change", len(files_of(folder)) > 5, len(files_of(folder)))
    told.check("one link is heard", listener.body() == data, len(listener.body()), len(data))
    pages = pages_in(data)
    for at in (0, 1):
        serial = pages[at][2]
        own = [one for one in pages if one[2] == serial]
        told.check("stream %d: its numbers" % at, [one[3] for one in own] == list(range(len(own))))
        held = [bytes(one[5]) for one in own if one[4]]
        told.check("stream %d: its packets" % at, held == [struct.pack("<II", 5 + at, it) for it in range(200)], len(held))
        told.check("stream %d: its end" % at, [bool(one[0] & 4) for one in own] == [False] * (len(own) - 1) + [True])
    err = station.stop()
    told.check("standard error", b"fault" not in err and b"lost" not in err, err[-300:])
    return told.end()


def long_stream(seed, count):
    """A stream of so many pages of 65 kB, which take less time to be made than short ones."""
    yield page(2, 0, 77, 0, [8], struct.pack("<II", seed, 0))
    for sequence in range(1, count):
        body = struct.pack("<II", seed, sequence) + bytes(255 * 254 - 8)
        yield page(0, sequence, 77, sequence, [255] * 254 + [0], body)


def put(station, told, pages):
    """Sends these pages as one source."""
    body = b"".join(pages)
    answer = station.ask(request(b"PUT", BASIC, b"Content-Length: %d" % len(body)), body)
    told.check("a source", b" 200 " in answer[:20], answer)


def slow(station, head):
    """A connection that asks and reads the front of its answer, and nothing more for now."""
    one = station.connect()
    one.setsockopt(socket.SOL_SOCKET, socket.SO_RCVBUF, 65536)
    one.sendall(head)
    return one


LIVE = b"GET /live HTTP/1.0\r\n\r\n"


def lags(program, work):
    told = Told()
    folder = made(work, "lags")
    station = Station(program, folder, "--most-bytes", "7000000")
    one = slow(station, LIVE)
    put(station, told, long_stream(61, 400))
    told.check("files change", len(files_of(folder)) > 3, len(files_of(folder)))
    got, data = b"", heard_on(folder)
    wanted = len(data)
    one.settimeout(20)
    try:
        while len(got.partition(b"\r\n\r\n")[2]) < wanted and (piece := one.recv(1 << 20)):
            got += piece
    except TimeoutError:
        pass
    got = got.partition(b"\r\n\r\n")[2]
    told.check("all is heard, as one link", got == data, len(got), wanted)
    err = station.stop()
    told.check("standard error", b"fault" not in err and b"lost" not in err, err[-300:])

    return told.end()


def read_whole(some):
    """Reads all that comes for these connections, as fast as it comes. Returns how much that was."""
    room, count = bytearray(1 << 20), 0
    while some:
        for one in select.select(some, [], [], 20)[0]:
            more = one.recv_into(room)
            count += more
            if not more:
                some.remove(one)
    return count


def shares(program, work):
    told = Told()
    folder = made(work, "shares")
    station = Station(program, folder, "--most-bytes", "20000000")
    put(station, told, long_stream(71, 400))
    length = station.committed()
    readers = [slow(station, b"GET /link/0 HTTP/1.0\r\n\r\n") for _ in range(40)]
    time.sleep(0.5)
    put(station, told, stream(72, 3))
    told.check("the file has changed", len(files_of(folder)) == 2)
    children = []
    for at in range(4):
        child = os.fork()
        if not child:
            os._exit(0 if read_whole(readers[at * 10 : at * 10 + 10]) > 10 * length else 1)
        children.append(child)
    answers, longest = 0, 0
    begun = time.monotonic()
    left = list(children)
    while left:
        asked = time.monotonic()
        station.ask(b"GET /status HTTP/1.0\r\n\r\n")
        longest = max(longest, time.monotonic() - asked)
        answers += 1
        for child in left[:]:
            ended, status = os.waitpid(child, os.WNOHANG)
            if ended:
                told.check("all is read", status == 0)
                left.remove(child)
    took = time.monotonic() - begun
    told.check("others are answered meanwhile", answers > 5, answers, longest, took)
    station.stop()
    return told.end()


def limits(program, work):
    told = Told()
    folder = made(work, "limits")
    station = Station(program, folder, "--most-bytes", "7000000", "--listeners", "4")
    some = [slow(station, LIVE) for _ in range(3)]
    time.sleep(0.2)
    put(station, told, long_stream(81, 200))
    told.check("the file has changed", len(files_of(folder)) == 2)
    # The source's connection is gone soon.
    time.sleep(0.5)
    some.append(slow(station, LIVE))
    front = some[-1].recv(100)
    told.check("there is one place more", b" 200 " in front[:20], front)
    got = station.ask(LIVE)
    told.check("those who read a file that has ended count", b" 503 " in got[:20], got[:100])
    for one in some:
        one.close()
    told.check("there are places again", until(lambda: b" 200 " in station.ask(b"GET / HTTP/1.0\r\n\r\n")[:20]))
    station.stop()
    return told.end()


def fails(program, library, work):
    told = Told()
    mark = os.path.join(work, "met")
    for how in ("io", "full"):
        for call in range(1, 300):
            if os.path.exists(mark):
                os.remove(mark)
            folder = made(work, "fails-%s-%d" % (how, call))
            failing = {"LD_PRELOAD": library, "FAILING_CALL": str(call), "FAILING_HOW": how, "FAILING_MET": mark}
            station = Station(program, folder, "--most-bytes", "400", **failing)
            answers = {}
            for seed in (51, 52):
                body = b"".join(stream(seed, 8))
                if station.process.poll() is None:
                    answers[seed] = station.ask(request(b"PUT", BASIC, b"Content-Length: %d" % len(body)), body)
            err = station.stop()
            if not os.path.exists(mark):
                break
            name = "%s at call %d" % (how, call)
            links = [link for data in pages_of(folder) for link in found(data)[0]]
            kept = {seed: [one for one in links if one["packets"][0] == struct.pack("<II", seed, 0)] for seed in (51, 52)}
            taken = [seed for seed in answers if b" 200 " in answers[seed].split(b"\r\n")[0]]
            for seed in taken:
                packets = [each for one in kept[seed] for each in one["packets"][1:] if each]
                whole = [each for page in [stream(seed, 8)] for each in packets_of(page)]
                told.check("%s: whoever is told 200 is whole" % name, packets == whole, seed, len(packets), err)
            told.check("%s: one source loses something at most" % name, len(taken) >= len(answers) - 1, answers, err)
            told.check("%s: it goes on" % name, len(answers) == 2 or err.splitlines()[-1].startswith(b"fault "), err)
        else:
            told.check("%s: it ends" % how, False)
    return told.end()


def fills(program, library, work):
    told = Told()
    for call in (20, 26, 32, 38):
        name = "full at call %d" % call
        folder = made(work, "full%d" % call)
        words = ["--every", "52w", "--most-bytes", "2000"]
        before = Station(program, folder, *words)
        put(before, told, list(stream(1, 120)))
        before.stop()
        oldest, met = files_of(folder)[0][1], os.path.join(work, "met%d" % call)
        station = Station(
            program, folder, *words, "--keep-bytes", "1000000",
            LD_PRELOAD=library, FILLING_CALL=str(call), FILLING_GOING="1", FILLING_MET=met,
        )
        listener = Listener(station)
        listener.start()
        time.sleep(0.2)
        with station.connect() as one:
            one.sendall(request(b"PUT", BASIC))
            for each in stream(2, 150):
                one.sendall(each)
                time.sleep(0.008)
        # What is committed is heard a second later.
        time.sleep(1.5)
        err = station.stop()
        listener.join(20)
        told.check("%s: it is met" % name, os.path.exists(met))
        told.check("%s: the oldest goes" % name, oldest.encode() in err and not os.path.exists(folder + oldest), err)
        # The last page may not have come whole.
        got = listener.body()
        heard = [bytes(it[5]) for it in pages_in(got[: found(got)[1]])]
        told.check("%s: much is heard" % name, len(heard) > 100, len(heard))
        rest = iter([bytes(it[5]) for _, _, _, data, _ in files_of(folder) for it in pages_in(data[: found(data)[1]])])
        told.check("%s: nothing is heard twice" % name, all(it in rest for it in heard), len(heard))
    return told.end()


def packets_of(pages):
    """The packets of a stream, but for its first."""
    return [each for each in found(b"".join(pages))[0][0]["packets"][1:] if each]


def kills(program, work, count):
    told, source = Told(), random.Random(12)
    folder = made(work, "kills")
    heard, kept, at_most = 0, [], 0
    for turn in range(count):
        station = Station(program, folder, "--most-bytes", str(source.choice([600, 3000])), "--every", "1s")
        pause = source.choice([0.0005, 0.003])
        sender = threading.Thread(target=send_until_killed, args=(station, 1000 + turn, pause), daemon=True)
        sender.start()
        listeners = []
        end = time.monotonic() + source.uniform(0.1, 0.8)
        while time.monotonic() < end:
            if len(listeners) < 10:
                listeners.append(Listener(station))
                listeners[-1].start()
            time.sleep(0.005)
        station.process.send_signal(9)
        err = station.process.communicate(timeout=20)[1]
        sender.join(20)
        for one in listeners:
            one.join(20)
        files = pages_of(folder)
        told.check("turn %d: what was there" % turn, all(now.startswith(was) for was, now in zip(kept, files)))
        told.check("turn %d: no file is gone" % turn, len(files) >= len(kept))
        faults, _ = wrong(folder)
        told.check("turn %d: the files" % turn, not faults, faults[:3])
        known = {each for one in files[max(len(kept) - 2, 0) :] for link in found(one)[0] for each in link["packets"]}
        for one in listeners:
            heard += len(one.body())
            for fault in faults_heard(one.body(), known):
                told.check("turn %d" % turn, False, fault)
        told.check("turn %d: standard error" % turn, b"fault" not in err and b"mended" not in err, err[-300:])
        kept = files
        at_most = max(at_most, len(files))
    told.check("files change", at_most > 2 * count, at_most)
    told.check("something was heard", heard > 1000 * count, heard)
    return told.end()


def main():
    what, program, *more, work = sys.argv[1:] if sys.argv[1] != "kills" else [*sys.argv[1:3], sys.argv[4], sys.argv[3]]
    if what == "kills":
        return kills(program, work, int(more[0]))
    if more:
        return {"fails": fails, "fills": fills}[what](program, more[0], work)
    return {"hears": hears, "pairs": pairs, "fetches": fetches, "lags": lags, "shares": shares, "limits": limits}[what](program, work)


if __name__ == "__main__":
    sys.exit(main())
