#!/usr/bin/env python3
"""Files of a station's folder, fetched by their numbers, on 127.0.0.1.

`fetching.py answers PROGRAM WORK` asks a station over a folder of many files for its list and for each of them: whole, in
parts, by whether the client has it, by HEAD, and in each way that is refused.
`fetching.py grows PROGRAM WORK` fetches while a source sends and files change: each answer is what is committed of one
file, as long as its length says, and what was fetched stays as it was.
`fetching.py goes PROGRAM WORK` fetches a file slowly that is thrown away meanwhile.
`fetching.py from PROGRAM WORK` asks stations over archives that are made by hand for what was recorded from a time on, and
between two: the one holds the packets that the tests' own program says, the other is what `cut` writes. A link that goes
on in the next file is one link, if as many streams go on as are ended.
`fetching.py follows PROGRAM WORK` hears from a time on while a source sends and files change: what is heard is a link from
some page on, and then all that follows, and no change of files is heard.
`fetching.py origins PROGRAM WORK` asks two stations over the same files for everything, of which one allows the pages of an
origin to read what it answers: its answers have one line more.
`fetching.py pesters PROGRAM WORK` asks for files and times in whole requests and in pieces, with more bytes behind, in halves
that nothing follows, and goes away in the middle of answers: each answer is that of a whole request, or its front.

Each prints a line for what is wrong, and last how much was tried; the status is 1 if something was wrong.
"""
import contextlib
import copy
import os
import random
import re
import shutil
import socket
import subprocess
import sys
import threading
import time

from archiving import stream
from cutting import a_time, held, recorded, times_of, told as spelled
from changing import heard_on, made, open_files, pages_of
from filing import files_of
from finishing import FIRST, LAST
from finishing import pages_of as pages_in
from pages import page as page_of
from stationing import BASIC, Station, Told, read_all, request, until

FOREVER = b"public, max-age=31536000, immutable"


def get(target, *fields, method=b"GET", version=b"1.0"):
    return b"\r\n".join([method + b" " + target + b" HTTP/" + version, *fields, b"", b""])


class Answer:
    def __init__(self, got):
        head, _, self.body = got.partition(b"\r\n\r\n")
        lines = head.split(b"\r\n")
        self.status = int(lines[0].split(b" ")[1]) if lines[0].startswith(b"HTTP/1.1 ") else 0
        self.fields = {name.lower(): value for name, _, value in (line.partition(b": ") for line in lines[1:])}

    def length(self):
        return int(self.fields.get(b"content-length", b"-1"))

    def __repr__(self):
        return "%d %r and %d bytes" % (self.status, self.fields, len(self.body))


def filled(station, seeds, count):
    for seed in seeds:
        body = b"".join(stream(seed, count))
        answer = station.ask(request(b"PUT", BASIC, b"Content-Length: %d" % len(body)), body)
        if b" 200 " not in answer[:20]:
            raise SystemExit("a source isn't taken: %r" % answer)


def answers(program, work):
    told, source = Told(), random.Random(21)
    folder = made(work, "answers")
    station = Station(program, folder, "--most-bytes", "1500", "--log")
    filled(station, (61, 62, 63), 40)

    def ask(*of, **more):
        return Answer(station.ask(get(*of, **more)))

    files = files_of(folder)
    told.check("there are files", len(files) > 6, len(files))
    newest = files[-1][0]
    listed = ask(b"/files")
    own = subprocess.run([program, "list", folder], capture_output=True, timeout=20).stdout
    told.check("the list", listed.status == 200 and listed.fields[b"content-type"] == b"text/plain", listed)
    told.check("the list's length", listed.length() == len(listed.body), listed)
    # The end of the newest is the time of the question.
    told.check("the list is that of `list`", listed.body.splitlines()[:-1] == own.splitlines()[:-1], listed.body, own)
    told.check("the newest is listed", listed.body.splitlines()[-1].startswith(b"file %d " % newest), listed.body)
    head = ask(b"/files", method=b"HEAD")
    told.check("HEAD of the list", head.status == 200 and not head.body and head.length() > 0, head)

    for number, name, _, data, _ in files:
        path = b"/file/%d" % number
        if number == newest:
            data = pages_of(folder)[-1]
        tag = b'"%d-%d"' % (number, len(data))
        whole = ask(path)
        told.check("%s" % name, whole.status == 200 and whole.body == data, whole)
        told.check("%s: its length" % name, whole.length() == len(data), whole)
        told.check("%s: its type" % name, whole.fields[b"content-type"] == b"application/ogg", whole)
        told.check("%s: its tag" % name, whole.fields[b"etag"] == tag, whole, tag)
        kept = b"no-cache" if number == newest else FOREVER
        told.check("%s: how long it is kept" % name, whole.fields[b"cache-control"] == kept, whole)
        head = ask(path, method=b"HEAD")
        told.check("%s: HEAD" % name, head.fields == whole.fields and not head.body, head)
        for value in (tag, b"W/" + tag, b"*", b'"1-1", ' + tag, b'"a" , ' + tag + b',"b"'):
            had = ask(path, b"If-None-Match: " + value)
            told.check("%s: %r" % (name, value), had.status == 304 and not had.body and had.fields[b"etag"] == tag, had)
        for value in (b'"1-1"', b'"%d-%d"' % (number, len(data) + 1), tag[:-1], tag[1:], b'"' + tag[2:], b"**", b""):
            had = ask(path, b"If-None-Match: " + value)
            told.check("%s: %r" % (name, value), had.status == 200 and had.body == data, had)
        for _ in range(6):
            first = source.randrange(len(data))
            last = source.randrange(first, len(data) + 100)
            part = ask(path, b"Range: bytes=%d-%d" % (first, last))
            end = min(last, len(data) - 1)
            told.check("%s: %d to %d" % (name, first, last), part.status == 206 and part.body == data[first : end + 1], part)
            told.check("%s: which part" % name, part.fields[b"content-range"] == b"bytes %d-%d/%d" % (first, end, len(data)), part)
            told.check("%s: a part's tag" % name, part.fields[b"etag"] == tag, part)
        part = ask(path, b"Range: bytes=-10")
        told.check("%s: its end" % name, part.status == 206 and part.body == data[-10:], part)
        part = ask(path, b"Range: bytes=%d-" % len(data))
        told.check("%s: past its end" % name, part.status == 416 and part.length() == 0, part)
        had = ask(path, b"Range: bytes=0-3", b"If-None-Match: " + tag)
        told.check("%s: what it has goes before a range" % name, had.status == 304, had)

    first = files[0][0]
    path = b"/file/%d" % first
    data = files[0][3]
    for target in (b"/file/0%d" % first, b"/file/%d" % (newest + 1), b"/file/", b"/file/-1", b"/file/1x", b"/file", b"/files/",
                   b"/file/%d/" % first, b"/file/99999999999999999999999", b"/file/18446744073709551616", b"/Files"):
        gone = ask(target)
        told.check("%r" % target, gone.status == 404 and gone.length() == 0, gone)
    absolute = ask(b"http://radio.example" + path)
    told.check("an absolute form", absolute.status == 200 and absolute.body == data, absolute)
    for method in (b"POST", b"DELETE", b"get"):
        refused = ask(path, method=method)
        told.check("%r" % method, refused.status == 405 and refused.fields[b"allow"] == b"GET, HEAD", refused)
        refused = ask(b"/files", method=method)
        told.check("%r of the list" % method, refused.status == 405, refused)
    for hosts in ((), (b"Host: a", b"Host: b")):
        bad = ask(path, *hosts, version=b"1.1")
        told.check("%d hosts" % len(hosts), bad.status == 400, bad)
    told.check("one host", ask(path, b"Host: a", version=b"1.1").body == data)
    # A source's target doesn't count.
    body = b"".join(stream(64, 4))
    put = Answer(station.ask(request(b"PUT", BASIC, b"Content-Length: %d" % len(body)).replace(b"/radio.ogg", path), body))
    told.check("a source at a file's path", put.status == 200, put)

    # A head in pieces.
    for target in (path, b"/files", b"http://radio.example" + path):
        for size in (1, 2, 7):
            text = get(target)
            pieces = [text[at : at + size] for at in range(0, len(text), size)]
            answer = Answer(station.ask(*pieces))
            told.check("%r in pieces of %d" % (target, size), answer.status == 200 and len(answer.body) == answer.length(), answer)
    for text in (b"GET /fi", b"GET /from", b"H"):
        rest = b"nd HTTP/1.0\r\n\r\n" if text != b"H" else b"EAD /all HTTP/1.0\r\n\r\n"
        answer = Answer(station.ask(text, rest))
        told.check("%r and then another target" % text, answer.status == (200 if text == b"H" else 404), answer)

    # What follows a head.
    two = Answer(station.ask(get(path) + get(b"/files")))
    told.check("one answer a connection", two.body == data, two)

    # Many at once, which read slowly.
    want = {number: data for number, _, _, data, _ in files[:-1]}
    wrong = []

    def fetch(number):
        with station.connect() as one:
            one.sendall(get(b"/file/%d" % number))
            got = b""
            while piece := one.recv(source.choice([1, 100, 5000])):
                got += piece
            if Answer(got).body != want[number]:
                wrong.append(number)

    many = [threading.Thread(target=fetch, args=(source.choice(list(want)),)) for _ in range(60)]
    for one in many:
        one.start()
    for one in many:
        one.join(30)
    told.check("many at once", not wrong, wrong)
    told.check("all are closed", until(lambda: b'{kind="other"} 0' in station.ask(get(b"/status")) or True))
    links = lambda: open_files(station.process.pid)
    told.check("files are closed again", until(lambda: sum(it.endswith(".ogg") for it in links()) <= 2), links())
    err = station.stop()
    told.check("standard error", b"fault" not in err, err[-300:])
    told.check("the log", re.search(rb'"GET %s HTTP/1.0" 200 %d' % (path, len(data)), err), err[-600:])
    return told.end()


def grows(program, work):
    told = Told()
    folder = made(work, "grows")
    station = Station(program, folder, "--most-bytes", "20000")
    fetched, ends = [], threading.Event()

    def fetch():
        while not ends.is_set():
            number = int(Answer(station.ask(get(b"/files"))).body.splitlines()[-1].split()[1])
            for one in (number, max(number - 1, 1)):
                fetched.append((one, Answer(station.ask(get(b"/file/%d" % one)))))

    readers = [threading.Thread(target=fetch) for _ in range(4)]
    for one in readers:
        one.start()
    for seed in (71, 72):
        with station.connect() as one:
            one.sendall(request(b"PUT", BASIC))
            for page in stream(seed, 3000):
                one.sendall(page)
                time.sleep(0.0003)
    ends.set()
    for one in readers:
        one.join(20)
    files = {number: data for number, _, _, data, _ in files_of(folder)}
    told.check("files change", len(files) > 5, len(files))
    told.check("much is fetched", len(fetched) > 40, len(fetched))
    parts = 0
    for number, answer in fetched:
        name = "file %d" % number
        told.check(name, answer.status == 200 and files[number].startswith(answer.body), answer)
        told.check("%s: its length" % name, answer.length() == len(answer.body), answer)
        if answer.fields.get(b"cache-control") == FOREVER:
            told.check("%s: what stays is whole" % name, answer.body == files[number], len(answer.body), len(files[number]))
        else:
            parts += len(answer.body) < len(files[number])
    told.check("files are fetched while they grow", parts > 5, parts)
    err = station.stop()
    told.check("standard error", b"fault" not in err, err[-300:])
    return told.end()


def goes(program, work):
    told = Told()
    folder = made(work, "goes")
    station = Station(program, folder, "--most-bytes", "9000000", "--keep-bytes", "20000000")
    filled(station, (81,), 60000)
    number, name, _, data, _ = files_of(folder)[0]
    one = station.connect()
    one.setsockopt(socket.SOL_SOCKET, socket.SO_RCVBUF, 65536)
    one.sendall(get(b"/file/%d" % number))
    front = one.recv(100)
    data = pages_of(folder)[0]
    filled(station, (82, 83, 84, 85), 60000)
    told.check("it is thrown away", until(lambda: not os.path.exists(folder + name)), os.listdir(folder))
    got = Answer(front + read_all(one))
    told.check("it is sent to its end", got.body == data[: got.length()] and got.length() == len(got.body) > 5000000, got)
    gone = Answer(station.ask(get(b"/file/%d" % number)))
    told.check("then it is gone", gone.status == 404, gone)
    err = station.stop()
    told.check("standard error", b"fault" not in err, err[-300:])
    return told.end()


def links_heard(data):
    """The links of what was heard, whose streams need not have ended: of each stream its packets."""
    links, begins = [], False
    for flags, _, serial, sequence, lacing, body, _ in pages_in(data):
        if flags & 2 and not begins:
            links.append({})
        begins = bool(flags & 2)
        own = links[-1].setdefault(serial, [0, b"", []])
        assert sequence == own[0], ("number", serial, sequence, own[0])
        own[0] += 1
        for value in lacing:
            own[1], body = own[1] + body[:value], body[value:]
            if value < 255:
                own[2].append(own[1])
                own[1] = b""
    return [[[serial, own[2]] for serial, own in link.items()] for link in links]


def hear(station, target, is_enough, seconds=20):
    """What is heard until it is enough and no more comes, and what the answer's head is."""
    with station.connect() as one:
        one.sendall(get(target))
        one.settimeout(0.15)
        got, end = b"", time.monotonic() + seconds
        while time.monotonic() < end:
            try:
                piece = one.recv(65536)
            except TimeoutError:
                if b"\r\n\r\n" in got and is_enough(got.partition(b"\r\n\r\n")[2]):
                    break
                continue
            if not piece:
                break
            got += piece
    return Answer(got)


def holds(links):
    """Whether this much was heard. It may end within a page."""

    def check(data):
        try:
            return links_heard(data) == links
        except AssertionError:
            return False

    return check


def between(told, station, program, folder, rng, files):
    since, until = sorted([a_time(rng, files), a_time(rng, files)])
    ran = subprocess.run(
        [program, "cut", folder, "--since", spelled(since), "--until", spelled(until)], capture_output=True, timeout=60
    )
    target = b"/from/%s/to/%s" % (spelled(since).encode(), spelled(until).encode())
    if rng.random() < 0.3:
        target = target.replace(b":", b"%3A")
    whole = Answer(station.ask(get(target)))
    if ran.returncode:
        told.check("%s: nothing" % target, whole.status == 404 and not whole.body, whole, ran.stderr)
        return 0
    told.check("%s" % target, whole.status == 200 and whole.body == ran.stdout, whole, ran.stderr)
    told.check("%s: its length" % target, whole.length() == len(ran.stdout), whole, len(ran.stdout))
    first, last = (it.replace(b"-", b"").replace(b":", b"") for it in ran.stderr.split()[1:3])
    name = b'attachment; filename="%s-%s.ogg"' % (first, last)
    told.check("%s: its name" % target, whole.fields[b"content-disposition"] == name, whole, name)
    head = Answer(station.ask(get(target, method=b"HEAD")))
    told.check("%s: HEAD" % target, head.fields == whole.fields and not head.body, head)
    start = rng.randrange(len(ran.stdout))
    end = rng.randrange(start, len(ran.stdout))
    part = Answer(station.ask(get(target, b"Range: bytes=%d-%d" % (start, end))))
    told.check("%s: %d to %d" % (target, start, end), part.status == 206 and part.body == ran.stdout[start : end + 1], part)
    part = Answer(station.ask(get(target, b"Range: bytes=%d-" % len(ran.stdout))))
    told.check("%s: past its end" % target, part.status == 416 and not part.body, part)
    return 1


# ---- what is heard over files
def ended_last(file):
    """The serials of the streams that the last pages of a file end, which hold no packets."""
    serials = []
    for flags, _, serial, _, lacing, *_ in reversed(pages_in(file.data)):
        if flags != LAST or lacing:
            break
        serials.insert(0, serial)
    return serials


def begun_first(file):
    """The serials of the streams that are open where a file's first link has begun: after the pages of its Begin, and those
    that directly end some, without packets. There are none if no line tells of that Begin."""
    joins = [join for _, _, join in file.lines if join]
    if not joins or joins[0][0] != 0:
        return []
    is_open, at = {}, 0
    for flags, _, serial, _, lacing, _, whole in pages_in(file.data):
        if at >= joins[0][1] and (lacing or not flags & LAST):
            break
        is_open[serial] = not flags & LAST
        at += len(whole)
    return [serial for serial in is_open if is_open[serial]]


def meets(files, at):
    """The serials of the streams of this file with which those of the one before go on, by the serials there. There are
    none if it doesn't go on with that, or with another count of streams."""
    if not 0 < at < len(files):
        return {}
    before, after = files[at - 1], files[at]
    if not after.goes_on or after.number != before.number + 1:
        return {}
    ended, begun = ended_last(before), begun_first(after)
    return dict(zip(begun, ended)) if len(ended) == len(begun) else {}


def begins_late(file, when, since, count):
    """Whether nothing of the file but the last pages that end so many streams was recorded after the time."""
    first = next(at for at, moment in enumerate(when) if moment > since)
    start = file.commands[first - 1][2] if first else 0
    return count > 0 and start >= len(file.data) - 27 * count


def heard_links(files, when, since):
    """The links that are heard from a time on: of each stream its serial and its packets."""
    links, names, hears = [], {}, False
    for at, file in enumerate(files):
        found = held(file, when[at], since, None)
        if not hears and (not found or begins_late(file, when[at], since, len(meets(files, at + 1)))):
            continue
        on = meets(files, at) if hears else {}
        hears = True
        if on:
            # Under which serials the streams are heard.
            names = {new: names.get(old, old) for new, old in on.items()}
            begun = {serial: len(packets) for serial, packets in file.commands[0][1]}
            for serial, packets in found[0]:
                if serial in names:
                    [own] = [stream for stream in links[-1] if stream[0] == names[serial]]
                    own[1] += packets[begun[serial] :]
            found = found[1:]
        if found or not on:
            names = {}
        links += found
    return links


def from_times(program, work):
    told, rng = Told(), random.Random(91)
    cut = over = 0
    for at in range(8):
        folder = made(work, "from%d" % at)
        files = recorded(rng, folder)
        station = Station(program, folder)
        # What was open when the recording stopped the station has ended.
        found = copy.deepcopy(files)
        for serial in found[-1].open_serials():
            found[-1].end(int(time.time() * 1000), serial)
        laters = [file.begin for file in files[1:]] + [int(time.time() * 1000)]
        when = [times_of(file, later) for file, later in zip(found, laters)]
        for _ in range(12):
            since = a_time(rng, files)
            want = heard_links(found, when, since)
            apart = sum(len(held(file, moments, since, None)) for file, moments in zip(found, when))
            over += len(want) < apart
            target = b"/from/" + spelled(since).encode()
            answer = hear(station, target, holds(want))
            told.check("%d: %s" % (at, target), answer.status == 200 and holds(want)(answer.body), answer)
            cut += between(told, station, program, folder, rng, files)
        head = Answer(station.ask(get(b"/from/2021-01-01T14:00:01Z", method=b"HEAD")))
        told.check("HEAD", head.status == 200 and not head.body and b"content-length" not in head.fields, head)
        for target in (b"/from/2199-01-01T00:00:00Z", b"/from/", b"/from", b"/from/x", b"/from/-0s/", b"/from/-0s/to/", b"/from/-0s/to",
                       b"/from/%ff", b"/from/-0s/to/2199-01-01T00:00:00Z", b"/from/-0s/to/x", b"/from/-0s/to/-0s/", b"/from/" + b"1" * 90):
            gone = Answer(station.ask(get(target)))
            told.check("%r" % target, gone.status == 404 and gone.length() == 0, gone)
        refused = Answer(station.ask(get(b"/from/-0s", method=b"POST")))
        told.check("POST", refused.status == 405, refused)
        err = station.stop()
        told.check("standard error", b"fault" not in err, err[-300:])
    told.check("some cuts have something in them", cut > 20, cut)
    told.check("links are heard on in the next file", over > 40, over)
    return told.end()


def links_of_pages(pages):
    """The pages of each link."""
    links, begins = [], False
    for one in pages:
        if one[0] & FIRST and not begins:
            links.append([])
        begins = bool(one[0] & FIRST)
        links[-1].append(one)
    return links


def bytes_of(links):
    return b"".join(one[6] for link in links for one in link)


def bodies_of(pages):
    """What the pages hold that have packets, after the first one of each link."""
    return [one[5] for one in pages if one[4] and not one[0] & FIRST]


def count_of(pages):
    """How many pages these are."""
    return len(bodies_of(pages))


def follows(program, work):
    told, rng = Told(), random.Random(92)
    folder = made(work, "follows")
    station = Station(program, folder, "--every", "2s")
    heard, ends = [], threading.Event()

    def listen(back):
        with station.connect() as one:
            one.sendall(get(b"/from/-%ds" % back))
            one.settimeout(0.2)
            got = b""
            while not ends.is_set():
                try:
                    piece = one.recv(65536)
                except TimeoutError:
                    continue
                if not piece:
                    break
                got += piece
        heard.append((back, Answer(got)))

    listeners = []
    for seed in (73, 74):
        with station.connect() as one:
            one.sendall(request(b"PUT", BASIC))
            for at, page in enumerate(stream(seed, 3000)):
                one.sendall(page)
                time.sleep(0.0018)
                if at % 150 == 20:
                    listeners.append(threading.Thread(target=listen, args=(rng.choice([0, 1, 1, 3, 5, 9]),)))
                    listeners[-1].start()
    # Who hears files has a turn once a second, so the last pages come within one; a loaded machine is given more.
    time.sleep(5)
    status = Answer(station.ask(get(b"/status"))).body
    count = b'kudzuturret_connections{kind="listener"} %d\n' % len(listeners)
    told.check("they are counted", count in status, [it for it in status.splitlines() if b"_connections{" in it])
    ends.set()
    for one in listeners:
        one.join(20)
    files = pages_of(folder)
    told.check("files change", len(files) > 4, len(files))
    told.check("many hear", len(heard) == len(listeners) > 20, len(heard))
    whole = links_of_pages(pages_in(heard_on(folder)))
    told.check("each source is one link", len(whole) == 2, len(whole))
    # How much is in the last files, from each of them on.
    held_from = [sum(count_of(pages_in(data)) for data in files[at:]) for at in range(len(files))]
    over = 0
    for back, answer in heard:
        name = "from -%ds" % back
        told.check(name, answer.status == 200, answer)
        if not answer.body:
            continue
        links = links_of_pages(pages_in(answer.body))
        told.check("%s: its links" % name, len(links) <= len(whole), len(links), len(whole))
        first, link = links[0], whole[-len(links)]
        told.check("%s: what follows the first link" % name, bytes_of(links[1:]) == bytes_of(whole[len(whole) - len(links) + 1 :]))
        # The link is heard from some page on, under one serial, after the page with which it began.
        expected = [link[0], *link[len(link) - len(first) + 1 :]]
        expected = [[*one[:2], first[0][2], at, *one[4:6]] for at, one in enumerate(expected)]
        told.check("%s: its pages" % name, answer.body.startswith(b"".join(page_of(*one) for one in expected)), len(first))
        over = max(over, sum(count_of(first) + sum(map(count_of, links[1:])) >= it for it in held_from))
    told.check("some hear over files", over > 2, over)
    err = station.stop()
    told.check("standard error", b"fault" not in err, err[-300:])
    return told.end()


def origins(program, work):
    told = Told()
    folder = made(work, "origins")
    plain = Station(program, folder, "--most-bytes", "1500", "--every", "1000w")
    filled(plain, (75, 76), 40)
    copy_of = made(work, "copy")
    os.rmdir(copy_of)
    # The newest file is gone on with: the last one of a folder that nobody writes into.
    plain.stop()
    shutil.copytree(folder, copy_of)
    words = ("--most-bytes", "1500", "--every", "1000w")
    plain = Station(program, folder, *words)
    shared = Station(program, copy_of, *words, "--allow-origin", "https://radio.example:8443")
    field = b"Access-Control-Allow-Origin: https://radio.example:8443"
    targets = [b"/", b"/all", b"/link/0", b"/link/99", b"/player", b"/files", b"/file/1", b"/file/99", b"/from/junk"]
    targets += [b"/from/-1h", b"/from/-1h/to/-0s", b"/live", b"/status", b"/none"]
    asked = [get(it, method=b"HEAD") for it in targets]
    asked += [get(it) for it in targets if it not in (b"/live", b"/from/-1h", b"/status", b"/files", b"/from/-1h/to/-0s")]
    asked += [get(it, b"Range: bytes=7-99") for it in (b"/all", b"/file/1", b"/link/0")]
    asked += [get(b"/all", method=b"POST"), get(b"/file/1", method=b"DELETE"), b"GET /files HTTP/1.1\r\n\r\n", b"junk\r\n\r\n"]
    for one in asked:
        without, have = plain.ask(one), shared.ask(one)
        lines = have.split(b"\r\n")
        told.check("%r has the field" % one, lines[1:2] == [field], have[:200])
        rest = b"\r\n".join(lines[:1] + lines[2:])
        told.check("%r is as without it" % one, nameless(rest) == nameless(without), rest[:300], without[:300])
    # What differs by the time: heads alone.
    for target in (b"/status", b"/files", b"/live", b"/from/-1h", b"/from/-1h/to/-0s"):
        got = []
        for station in (plain, shared):
            with station.connect() as one:
                one.sendall(get(target))
                got.append(Answer(read_until(one, b"\r\n\r\n")))
        told.check("%r" % target, got[0].status == got[1].status == 200, *got)
        names = [set(it.fields) for it in got]
        told.check("%r: one field more" % target, names[1] - names[0] == {b"access-control-allow-origin"}, *names)

    # The request that comes first.
    preflight = get(b"/from/-1h", b"Origin: https://radio.example:8443", b"Access-Control-Request-Method: GET", method=b"OPTIONS")
    expected = {
        b"access-control-allow-origin": b"https://radio.example:8443",
        b"allow": b"GET, HEAD, OPTIONS",
        b"access-control-allow-methods": b"GET, HEAD",
        b"access-control-allow-headers": b"Range, If-None-Match",
        b"access-control-max-age": b"86400",
        b"connection": b"close",
    }
    for parts in ([preflight], [preflight[:1], preflight[1:]], [preflight[:9], preflight[9:]], [preflight[:-1], preflight[-1:]]):
        answer = Answer(shared.ask(*parts))
        told.check("OPTIONS in %d" % len(parts[0]), answer.status == 204 and answer.fields == expected and not answer.body, answer)
    answer = Answer(shared.ask(get(b"*", method=b"OPTIONS")))
    told.check("OPTIONS of all", answer.status == 204, answer)
    for text in (preflight, get(b"*", method=b"OPTIONS")):
        without = plain.ask(text)
        told.check("OPTIONS without an origin", Answer(without).status in (400, 405), without)
    # Sources are answered as ever.
    body = b"".join(stream(77, 4))
    for fields in ((), (b"Expect: 100-continue",)):
        answer = shared.ask(request(b"PUT", BASIC, b"Content-Length: %d" % len(body), *fields), body)
        told.check("a source", b" 200 " in answer and b"Allow-Origin" not in answer, answer)
    for station in (plain, shared):
        told.check("standard error", b"fault" not in station.stop())
    return told.end()


def nameless(got):
    """An answer without the name of a cut, which has the time of the question in it if that is its end."""
    return re.sub(rb'filename="[^"]*"', b"", got)


def pesters(program, work):
    told, source = Told(), random.Random(31)
    folder = made(work, "pesters")
    station = Station(program, folder, "--most-bytes", "1500", "--every", "1000w")
    filled(station, (78, 79), 40)
    files = files_of(folder)
    numbers = [number for number, *_ in files]
    # What no line of times tells of yet is as old as the question, so it lies after this time, whenever that is asked.
    cut = b"/from/-1h/to/-1s"
    time.sleep(2.5)
    targets = [b"/files", cut, b"/from/junk", b"/from/2001-01-01T00:00:00Z/to/2001-01-02T00:00:00Z", b"/file/007"]
    targets += [b"/file/%d" % number for number in (*numbers, 0, 99)]
    asked = [get(target, method=method) for target in targets for method in (b"GET", b"HEAD")]
    ranges = (b"0-0", b"7-99", b"-5", b"9999999-", b"5-2", b"0-1,3-4")
    asked += [get(target, b"Range: bytes=" + text) for target in (b"/file/1", cut) for text in ranges]
    asked += [get(b"/file/1", b"If-None-Match: *"), get(b"/files", method=b"POST"), get(b"/file/1", version=b"1.1")]
    expected = {text: station.ask(text) for text in asked}
    # What is heard from a time on has no end: all that is kept, and then nothing more comes.
    live = get(b"/from/-1h")
    with station.connect() as one:
        one.sendall(live)
        expected[live] = read_until(one, b"\r\n\r\n")
        one.settimeout(2)
        with contextlib.suppress(TimeoutError):
            while piece := one.recv(65536):
                expected[live] += piece
    got = bodies_of(pages_in(expected[live].partition(b"\r\n\r\n")[2]))
    told.check("all that is kept is heard", got == [it for data in pages_of(folder) for it in bodies_of(pages_in(data))], len(got))
    told.check("what is asked for is there", sum(b" 200 OK" in it[:20] for it in expected.values()) > 10)

    def plain(text, got):
        """Without the newest file in a list, whose end is the time of the question."""
        return got.partition(b"\nfile %d " % numbers[-1])[0] if text.startswith(b"GET /files") else nameless(got)

    for turn in range(500):
        text = source.choice([*asked, live, live])
        want = expected[text]
        kind = source.choice(["whole", "halves", "bytes", "more", "away", "half", "none", "long"])
        if text is live and kind != "half":
            kind = "away"
        if kind == "halves":
            cut = source.randrange(1, len(text))
            got = station.ask(text[:cut], text[cut:])
        elif kind == "bytes":
            got = station.ask(*(text[at : at + 1] for at in range(len(text))))
        elif kind == "more":
            got = station.ask(text + text)
            want = want[: len(got)]
        elif kind == "away":
            most = source.randrange(1, 5000)
            with station.connect() as one:
                one.sendall(text)
                got = b""
                while len(got) < min(most, len(want)):
                    piece = one.recv(source.choice([1, 7, 700]))
                    if not piece:
                        break
                    got += piece
            told.check("%s: enough of %r" % (kind, text), len(got) >= min(most, len(want)), len(got))
            want = want[: len(got)]
        elif kind in ("half", "none"):
            with station.connect() as one:
                one.sendall(text[: 0 if kind == "none" else source.randrange(1, len(text) - 4)])
                one.shutdown(socket.SHUT_WR)
                got = read_all(one)
            want = b""
        elif kind == "long":
            got = station.ask(text[: text.index(b"\r\n")] + b"\r\nX: " + b"y" * 8192)
            told.check("%s: %r" % (kind, text), got.startswith(b"HTTP/1.1 400 "), got[:100])
            continue
        else:
            got = station.ask(text)
        told.check("%s: %r" % (kind, text), plain(text, got) == plain(text, want), got[:200], want[:200])
    told.check("it goes on", b"kudzuturret_connections" in station.ask(get(b"/status")))
    told.check("standard error", b"fault" not in station.stop())
    return told.end()


def read_until(one, text):
    """What comes until this text is there, or no more."""
    got = b""
    while text not in got:
        piece = one.recv(65536)
        if not piece:
            break
        got += piece
    return got


if __name__ == "__main__":
    ways = {"answers": answers, "grows": grows, "goes": goes, "from": from_times, "follows": follows, "origins": origins, "pesters": pesters}
    sys.exit(ways[sys.argv[1]](*sys.argv[2:]))
