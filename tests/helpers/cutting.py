#!/usr/bin/env python3
"""What `cut` must give of an archive, as the tests' own plain program says.

    cutting.py cuts PROGRAM COUNT       COUNT random pairs of times, over archives that are made by hand
    cutting.py parts PROGRAM COUNT      COUNT random divisions of time: the parts together have each packet once
    cutting.py clocks PROGRAM COUNT     the same of archives whose clock stood still, went back or ran ahead, and COUNT pairs
    cutting.py growing PROGRAM          an archive that is recorded, with restarts, while it is cut: parts of the time so far
    cutting.py filled PROGRAM           links that begin just before a file ends, and files that are full within a commit
    cutting.py odd PROGRAM              times that are missing, torn or wrong, files that are damaged or gone, clocks
    cutting.py damaged PROGRAM          three files of which one is damaged in the middle: it is left out, which is told
    cutting.py again PROGRAM            links that have the serials of links before, with Skeletons and without
    cutting.py untold PROGRAM           what no line of times tells of yet, cut up to now and from now on
    cutting.py meeting PROGRAM          two files of which the second goes on with the first, or doesn't for one reason

An archive is a list of files, and a file one of commands, each with when it was committed. A line of times is written
after a commit that comes a second or more after the line before, and after one that ends a link, or the file. A command
has the time of the first line that tells of it, or else that of the next file's beginning. What `cut` writes are pages;
their links, streams and packets are compared with what the commands put.

A file named `-on` goes on with the link before, if that was cut up to its file's end, where its last commands end what
was open, in order, as many streams as go on, and if these began with the same packets, in order. Streams that end with
the Begin, or by the commands after it, go on with none. Lines of times must tell where both links' Begins end.
"""
import os
import random
import subprocess
import sys
import tempfile
import time

sys.path.insert(0, os.path.dirname(os.path.abspath(__file__)))
from finishing import finished, links_of, pages_of
from model import run_pages
from pages import page

# 2021-01-01T14:00:00Z
START = 1609509600000
# what a Skeleton's first packet begins with
SKELETON = b"fishead\0"


def told(moment):
    return time.strftime("%Y-%m-%dT%H:%M:%S", time.gmtime(moment // 1000)) + f".{moment % 1000:03}Z"


class File:
    """A file that is recorded: its bytes, its commands as (kind, what, end, when), and its lines of times."""

    def __init__(self, number, begin, goes_on=False):
        self.number, self.begin, self.goes_on = number, begin // 1000 * 1000, goes_on
        self.data, self.commands, self.lines = b"", [], []
        self.streams, self.skeleton, self.join, self.written = {}, None, None, None
        self.tail = b""

    def name(self):
        stamp = time.strftime("%Y%m%dT%H%M%SZ", time.gmtime(self.begin // 1000))
        return f"{self.number:06}-{stamp}{'-on' if self.goes_on else ''}"

    def begun(self, when, streams, skeleton=None):
        """`streams` has a serial and headers each. A Skeleton has its own serial, and ends with its last bone."""
        at = len(self.data)
        pages = [run_pages(serial, 0, 2, [(0, headers[0])])[0] for serial, headers in streams]
        self.streams = {serial: [1, 0, False] for serial, _ in streams}
        what = [[serial, list(headers)] for serial, headers in streams]
        if skeleton is not None:
            bones = [b"fisbone" + serial.to_bytes(4, "little") for serial, _ in streams]
            pages.insert(0, run_pages(skeleton, 0, 2, [(0, SKELETON)])[0])
            pages += [page(0, 0, skeleton, 1 + at, [len(bone)], bone) for at, bone in enumerate(bones)]
            self.streams = {skeleton: [2 + len(bones), 0, True], **self.streams}
            what.insert(0, [skeleton, [SKELETON] + bones])
        for serial, headers in streams:
            rest = run_pages(serial, 1, 0, [(0, header) for header in headers[1:]])
            self.streams[serial][0] += len(rest)
            pages += rest
        if skeleton is not None:
            pages.append(page(4, 0, skeleton, 1 + len(streams), [], b""))
        self.data += b"".join(pages)
        self.join = (at, len(self.data))
        self.note("begin", what, when)

    def put(self, when, items):
        """Each item has a serial, a position and a packet."""
        for serial in dict.fromkeys(serial for serial, _, _ in items):
            stream = self.streams[serial]
            own = [(position, packet) for one, position, packet in items if one == serial]
            pages = run_pages(serial, stream[0], 0, own)
            stream[0] += len(pages)
            stream[1] = own[-1][0]
            self.data += b"".join(pages)
        self.note("put", [(serial, packet) for serial, _, packet in items], when)

    def end(self, when, serial):
        stream = self.streams[serial]
        self.data += page(4, stream[1], serial, stream[0], [], b"")
        stream[2] = True
        if not self.is_open():
            self.join = None
        self.note("end", serial, when)

    def end_those(self, when, rng):
        """Ends the streams that end at once: their Begin may have been committed before."""
        for serial, headers in self.commands[-1][1]:
            later = when + rng.choice([0, 0, 1100])
            if headers[0] == b"ends at once" and rng.random() < 0.9 and later // 2000 == self.begin // 2000:
                self.end(later, serial)

    def is_open(self):
        return not all(ended for _, _, ended in self.streams.values())

    def open_serials(self):
        return [serial for serial, (_, _, ended) in self.streams.items() if not ended]

    def note(self, kind, what, when):
        self.commands.append((kind, what, len(self.data), when))
        if self.written is None or abs(when - self.written) >= 1000 or kind == "end" and not self.is_open():
            self.line(when)

    def line(self, when):
        last = self.lines[-1] if self.lines else (-1, 0, None)
        if last[0] < len(self.data):
            self.lines.append((len(self.data), max(last[1], when), self.join))
            self.written = when

    def times(self):
        return "".join(f"{offset} {when} " + ("%d %d\n" % join if join else "- -\n") for offset, when, join in self.lines)

    def cut_short(self):
        """The last command is gone."""
        self.commands.pop()
        self.data = self.data[: self.commands[-1][2]]
        self.lines = [line for line in self.lines if line[0] <= len(self.data)]

    def save(self, folder):
        with open(f"{folder}/{self.name()}.ogg", "wb") as out:
            out.write(self.data + self.tail)
        with open(f"{folder}/{self.name()}.times", "w") as out:
            out.write(self.times())


# ---- what a cut holds
def times_of(file, later, lines=None):
    """The time of each command."""
    lines = file.lines if lines is None else lines
    found = []
    for _, _, end, _ in file.commands:
        behind = [when for offset, when, _ in lines if offset >= end]
        when = max(behind[0] if behind else max([later] + [when for _, when, _ in lines]), file.begin)
        found.append(min(when, max(later + 1000, 0)))
    return found


def held(file, when, since, until):
    """The links that the file's cut holds: of each stream its serial and its packets."""
    links, begin, is_in, ended = [], None, False, set()
    for (kind, what, _, _), moment in zip(file.commands, when):
        chosen = (since is None or moment > since) and (until is None or moment <= until)
        if chosen and not is_in:
            is_in = True
            if begin is not None and kind != "begin":
                links.append([[serial, list(packets)] for serial, packets in begin])
        if kind == "begin":
            begin, ended = what, set()
            if chosen:
                links.append([[serial, list(packets)] for serial, packets in begin])
        elif kind == "put" and chosen:
            for serial, packet in what:
                [own] = [stream for stream in links[-1] if stream[0] == serial]
                own[1].append(packet)
        elif kind == "end":
            ended.add(what)
            if len(ended) == sum(1 for _, packets in begin if packets[0] != SKELETON):
                begin = None
    return links


# ---- files that go on with one another
class Chosen:
    """What is cut of a file: the number of its first command, and of the first that isn't."""

    def __init__(self, file, when, since, until):
        chosen = [at for at, moment in enumerate(when) if (since is None or moment > since) and (until is None or moment <= until)]
        self.file = file
        self.first, self.behind = (chosen[0], chosen[-1] + 1) if chosen else (0, 0)

    def begins(self):
        """The places of the Begins before the end."""
        return [at for at, (kind, _, _, _) in enumerate(self.file.commands[: self.behind]) if kind == "begin"]

    def end(self):
        return self.file.commands[self.behind - 1][2]

    def joins(self):
        """The links of which lines tell, up to the end."""
        return [join for offset, _, join in self.file.lines if join and offset <= self.end()]

    def open_at(self, begin, behind):
        """The streams of this Begin that are open before the command, in order, with what they began with."""
        ended = {what for kind, what, _, _ in self.file.commands[begin + 1 : behind] if kind == "end"}
        return [(serial, packets[0]) for serial, packets in self.file.commands[begin][1] if packets[0] != SKELETON and serial not in ended]

    def going_on(self):
        """The streams with which the file goes on, and which command comes after those that belong to its Begin."""
        joins = self.joins()
        if self.first != 0 or self.behind == 0 or not joins or joins[0][0] != 0:
            return [], 0
        behind = 1
        while behind < self.behind and self.file.commands[behind][0] == "end":
            behind += 1
        return self.open_at(0, behind), behind

    def stays_open(self, count):
        """The streams that the last commands end, if they are as many."""
        joins, begins = self.joins(), self.begins()
        if self.behind < len(self.file.commands) or not begins or self.file.tail:
            return None
        begin, behind = begins[-1], self.behind - count
        begun = self.file.commands[begin - 1][2] if begin else 0
        if (joins[-1][0] if joins else 0) != begun or behind <= begin or behind < self.first:
            return None
        found = self.open_at(begin, behind)
        ends = [what for kind, what, _, _ in self.file.commands[behind:] if kind == "end"]
        return found if ends == [serial for serial, _ in found] else None


def goes_on(before, after):
    """The serials of the streams that go on with one another, and the number of the first command that goes on."""
    if not after.file.goes_on or after.file.number != before.file.number + 1:
        return None
    going, behind = after.going_on()
    found = before.stays_open(len(going)) if going else None
    if not found or [first for _, first in found] != [first for _, first in going]:
        return None
    return {new: old for (new, _), (old, _) in zip(going, found)}, behind


def packets_of(own):
    """The packets of a stream's pages, whose numbers and flags are looked at."""
    packets, rest = [], b""
    for at, (flags, _, _, sequence, lacing, body, _) in enumerate(own):
        assert sequence == at, ("number", sequence, at)
        assert bool(flags & 2) == (at == 0) and bool(flags & 4) == (at == len(own) - 1), ("flags", at, flags)
        assert bool(flags & 1) == bool(rest), ("continued", at)
        for value in lacing:
            rest, body = rest + body[:value], body[value:]
            if value < 255:
                packets.append(rest)
                rest = b""
    assert not rest
    return packets


def links_in(data):
    found = []
    for link in links_of(pages_of(data)):
        serials = [one[2] for one in link if one[0] & 2]
        found.append([[serial, packets_of([one for one in link if one[2] == serial])] for serial in serials])
    return found


# ---- runs
class Archive:
    def __init__(self, program, folder, files):
        self.program, self.folder, self.files = program, folder, files
        # How many times a file went on with the one before.
        self.joined = 0

    def laters(self):
        return [file.begin for file in self.files[1:]] + [int(time.time() * 1000)]

    def times(self):
        return [times_of(file, later) for file, later in zip(self.files, self.laters())]

    def run(self, since, until, *more):
        words = [self.program, "cut", self.folder, *more]
        words += ["--since", told(since)] if since is not None else []
        words += ["--until", told(until)] if until is not None else []
        return subprocess.run(words, capture_output=True, timeout=60)

    def want(self, since, until):
        links, before, names = [], None, {}
        for file, when in zip(self.files, self.times()):
            found = held(file, when, since, until)
            if not found:
                continue
            after = Chosen(file, when, since, until)
            on = goes_on(before, after) if before else None
            if on:
                # Under which serials the streams are in the cut.
                names = {new: names.get(old, old) for new, old in on[0].items()}
                begun = {serial: len(packets) for serial, packets in file.commands[0][1]}
                for serial, packets in found[0]:
                    if serial in names:
                        [own] = [stream for stream in links[-1] if stream[0] == names[serial]]
                        own[1] += packets[begun[serial] :]
                found = found[1:]
                self.joined += 1
            if found or not on:
                names = {}
            links += found
            before = after
        return links

    def compare(self, since, until):
        """Whether the cut between two times has the right links, and is told."""
        want = self.want(since, until)
        raw = self.run(since, until, "--raw")
        if not want:
            assert (raw.returncode, raw.stdout, raw.stderr) == (1, b"", b"fault cut 1 Nothing\n"), raw
            return
        assert raw.returncode == 0, raw
        assert links_in(raw.stdout) == want, (links_in(raw.stdout), want)
        self.compare_told(since, until, raw, len(want))
        whole = self.run(since, until)
        links = links_of(pages_of(raw.stdout))
        assert whole.stdout == b"".join(finished(link) for link in links), "finished"
        # A gap up to now is one of another end.
        gaps, other = raw.stderr.splitlines()[1:], whole.stderr.splitlines()[1:]
        assert [gap.split()[:3] for gap in gaps] == [gap.split()[:3] for gap in other], (gaps, other)
        assert whole.stderr.splitlines()[0].endswith(b" %d bytes" % len(whole.stdout)), whole.stderr

    def compare_told(self, since, until, ran, links):
        chosen = [[one for one in when if (since is None or one > since) and (until is None or one <= until)] for when in self.times()]
        some = [moment for when in chosen for moment in when]
        files = sum(1 for when in chosen if when)
        # The newest may be told of with a later moment: what follows its last line has the time of now.
        first = ran.stderr.decode().splitlines()[0].split()
        assert first[:2] == ["cut", told(some[0])] and first[3:] == f"{files} files {links} links {len(ran.stdout)} bytes".split(), (
            ran.stderr,
            told(some[0]),
            files,
            links,
        )
        assert first[2] == told(some[-1]) or self.files[-1].lines[-1][0] < len(self.files[-1].data), (first, told(some[-1]))


def headers_of(rng, serial):
    return [b"head %d" % serial] + [rng.randbytes(rng.choice([3, 254, 255, 700])) for _ in range(rng.randrange(3))]


def begun_again(rng, file, streams, serial):
    """The streams of the next file's Begin: mostly those that are open, in order, and such as end at once."""
    going = [headers for one, headers in streams if one in file.open_serials() or headers[0] == b"ends at once" and rng.random() < 0.7]
    kind = rng.randrange(20)
    if kind == 0:
        going = [headers for _, headers in streams]
    elif kind == 1:
        rng.shuffle(going)
    elif kind == 2:
        going[0] = [b"another", *going[0][1:]]
    elif kind == 3:
        going.append([b"one more"])
    return [(serial + at, headers) for at, headers in enumerate(going)]


def recorded(rng, folder, count=None, jumps=False):
    """An archive of files of two seconds and some links; it is saved. With jumps its clock is set at times."""
    when, number, serial = START + rng.randrange(1000), 1, 100
    files = [File(1, when)]
    file, streams, skeleton, position, packet = files[0], [], None, 0, 0
    for _ in range(count or rng.randrange(5, 120)):
        when += rng.choice([0, 0, 30, 200, 400, 1100, 1100, 12000 if rng.random() < 0.1 else 90])
        if jumps and rng.random() < 0.1:
            when = max(when + rng.choice([-300, -1500, -4000, -90000, 20000, 3600000]), START - 200000)
        if when // 2000 != file.begin // 2000:
            # The next file, which goes on with the link if one is open.
            goes_on = file.is_open() and rng.random() < 0.9
            serial += 10
            again = begun_again(rng, file, streams, serial) if goes_on else []
            if file.is_open():
                for one in file.open_serials():
                    file.end(when, one)
            file.line(when)
            number += 1 if rng.random() < 0.9 else 3
            file = File(number, when, goes_on)
            files.append(file)
            if goes_on:
                streams = again
                skeleton = None if skeleton is None else serial + 9
                file.begun(when, streams, skeleton)
                file.end_those(when, rng)
                continue
        if not file.is_open():
            serial += 10
            streams = [(serial + at, headers_of(rng, serial + at)) for at in range(rng.choice([1, 1, 2, 3]))]
            # What an importer takes of a Skeleton of its input: it ends after the Begin.
            if rng.random() < 0.2:
                streams.insert(rng.randrange(len(streams) + 1), (serial + 8, [b"ends at once", b"bone"]))
            skeleton = serial + 9 if rng.random() < 0.3 else None
            file.begun(when, streams, skeleton)
            file.end_those(when, rng)
            continue
        open_serials = file.open_serials()
        if rng.random() < 0.08:
            file.end(when, rng.choice(open_serials))
            continue
        items = []
        for one in rng.sample(open_serials, rng.randrange(1, len(open_serials) + 1)):
            for _ in range(rng.choice([1, 1, 2])):
                position += rng.choice([0, 1, 960])
                packet += 1
                items.append((one, position, b"packet %d " % packet + bytes(rng.choice([0, 1, 240, 255, 1000, 70000 if rng.random() < 0.03 else 5]))))
        file.put(when, items)
    if rng.random() < 0.5:
        for one in file.open_serials():
            file.end(when, one)
    file.line(when)
    # The newest may have what isn't committed yet.
    if rng.random() < 0.7:
        files[-1].tail = b"\0" + rng.randbytes(rng.choice([0, 5, 300]))
    for file in files:
        file.save(folder)
    return files


def a_time(rng, files):
    last = files[-1].lines[-1][1] if files[-1].lines else files[-1].begin
    marks = [when for file in files for _, when, _ in file.lines] + [file.begin for file in files]
    kind = rng.randrange(4)
    if kind == 0:
        return rng.choice(marks) + rng.choice([-1, 0, 1])
    return rng.randrange(min([START, *marks]) - 2000, max([last, *marks]) + 3000)


def cuts(program, count):
    rng = random.Random(63)
    while count > 0:
        with tempfile.TemporaryDirectory() as folder:
            archive = Archive(program, folder, recorded(rng, folder))
            for _ in range(min(20, count)):
                since, until = sorted([a_time(rng, archive.files), a_time(rng, archive.files)])
                archive.compare(since if rng.random() < 0.9 else None, until if rng.random() < 0.9 else None)
                count -= 1


def clocks(program, count):
    rng = random.Random(66)
    while count > 0:
        with tempfile.TemporaryDirectory() as folder:
            archive = Archive(program, folder, recorded(rng, folder, 80, True))
            for _ in range(min(20, count)):
                since, until = sorted([a_time(rng, archive.files), a_time(rng, archive.files)])
                archive.compare(since if rng.random() < 0.9 else None, until if rng.random() < 0.9 else None)
                count -= 1


def parts(program, count, jumps=False):
    """Each packet is in one part, in its order."""
    rng = random.Random(64)
    for _ in range(count):
        with tempfile.TemporaryDirectory() as folder:
            archive = Archive(program, folder, recorded(rng, folder, jumps=jumps))
            times = sorted(a_time(rng, archive.files) for _ in range(rng.randrange(1, 6)))
            bounds = [None, *times, None]
            found = []
            for since, until in zip(bounds, bounds[1:]):
                ran = archive.run(since, until)
                assert ran.returncode == 0 or ran.stderr == b"fault cut 1 Nothing\n", ran
                found += [packet for link in links_in(ran.stdout) for _, packets in link for packet in packets if packet.startswith(b"packet ")]
            put = [packet for file in archive.files for kind, what, _, _ in file.commands if kind == "put" for _, packet in what]
            assert sorted(found) == sorted(put), (len(found), len(put))


def odd(program):
    rng = random.Random(65)
    for _ in range(40):
        with tempfile.TemporaryDirectory() as folder:
            files = recorded(rng, folder, 60)
            archive = Archive(program, folder, files)
            file = rng.choice(files)
            path = f"{folder}/{file.name()}"
            kind = rng.randrange(7)
            if kind == 0:
                # No times: the whole file has the time at which the next one was begun.
                os.remove(path + ".times")
                file.lines = []
            elif kind == 1:
                # A torn line, and one that doesn't rise.
                keep = rng.randrange(len(file.lines) + 1)
                text = "".join(file.times().splitlines(True)[:keep])
                file.lines = file.lines[:keep]
                with open(path + ".times", "w") as out:
                    out.write(text + rng.choice(["12", "x\n", "0 0 - -\n" if keep else "1 2 3\n", "99999999999 1 - -\n", "\n"]))
            elif kind == 2:
                # Another name.
                open(f"{folder}/{rng.choice(['lock', 'note.txt', 'x.ogg', '1-20261128T140000Z.ogg'])}", "w").close()
            elif kind == 3:
                # Gone.
                os.remove(path + ".ogg")
                files.remove(file)
            elif kind == 6 and len(file.commands) > 1:
                # Cut short: the file after it doesn't go on with it.
                file.cut_short()
                file.save(folder)
            elif kind == 4 and len(file.data) > 60:
                # Damaged in a head: the file is left out.
                at = rng.randrange(4)
                with open(path + ".ogg", "r+b") as out:
                    out.seek(at)
                    out.write(b"x")
                file.commands = []
            if not files or kind == 3 and not files:
                continue
            for _ in range(5):
                since, until = sorted([a_time(rng, files), a_time(rng, files)])
                want = archive.want(since, until)
                ran = archive.run(since, until, "--raw")
                assert (ran.returncode, links_in(ran.stdout)) == (0 if want else 1, want), (kind, ran.stderr, links_in(ran.stdout), want)


def again(program):
    """Serials that stood in a link before stay if a Skeleton speaks of them. All links are finished."""
    for skeletons in (70, 70), (None, 70), (70, 71):
        with tempfile.TemporaryDirectory() as folder:
            file = File(1, START)
            for at, skeleton in enumerate(skeletons):
                when = START + 5000 * at
                file.begun(when, [(7, [b"head"])], skeleton)
                file.put(when + 1200, [(7, 960, b"packet of link %d" % at)])
                file.end(when + 2400, 7)
            file.save(folder)
            Archive(program, folder, [file]).compare(None, None)


def damaged(program):
    """One of three files is damaged in a head in its middle. It is left out, and that is told however short it is."""
    for length in 2000, 60000:
        for broken in range(3):
            with tempfile.TemporaryDirectory() as folder:
                begins = [START + length * at for at in range(4)]
                files = [File(1 + at, begin, at > 0) for at, begin in enumerate(begins[:3])]
                for at, file in enumerate(files):
                    serial = 10 * (1 + at)
                    file.begun(begins[at], [(serial, [b"head"])])
                    for number in range(1, 9):
                        file.put(begins[at] + length * number // 10, [(serial, 960 * (8 * at + number), b"packet %d of %d" % (number, at))])
                    file.end(begins[at + 1], serial)
                    file.save(folder)
                file = files[broken]
                with open(f"{folder}/{file.name()}.ogg", "r+b") as out:
                    out.seek(file.data.rindex(b"OggS", 0, len(file.data) // 2))
                    out.write(b"x")
                file.commands = []
                archive = Archive(program, folder, files)
                ran = archive.run(None, None, "--raw")
                assert ran.returncode == 0 and links_in(ran.stdout) == archive.want(None, None), (length, broken, ran.stderr)
                lines = ran.stderr.decode().splitlines()
                assert lines[0].split()[3:5] == ["2", "files"], lines
                # What follows the last file is nothing up to now.
                until = told(begins[broken + 1]) if broken < 2 else lines[1].split()[-1]
                assert lines[1] == f"nothing from {told(begins[broken])} to {until}", (length, broken, lines)
                if length > 10000:
                    # Up to the damage nothing is left out.
                    before = archive.run(None, begins[broken] + length // 10, "--raw")
                    assert b"packet 1 of %d" % broken in before.stdout and b"nothing from " not in before.stderr, (broken, before)


def growing(program):
    """What is sent at a known pace is recorded into files of two seconds, by programs that are stopped. What is cut from the
    moment of each cut to that of the next, while it is recorded, has each packet once, in order."""
    with tempfile.TemporaryDirectory() as folder:
        told_at, found, sent, cut = [None], [], 0, 0

        def cut_up_to(until):
            nonlocal cut
            words = [program, "cut", f"{folder}/kept", *(["--since", told(told_at[-1])] if told_at[-1] is not None else [])]
            words += ["--until", told(until)] if until is not None else []
            ran = subprocess.run(words, capture_output=True, timeout=60)
            assert ran.returncode == 0 or (ran.returncode, ran.stdout) == (1, b""), ran
            assert ran.returncode == 0 or ran.stderr.endswith(b"fault cut 1 Nothing\n"), ran
            for link in links_in(ran.stdout):
                for _, packets in link:
                    found.extend(packet for packet in packets if packet.startswith(b"packet "))
            told_at.append(until)
            cut += ran.returncode == 0

        for run in range(4):
            words = [program, "archive", f"{folder}/kept/", "--every", "2s"]
            with open(f"{folder}/err", "ab") as err:
                recorder = subprocess.Popen(words, stdin=subprocess.PIPE, stderr=err)
            serial = 1000 + run
            recorder.stdin.write(page(2, 0, serial, 0, [4], b"head"))
            end = time.monotonic() + 3.3
            number = 0
            while time.monotonic() < end:
                number += 1
                body = b"packet %d" % sent
                recorder.stdin.write(page(0, 960 * number, serial, number, [len(body)], body))
                recorder.stdin.flush()
                sent += 1
                time.sleep(0.02)
                if number % 20 == 0:
                    # A line of times may be written late.
                    cut_up_to(int(time.time() * 1000) - 1500)
            recorder.stdin.close()
            assert recorder.wait(30) == 0
        cut_up_to(None)
        assert cut > 9, cut
        assert len([name for name in os.listdir(f"{folder}/kept") if name.endswith(".ogg")]) >= 6
        assert found == [b"packet %d" % at for at in range(sent)], (sent, len(found), found[:3], found[-3:])


def untold(program):
    """What no line of times tells of yet comes after all times up to now, whichever of the two is asked for first."""
    with tempfile.TemporaryDirectory() as folder:
        file = File(1, START)
        file.begun(START, [(7, [b"head"])])
        file.put(START + 1200, [(7, 960, b"told")])
        file.put(START + 2400, [(7, 1920, b"untold")])
        file.lines.pop()
        file.save(folder)
        for _ in range(100):
            got = [subprocess.run([program, "cut", folder, *when], capture_output=True, timeout=60) for when in (["--until", "-0s"], ["--since", "-0s"], [])]
            assert [one.returncode for one in got] == [0, 0, 0], got
            told = [links_in(one.stdout) for one in got]
            assert told == [[[[7, [b"head", *packets]]]] for packets in ([b"told"], [b"untold"], [b"told", b"untold"])], told


def page_of(serial, number, flags=0):
    body = b"head" if flags & 2 else b"packet %d" % number
    return page(flags, 960 * number, serial, number, [len(body)], body)


def filled(program):
    """Where a link goes on in the next file is known however short it was open before: it is one link of the cut."""
    with tempfile.TemporaryDirectory() as folder:
        # Each file has as much as is recorded at once.
        count = 2000
        pages = [page_of(7, 0, 2), *[page_of(7, number) for number in range(1, count)], page_of(7, count, 4)]
        words = [program, "archive", f"{folder}/full/", "--most-bytes", "2000"]
        ran = subprocess.run(words, input=b"".join(pages), capture_output=True, timeout=60)
        assert ran.returncode == 0, ran
        assert len([name for name in os.listdir(f"{folder}/full") if name.endswith(".ogg")]) > 9, ran.stderr
        want = [[[7, [b"head", *[b"packet %d" % number for number in range(1, count + 1)]]]]]
        ran = subprocess.run([program, "cut", f"{folder}/full", "--raw"], capture_output=True, timeout=60)
        assert ran.returncode == 0 and links_in(ran.stdout) == want, (ran.stderr, len(links_in(ran.stdout)))
        # The second link begins a moment before the next file.
        words = [program, "archive", f"{folder}/late/", "--every", "2s"]
        with open(f"{folder}/err", "wb") as err:
            recorder = subprocess.Popen(words, stdin=subprocess.PIPE, stderr=err)

        def give(*pages):
            recorder.stdin.write(b"".join(pages))
            recorder.stdin.flush()

        time.sleep(2.1 - time.time() % 2)
        give(page_of(7, 0, 2), page_of(7, 1))
        time.sleep(1.6)
        give(page_of(7, 2, 4), page_of(8, 0, 2), page_of(8, 1))
        time.sleep(0.6)
        give(page_of(8, 2), page_of(8, 3, 4))
        recorder.stdin.close()
        assert recorder.wait(30) == 0
        assert len([name for name in os.listdir(f"{folder}/late") if name.endswith("-on.ogg")]) == 1, os.listdir(f"{folder}/late")
        want = [[[7, [b"head", b"packet 1", b"packet 2"]]], [[8, [b"head", b"packet 1", b"packet 2", b"packet 3"]]]]
        ran = subprocess.run([program, "cut", f"{folder}/late", "--raw"], capture_output=True, timeout=60)
        assert ran.returncode == 0 and links_in(ran.stdout) == want, (ran.stderr, links_in(ran.stdout))


def meeting(program):
    """The whole of two files, a link a line of which says what keeps them apart."""
    one, two, three = (7, [b"first of one", b"more"]), (8, [b"first of two"]), (9, [b"first of three"])

    def files(streams=(one, two), again=((17, one[1]), (18, two[1])), ends=None, skeleton=None, again_skeleton=None, goes_on=True, number=2):
        old, new = File(1, START), File(number, START + 2000, goes_on)
        old.begun(START, streams, skeleton)
        old.put(START + 1200, [(serial, 960, b"packet %d" % serial) for serial, _ in streams])
        for serial in ends if ends is not None else [serial for serial, _ in streams]:
            old.end(START + 2000, serial)
        old.line(START + 2000)
        new.begun(START + 2000, again, again_skeleton)
        new.put(START + 3300, [(serial, 1920, b"packet %d" % serial) for serial, _ in again])
        new.line(START + 4000)
        return [old, new]

    def no_more(files, ended):
        """The second file has nothing after its Begin, but perhaps what ends its streams."""
        new = files[1]
        new.data, new.commands = new.data[: new.commands[0][2]], new.commands[:1]
        new.lines = [line for line in new.lines if line[0] <= len(new.data)]
        for serial in new.streams:
            new.streams[serial][1] = 0
            if ended:
                new.streams[serial][0] -= 1
                new.end(START + 3300, serial)
        return files

    def without_line(files, which):
        files[which].lines = [(offset, when, None) for offset, when, _ in files[which].lines]
        return files

    def with_tail(files):
        files[0].tail = b"\0"
        return files

    def short(files):
        files[0].cut_short()
        return files

    def other_streams(files):
        """A page after the end pages, of a link that begins and ends at once."""
        files[0].begun(START + 2000, [three])
        files[0].end(START + 2000, 9)
        return files

    def far_on(files):
        """The numbers of the file before are nearly used up."""
        files[0].streams[7][0] = 2**32 - 3
        files[0].data, files[0].commands, files[0].lines, files[0].written = b"", [], [], None
        files[0].data += page(2, 0, 7, 2**32 - 4, [len(one[1][0])], one[1][0])
        files[0].join = (0, len(files[0].data))
        files[0].note("begin", [[7, [one[1][0]]]], START)
        files[0].end(START + 2000, 7)
        return files

    cases = {
        "they go on": (files(), 1),
        "in order": (files(again=((18, two[1]), (17, one[1]))), 2),
        "a Skeleton in both": (files(skeleton=70, again_skeleton=71), 1),
        "a Skeleton in the second alone": (files(again_skeleton=71), 1),
        "a Skeleton in the first alone": (files(skeleton=70), 1),
        "one stream less": (files(again=((17, one[1]),)), 2),
        "one stream more": (files(again=((17, one[1]), (18, two[1]), (19, three[1]))), 2),
        "another first packet": (files(again=((17, one[1]), (18, [b"other"]))), 2),
        "ended in another order": (files(ends=[8, 7]), 2),
        "no mark in the name": (files(goes_on=False), 2),
        "a number between": (files(number=3), 2),
        "cut short": (short(files()), 2),
        "a byte after the pages": (with_tail(files()), 2),
        "a link after the pages": (other_streams(files()), 3),
        "no line tells of the first Begin": (without_line(files(), 0), 1),
        "no line tells of the second Begin": (without_line(files(), 1), 2),
        "one stream": (files(streams=(one,), again=((17, one[1]),)), 1),
        "nothing after the second Begin": (no_more(files(), False), 1),
        "nothing but ends after the second Begin": (no_more(files(), True), 2),
        "numbers are used up": (far_on(files(streams=(one,), again=((17, one[1]),))), 2),
    }
    for name, (made, count) in cases.items():
        with tempfile.TemporaryDirectory() as folder:
            for file in made:
                file.save(folder)
            archive = Archive(program, folder, made)
            ran = archive.run(None, None, "--raw")
            links = links_of(pages_of(ran.stdout))
            assert len(links) == count, (name, count, len(links), ran.stderr)
            last = {}
            for flags, position, serial, *_ in pages_of(ran.stdout):
                last[serial] = 0 if flags & 2 else last[serial]
                assert position >= last[serial], (name, "position", serial, position, last[serial])
                last[serial] = position
            if name != "numbers are used up":
                assert links_in(ran.stdout) == archive.want(None, None), (name, links_in(ran.stdout), archive.want(None, None))


def main():
    try:
        if sys.argv[1] == "cuts":
            cuts(sys.argv[2], int(sys.argv[3]))
        elif sys.argv[1] == "meeting":
            meeting(sys.argv[2])
        elif sys.argv[1] == "damaged":
            damaged(sys.argv[2])
        elif sys.argv[1] == "again":
            again(sys.argv[2])
        elif sys.argv[1] == "parts":
            parts(sys.argv[2], int(sys.argv[3]))
        elif sys.argv[1] == "clocks":
            clocks(sys.argv[2], int(sys.argv[3]))
            parts(sys.argv[2], int(sys.argv[3]) // 10, True)
        elif sys.argv[1] == "filled":
            filled(sys.argv[2])
        elif sys.argv[1] == "growing":
            growing(sys.argv[2])
        elif sys.argv[1] == "untold":
            untold(sys.argv[2])
        else:
            odd(sys.argv[2])
    except AssertionError as fault:
        print(fault)
        raise


if __name__ == "__main__":
    main()
