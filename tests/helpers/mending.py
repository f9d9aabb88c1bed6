#!/usr/bin/env python3
"""What `feed --mend` and `archive` must make of any bytes, by a plain program of the tests' own (crates/import_mend/specs).

    mending.py PROGRAM damage       the damaged files of reading.py
    mending.py PROGRAM broken       small files that are cut, joined midway, with pages left out, doubled or swapped, ..
    mending.py PROGRAM random       random files, the same in each run
    mending.py PROGRAM sound        sound files: the same feed as without `--mend`, and nothing is told
    mending.py PROGRAM archived     all these files but the sound ones, and more random ones, by `archive`

Compared are the `mended` lines, and for each link its streams in order, each with its serial, its packets, their positions
and its end. A link's headers have no positions in a feed. In an archive all streams have ended, each has a serial of its
own, and packets whose positions go back, or are none, are refused.
"""
import itertools
import os
import random
import subprocess
import sys
import tempfile
import zlib

sys.path.insert(0, os.path.dirname(os.path.abspath(__file__)))
import pages as spelling
import reading
from model import BEGIN, END, PUT, mux, random_feed, records
from pages import page

CONTINUED, FIRST, LAST = 1, 2, 4
NUMBERS = 2**32
LONGEST_PACKET = 8388608
NAMES = ["", "Junk", "Gap", "Restart", "Stranger", "Repeated", "Unfinished", "TooLong", "Misshapen", "Full"]
JUNK, GAP, RESTART, STRANGER, REPEATED, UNFINISHED, TOO_LONG, MISSHAPEN, FULL = range(1, 10)


MIRRORED = bytes(int("{:08b}".format(byte)[::-1], 2) for byte in range(256))


def checksum(data):
    """The page checksum by `zlib`, whose polynomial is the same with its bits in the other order."""
    rest = zlib.crc32(data.translate(MIRRORED), 0xFFFFFFFF) ^ 0xFFFFFFFF
    return int("{:032b}".format(rest)[::-1], 2)


assert checksum(b"123456789") == spelling.checksum(b"123456789")
spelling.checksum = reading.checksum = checksum


class Page:
    def __init__(self, offset, parts):
        self.offset = offset
        self.flags, self.position, self.serial, self.number, self.lacing, self.body, self.end = parts
        # The segments of the page, in packets: each as its bytes, and whether it ends in the page.
        self.parts, at, part = [], 0, b""
        for value in self.lacing:
            part += self.body[at : at + value]
            at += value
            if value < 255:
                self.parts.append((part, True))
                part = b""
        if self.lacing and self.lacing[-1] == 255:
            self.parts.append((part, False))

    def has(self, flag):
        return bool(self.flags & flag)

    def is_one_packet(self):
        return not self.has(CONTINUED) and [ends for _, ends in self.parts] == [True]


def good_pages(data):
    """The good pages, each as soon as one can begin: the bytes before it that are of no page are passed over."""
    at = junk = 0
    while at < len(data):
        parts, fault = reading.split(data, at)
        if fault is None:
            yield junk, Page(at, parts)
            junk, at = 0, parts[6]
            continue
        after = data.find(b"OggS", at + 1)
        after = len(data) if after < 0 else after
        junk, at = junk + after - at, after
    yield junk, None


class Stream:
    """A stream of a link: what it has so far, and what its next page must be like."""

    def __init__(self, first):
        self.serial = first.serial
        # Each packet with the position of the page that it ends in, and of the one that goes on its bytes.
        self.packets, self.open = [(first.body, None)], None
        self.position = first.position if first.position < 2**63 else 0
        self.ended = first.has(LAST)
        # The number that comes next in the input, and the one that is given next.
        self.due = self.given = first.number + 1

    def leaves_number(self, one):
        return self.given < NUMBERS - 1 or one.has(LAST) and self.given < NUMBERS

    def take(self, one, joined):
        parts = list(one.parts)
        if not joined:
            self.open = None
            if one.has(CONTINUED):
                # Its beginning isn't there.
                parts = parts[1:]
        if one.has(LAST) and parts and not parts[-1][1]:
            # Its end will never come.
            parts = parts[:-1]
        for part, ends in parts:
            part = (self.open or b"") + part
            self.open = None if ends else part
            if ends:
                self.packets.append((part, one.position))
        if one.position < 2**63:
            self.position = one.position
        self.ended = one.has(LAST)
        self.due, self.given = one.number + 1, self.given + 1

    def end(self):
        self.open, self.ended = None, True


class Mending:
    def __init__(self):
        self.links, self.told = [], []
        self.has_data = False
        # The link's streams were told to a recorder: its strangers are told anew.
        self.begun, self.strangers = True, set()

    def tell(self, *numbers):
        self.told.append("mended %d %s %s" % (numbers[0], NAMES[numbers[0]], " ".join(map(str, numbers[1:]))))

    def is_open(self):
        return bool(self.links) and any(not stream.ended for stream in self.links[-1].values())

    def begin(self):
        if not self.begun:
            self.begun, self.strangers = True, set()

    def take_first(self, one):
        if not one.is_one_packet():
            return self.tell(MISSHAPEN, one.offset, one.serial)
        restarts = self.is_open() and (self.has_data or one.serial in self.links[-1])
        joins = self.is_open() and not restarts
        if (len(self.links[-1]) >= 64 if joins else len(self.links) >= 65536):
            return self.tell(FULL, one.offset, one.serial)
        if not (one.number < NUMBERS - 1 or one.has(LAST)):
            return self.tell(FULL, one.offset, one.serial)
        if restarts:
            self.tell(RESTART, one.offset)
            for stream in self.links[-1].values():
                stream.end()
        if not joins:
            self.begin()
            self.links.append({})
            self.has_data, self.begun = False, False
        self.links[-1][one.serial] = Stream(one)

    def take_later(self, one):
        stream = self.links[-1].get(one.serial) if self.links else None
        if stream is None or stream.ended:
            if one.serial not in self.strangers:
                self.strangers.add(one.serial)
                self.tell(STRANGER, one.offset, one.serial)
            return
        if one.number < stream.due or one.number > stream.due and one.position < stream.position:
            return self.tell(REPEATED, one.offset, one.serial)
        if not stream.leaves_number(one):
            return self.tell(FULL, one.offset, one.serial)
        too_long = bool(one.parts) and len(stream.open or b"") + len(one.parts[0][0]) > LONGEST_PACKET
        # A packet that goes on to the end of its stream has no end.
        endless = one.has(LAST) and one.has(CONTINUED) and not any(ends for _, ends in one.parts)
        joined = one.number == stream.due and one.has(CONTINUED) == (stream.open is not None) and not too_long and not endless
        if one.number > stream.due:
            self.tell(GAP, one.offset, one.serial, stream.due, one.number)
        elif joined:
            if one.has(LAST) and one.parts and not one.parts[-1][1]:
                self.tell(UNFINISHED, one.offset, one.serial)
        else:
            self.tell(TOO_LONG if too_long else UNFINISHED, one.offset, one.serial)
        self.begin()
        self.has_data = True
        stream.take(one, joined)

    def take(self, one):
        if one.has(FIRST):
            self.take_first(one)
        else:
            self.take_later(one)

    def finish(self, size):
        for stream in self.links[-1].values() if self.links else ():
            if stream.open is not None:
                self.tell(UNFINISHED, size, stream.serial)
                break
        for stream in self.links[-1].values() if self.links else ():
            stream.end()


def mended(data):
    """The lines and the links that must come of it."""
    mending = Mending()
    for junk, one in good_pages(data):
        if junk:
            mending.tell(JUNK, (one.offset if one else len(data)) - junk, junk)
        if one:
            mending.take(one)
    mending.finish(len(data))
    return mending.told, [[(serial, stream.packets, stream.ended) for serial, stream in link.items()] for link in mending.links]


def recorded(feed):
    """The links of a feed, or nothing if it is none. Headers have no positions."""
    links = []
    for kind, value in records(feed):
        if kind == BEGIN:
            links.append({serial: [[(header, None) for header in headers], False] for serial, headers, *_ in value[1]})
        elif kind == PUT:
            for serial, position, packet in value:
                links[-1][serial][0].append((packet, position))
        elif kind == END:
            links[-1][value][1] = True
        else:
            return None
    return [[(serial, packets, ended) for serial, (packets, ended) in link.items()] for link in links]


def is_alike(link, made):
    """Whether a link's streams are the same, but for positions that its headers don't have."""
    if [(serial, [packet for packet, _ in packets], ended) for serial, packets, ended in link] != [
        (serial, [packet for packet, _ in packets], ended) for serial, packets, ended in made
    ]:
        return False
    return all(
        now is None or now == was
        for (_, packets, _), (_, others, _) in zip(link, made)
        for (_, was), (_, now) in zip(packets, others)
    ) and all(sum(position is None for _, position in packets) <= 3 for _, packets, _ in made)


def run(words, data, seconds=20):
    return subprocess.run(words, input=data, capture_output=True, timeout=seconds)


def differs(program, data):
    """How the program differs from the definition, as a line, or nothing."""
    ran = run([program, "feed", "--mend"], data)
    told, links = mended(data)
    made = recorded(ran.stdout)
    if ran.returncode:
        return "status %d, %r" % (ran.returncode, ran.stderr[-200:])
    if ran.stderr.decode().splitlines() != told:
        return "it tells\n  %r\nand not\n  %r" % (ran.stderr.decode().splitlines(), told)
    if made is None or len(made) != len(links) or not all(map(is_alike, links, made)):
        return "it makes\n  %.600r\nand not\n  %.600r" % (made, links)
    again = run([program, "mux", "--strict"], ran.stdout) if all_apart(links) and all_in_range(made) else None
    if again and again.returncode:
        return "its feed is refused: %r" % again.stderr[-100:]
    return None


def all_in_range(made):
    """Whether a command may have each position: none is above 2^63 - 1, and none falls."""
    for link in made:
        for _, packets, _ in link:
            positions = [position for _, position in packets if position is not None]
            if positions != sorted(positions) or positions and positions[-1] >= 2**63:
                return False
    return True


def all_apart(links):
    serials = [serial for link in links for serial, _, _ in link]
    return len(serials) == len(set(serials))


def packet(number, size):
    return bytes(number + at & 255 for at in range(size))


def stream(serial, sizes, positions=None, first=0, packets_on_a_page=1):
    """The pages of a stream: a first one, packets of these sizes, and a last page without packets."""
    pages, values, body = [page(FIRST, 0, serial, first, [3], b"abc")], [], b""
    for at, size in enumerate(sizes):
        values += [255] * (size // 255) + [size % 255]
        body += packet(at, size)
    ends, number, open_packet, done = 0, first + 1, False, 0
    while values:
        # A page ends after so many packets, or when it is full.
        take, left = 0, packets_on_a_page
        while take < len(values) and take < 255 and left:
            left -= values[take] < 255
            take += 1
        here, values = values[:take], values[take:]
        size = sum(here)
        ends += sum(value < 255 for value in here)
        position = 10 * ends if any(value < 255 for value in here) else -1
        pages.append(page(CONTINUED if open_packet else 0, position, serial, number, here, body[:size]))
        body, open_packet, number = body[size:], here[-1] == 255, number + 1
    pages.append(page(LAST, 10 * ends, serial, number, [], b""))
    return pages


def small():
    """Pages of two streams in turn, with packets over several pages."""
    one, two = stream(1, [5, 70000, 7, 0, 255]), stream(2, [1, 300, 2, 65025, 9], packets_on_a_page=2)
    order = one[:1] + two[:1]
    one, two = one[1:], two[1:]
    while one or two:
        order += one[:1] + two[:1]
        one, two = one[1:], two[1:]
    return order


def broken():
    pages = small()
    whole = b"".join(pages)
    edges = [sum(map(len, pages[:count])) for count in range(len(pages) + 1)]
    yield whole
    yield b""
    yield b"Ogg"
    yield b"no pages at all, and OggS within"
    # cut, and begun, in any place near a page's edge, and in its middle
    for edge in edges:
        for at in (edge - 1, edge, edge + 1, edge + 26, edge + 100):
            if 0 <= at <= len(whole):
                yield whole[:at]
                yield whole[at:]
    # joined midway: the first pages, and then pages from later on
    for later in range(2, len(pages) + 1):
        yield b"".join(pages[:2] + pages[later:])
        yield b"".join(pages[later:])
    for at in range(len(pages)):
        yield b"".join(pages[:at] + pages[at + 1 :])
        yield b"".join(pages[: at + 1] + pages[at:])
        yield b"".join(pages[:at] + pages[at + 2 :])
        if at + 1 < len(pages):
            yield b"".join(pages[:at] + [pages[at + 1], pages[at]] + pages[at + 2 :])
        # a server that sends the last pages again
        yield b"".join(pages[: at + 1] + pages[max(at - 3, 0) :])
        # the encoder is stopped, and another run takes the same serials
        yield b"".join(pages[:at] + pages)
        yield whole + b"".join(pages[:at]) + whole
        # junk between pages
        yield b"".join(pages[:at]) + b"OggSOgg" + b"".join(pages[at:])
    yield whole + b"".join(stream(3, [4, 5])) + b"".join(stream(1, [4, 5]))
    # a page of a stream of the link before, in every place of the next link: told once
    for at in range(1, 4):
        late = stream(3, [4, 5])
        yield whole + b"".join(late[:at]) + pages[3] + pages[5] + b"".join(late[at:])
    # what no sound stream has
    first = page(FIRST, 0, 1, 0, [3], b"abc")
    for odd in (
        page(CONTINUED, 5, 1, 1, [3], b"abc"),
        page(CONTINUED, 5, 1, 1, [255, 1, 2], bytes(258)),
        page(0, 5, 1, 1, [255], bytes(255)) + page(0, 5, 1, 2, [1], b"x"),
        page(0, 5, 1, 1, [255], bytes(255)) + page(CONTINUED | LAST, 5, 1, 2, [255], bytes(255)),
        page(0, 5, 1, 1, [2, 255], bytes(257)) + page(CONTINUED | LAST, 5, 1, 2, [3, 255, 255], bytes(513)),
        page(0, 5, 1, 1, [255], bytes(255)) + page(LAST, 5, 1, 2, [], b""),
        page(0, 5, 1, 1, [255], bytes(255)) + page(CONTINUED | LAST, 5, 1, 2, [], b""),
        page(LAST, 5, 1, 1, [2, 255], bytes(257)),
        page(CONTINUED | LAST, 5, 1, 1, [255, 255], bytes(510)),
        page(FIRST | CONTINUED, 0, 2, 0, [1], b"x"),
        page(FIRST, 0, 2, 0, [], b""),
        page(FIRST, 0, 2, 0, [1, 1], b"xy"),
        page(FIRST, 0, 2, 0, [255], bytes(255)),
        page(FIRST, 0, 1, 0, [1], b"x"),
        page(0, 5, 1, 7, [1], b"x") + page(0, 4, 1, 9, [1], b"y") + page(0, 6, 1, 8, [1], b"z") + page(0, -1, 1, 12, [1], b"u"),
        page(FIRST, 0, 2, NUMBERS - 1, [1], b"x"),
        page(FIRST | LAST, 0, 2, NUMBERS - 1, [1], b"x"),
        page(FIRST, 0, 2, NUMBERS - 2, [1], b"x") + page(0, 5, 2, NUMBERS - 1, [1], b"y"),
        page(FIRST, 0, 2, NUMBERS - 2, [1], b"x") + page(LAST, 5, 2, NUMBERS - 1, [1], b"y"),
        page(FIRST, 0, 2, 7, [1], b"x") + page(LAST, 5, 2, NUMBERS - 1, [1], b"y"),
    ):
        yield first + odd
        yield odd + first
        yield first + odd + page(0, 50, 1, 3, [2], b"on") + page(LAST, 60, 1, 4, [1], b"!")
    # 65 streams in a link
    yield b"".join(page(FIRST, 0, serial, 0, [1], b"x") for serial in range(65)) + page(0, 1, 3, 1, [1], b"y") + page(0, 1, 64, 1, [1], b"z")
    # a packet that is a byte too long, and one that isn't, and then another
    for more in (0, 1):
        values = [255] * ((LONGEST_PACKET + more) // 255) + [(LONGEST_PACKET + more) % 255]
        made, number = [first], 1
        while values:
            here, values = values[:255], values[255:]
            made.append(page(CONTINUED if number > 1 else 0, -1 if values else 9, 1, number, here, bytes(sum(here))))
            number += 1
        yield b"".join(made) + page(LAST, 12, 1, number, [2], b"on")


def random_files(count=500):
    for seed in range(count):
        chance = random.Random(9000 + seed)
        pages = []
        for serial in chance.sample(range(1, 6), chance.choice((1, 1, 2, 3))):
            sizes = [chance.choice((0, 1, 254, 255, 256, 509, 510, 511, 3000, 65025, 70000)) for _ in range(chance.randrange(7))]
            own = stream(serial, sizes, first=chance.choice((0, 0, 5)), packets_on_a_page=chance.choice((1, 2, 5)))
            if pages and chance.random() < 0.5:
                # grouped: the first pages first, and then by turns
                front, back, turns = pages[1:], own[1:], []
                while front or back:
                    source = front if not back or front and chance.random() < 0.5 else back
                    turns.append(source.pop(0))
                pages = [pages[0], own[0]] + turns
            else:
                pages += own
        for _ in range(chance.randrange(5)):
            if not pages:
                break
            at, other = chance.randrange(len(pages)), chance.randrange(len(pages))
            what = chance.randrange(7)
            if what == 0:
                del pages[at]
            elif what == 1:
                pages.insert(other, pages[at])
            elif what == 2:
                pages[at], pages[other] = pages[other], pages[at]
            elif what == 3:
                del pages[min(at, other) : max(at, other)]
            elif what == 4 and pages[at]:
                place = chance.randrange(len(pages[at]))
                pages[at] = pages[at][:place] + bytes([pages[at][place] ^ 1 << chance.randrange(8)]) + pages[at][place + 1 :]
            elif what == 5:
                pages.insert(at, chance.randbytes(chance.randrange(60)) if chance.random() < 0.5 else b"OggS" + bytes(chance.randrange(30)))
            else:
                pages += pages[min(at, other) :]
        data = b"".join(pages)
        if data and chance.random() < 0.2:
            data = data[chance.randrange(len(data)) :]
        if data and chance.random() < 0.2:
            data = data[: chance.randrange(len(data))]
        yield data
    yield from reading.random_files()


def damaged():
    yield from reading.damage()
    for data in reading.foreign():
        # The chains of 65,536 links are for another test.
        if len(data) < 1000000:
            yield data


def compare(program, files):
    count = wrong = 0
    for data in files:
        count += 1
        difference = differs(program, data)
        if difference:
            wrong += 1
            if wrong <= 3:
                print("%d bytes %r: %s" % (len(data), data[:90], difference))
    print("%d files, %d differ" % (count, wrong))
    return 1 if wrong or count < 300 else 0


class KeptStream:
    """A stream in a file's pages, and the packets of its mended pages that a recorder keeps of it."""

    def __init__(self, serial, packets=()):
        self.serial, self.packets, self.open, self.ended = serial, [], None, False
        last = 0
        for packet, position in packets:
            # The first one is the only header: no stream here is of a codec that has more.
            if position is None or last <= position < 2**63:
                self.packets.append((packet, position))
                last = position or last

    def add(self, one):
        for part, ends in one.parts:
            part = (self.open or b"") + part
            self.open = None if ends else part
            if ends:
                self.packets.append((part, one.position if self.packets else None))
        self.ended = one.has(LAST)


def links_in(data):
    """The links of a file's pages, which must be sound."""
    if reading.chain_of(data) != ("chain %d\n" % len(data), 0):
        return None
    links = []
    for at, parts, _ in reading.found(data):
        one = Page(at, parts)
        if one.has(FIRST):
            if not links or all(stream.ended for stream in links[-1].values()):
                links.append({})
            links[-1][one.serial] = KeptStream(one.serial)
        links[-1][one.serial].add(one)
    return [list(link.values()) for link in links]


def archived_otherwise(program, path, data, end):
    """How what `archive` adds to a file, whose pages ended here, differs from the definition, as a line, or nothing; and
    where the pages end then."""
    before = b""
    if os.path.exists(path):
        with open(path, "rb") as file:
            before = file.read(end)
    ran = run([program, "archive", path, "--seal"], data, 100)
    with open(path, "rb") as file:
        after = file.read()
    told, links = mended(data)
    wanted = [[KeptStream(serial, packets) for serial, packets, _ in link] for link in links]
    refused = [stream.packets for link in wanted for stream in link] != [packets for link in links for _, packets, _ in link]
    lines = ran.stderr.decode().splitlines()
    summed = [line.split() for line in lines if line.startswith("archived ")]
    # Bytes without a page are a fault.
    pageless = bool(told) and not any(one for _, one in good_pages(data))
    faulty = refused or pageless
    fault = "fault refused" if refused else "fault archive 4 NoPage: no page of Ogg came on standard input"
    if len(summed) != 1 or ran.returncode != int(faulty) or (lines[-1:] == [fault]) != faulty:
        return "status %d, %r" % (ran.returncode, ran.stderr[-200:]), 0
    if [line for line in lines if line.startswith("mended ")] != told or any(line.startswith("refused ") for line in lines) != refused:
        return "it tells\n  %r\nand not\n  %r" % (lines, told), 0
    # A file is cut to its pages only if there was no fault.
    end = int(summed[0][3])
    if end > len(after) or end < len(after) and not faulty or int(summed[0][1]) != len(wanted):
        return "it tells of %r, and the file has %d bytes" % (summed, len(after)), 0
    after = after[:end]
    had, made = links_in(before), links_in(after)
    if had is None or made is None or after[: len(before)] != before:
        return "the file isn't sound, or what was in it has changed", end
    made = made[len(had) :]
    if [[stream.packets for stream in link] for link in made] != [[stream.packets for stream in link] for link in wanted]:
        return "it keeps\n  %.600r\nand not\n  %.600r" % tuple([[stream.packets for stream in link] for link in of] for of in (made, wanted)), end
    if not all(stream.ended and stream.open is None for link in made for stream in link):
        return "a stream is open", end
    taken = [stream.serial for link in had for stream in link]
    for link, own in zip(made, wanted):
        serials, asked = [stream.serial for stream in link], [stream.serial for stream in own]
        if set(taken) & set(serials) or len(set(serials)) < len(serials):
            return "a serial is taken twice", end
        if not set(taken) & set(asked) and serials != asked:
            return "serials %r are changed to %r though they are free" % (asked, serials), end
        taken += serials
    return None, end


def compare_archived(program, together=30, most=6):
    """So many inputs at a time are archived one behind the other, and then the first of them alone. A file is archived into
    so often before the next one."""
    files = list(itertools.chain(damaged(), broken(), random_files(1700)))
    groups = [files[at : at + together] for at in range(0, len(files), together)]
    runs = wrong = end = 0
    with tempfile.TemporaryDirectory() as folder:
        path = os.path.join(folder, "archive.ogg")
        for data in itertools.chain.from_iterable((b"".join(group), group[0]) for group in groups):
            if runs % most == 0 and runs:
                os.remove(path)
                end = 0
            runs += 1
            difference, end = archived_otherwise(program, path, data, end)
            if difference:
                wrong += 1
                if wrong <= 3:
                    print("%d bytes %r: %s" % (len(data), data[:90], difference))
    print("%d inputs archived in %d runs, %d differ" % (len(files), runs, wrong))
    return 1 if wrong or len(files) < 2600 else 0


def sound(program):
    count = wrong = changed = 0
    files = [b"".join(small()), b"".join(stream(1, [5, 6])) + b"".join(stream(2, [7]))]
    files += [mux(random_feed(random.Random(3000 + n)))[0] for n in range(80)]
    for data in files:
        plain = run([program, "feed"], data)
        if plain.returncode:
            continue
        count += 1
        ran = run([program, "feed", "--mend"], data)
        # What is open at the end is ended.
        front = ran.stdout[: len(plain.stdout)]
        ends = [kind for kind, _ in records(ran.stdout)][len(list(records(plain.stdout))) :]
        if (ran.returncode, ran.stderr, front) != (0, b"", plain.stdout) or any(kind != END for kind in ends):
            wrong += 1
            print("%d bytes: another feed, or %r" % (len(data), ran.stderr[:200]))
        changed += bool(ends)
    print("%d files, %d with open streams, %d differ" % (count, changed, wrong))
    return 1 if wrong or count < 20 else 0


if __name__ == "__main__":
    if len(sys.argv) != 3:
        sys.exit(__doc__)
    makers = {"damage": damaged, "broken": broken, "random": random_files}
    if sys.argv[2] == "sound":
        sys.exit(sound(sys.argv[1]))
    if sys.argv[2] == "archived":
        sys.exit(compare_archived(sys.argv[1]))
    sys.exit(compare(sys.argv[1], makers[sys.argv[2]]()))
