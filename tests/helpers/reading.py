#!/usr/bin/env python3
"""What `test_read` must find, by a plain program of the tests' own; and small files to try both on.

    reading.py PROGRAM damage       one byte changed, at every place of a small file, and every cut of it
    reading.py PROGRAM foreign      files that other software makes, and such that none should
    reading.py PROGRAM random       files of random pages, the same in each run
    reading.py PROGRAM edges        pages that end at, before and behind the edge of a room of 65,307 bytes

Each file is also read through a window, which must find the same pages.
"""
import hashlib
import os
import random
import struct
import subprocess
import sys
import tempfile

sys.path.insert(0, os.path.dirname(os.path.abspath(__file__)))
from pages import checksum, page


def split(data, at):
    """The page at this place and where it ends, or the number and the name of its fault."""
    if len(data) - at < 27:
        return None, (1, "Short")
    if data[at : at + 4] != b"OggS":
        return None, (2, "Pattern")
    if data[at + 4] != 0:
        return None, (3, "Version")
    lacing = data[at + 27 : at + 27 + data[at + 26]]
    end = at + 27 + data[at + 26] + sum(lacing)
    if len(lacing) < data[at + 26] or end > len(data):
        return None, (1, "Short")
    whole = data[at:end]
    if struct.unpack_from("<I", whole, 22)[0] != checksum(whole[:22] + bytes(4) + whole[26:]):
        return None, (4, "Checksum")
    flags, position, serial, sequence = struct.unpack_from("<BQII", whole, 5)
    return (flags, position, serial, sequence, lacing, whole[27 + len(lacing) :], end), None


def found(data):
    """Each page with where it begins, and then a fault, if there is one."""
    at = 0
    while at < len(data):
        one, fault = split(data, at)
        yield at, one, fault
        if fault:
            return
        at = one[6]


def pages_of(data):
    count, end, last = 0, 0, ""
    for at, one, fault in found(data):
        if fault:
            last = f"fault {at} {fault[0]} {fault[1]}\n"
        else:
            count, end = count + 1, one[6]
    return f"pages {count} {end}\n{last}", int(last != "")


def packets_of(data, wanted):
    text, open_packet, number, ended = "", None, None, False
    for _, one, fault in found(data):
        if fault:
            return text + "fault 1 Page\n", 1
        flags, _, serial, sequence, lacing, body, _ = one
        if serial != wanted:
            continue
        if ended:
            return text + "fault 4 AfterEos\n", 1
        if number is not None and sequence != number:
            return text + "fault 2 Sequence\n", 1
        if bool(flags & 1) != (open_packet is not None):
            return text + "fault 3 Continued\n", 1
        number, ended, at = sequence + 1, bool(flags & 4), 0
        for value in lacing:
            open_packet = (open_packet or b"") + body[at : at + value]
            at += value
            if value < 255:
                text += f"{hashlib.md5(open_packet).hexdigest()} {len(open_packet)}\n"
                open_packet = None
    if open_packet is not None:
        return text + "fault 5 Unfinished\n", 1
    return text + "end\n", 0


def chain_of(data):
    # of the last link, by serial: [next sequence, ended, unfinished]
    streams, links, has_data, end = {}, 0, False, 0

    def fault_of(one):
        flags, _, serial, sequence, lacing, _, _ = one
        whole = not flags & 1 and len(lacing) > 0 and lacing[-1] < 255 and all(value == 255 for value in lacing[:-1])
        if flags & 2:
            if all(stream[1] for stream in streams.values()):
                return (4, "BosShape") if not whole else (9, "TooMany") if links >= 65536 else None
            if has_data:
                return 8, "BosWhileOpen"
            if serial in streams:
                return 5, "SerialTwice"
            return (4, "BosShape") if not whole else (9, "TooMany") if len(streams) >= 64 else None
        if not links:
            return 3, "BosPlace"
        if serial not in streams:
            return 6, "NoStream"
        number, ended, unfinished = streams[serial]
        if ended:
            return 7, "AfterEos"
        if sequence != number:
            return 1, "Sequence"
        if bool(flags & 1) != unfinished:
            return 2, "Continued"
        if flags & 4 and (lacing[-1] == 255 if lacing else unfinished):
            return 10, "EosUnfinished"
        return None

    for at, one, fault in found(data):
        fault = fault or fault_of(one)
        if fault:
            return f"chain {end}\nfault {at} {fault[0]} {fault[1]}\n", 1
        flags, _, serial, sequence, lacing, _, end = one
        if flags & 2:
            if all(stream[1] for stream in streams.values()):
                streams, links, has_data = {}, links + 1, False
            streams[serial] = [sequence + 1, bool(flags & 4), False]
        else:
            has_data = True
            unfinished = lacing[-1] == 255 if lacing else streams[serial][2]
            streams[serial] = [sequence + 1, bool(flags & 4), unfinished]
    for serial, stream in streams.items():
        if stream[2]:
            return f"chain {end}\nunfinished {serial}\n", 1
    return f"chain {end}\n", 0


def small_file():
    return page(2, 0, 1, 0, [3], b"abc") + page(0, 5, 1, 1, [5], b"hello") + page(4, 5, 1, 2, [], b"")


def damage():
    whole = small_file()
    for at in range(len(whole)):
        for change in (0x01, 0x80, 0xFF):
            yield whole[:at] + bytes([whole[at] ^ change]) + whole[at + 1 :]
    for length in range(len(whole) + 1):
        yield whole[:length]


def foreign():
    first, second = page(2, 0, 1, 0, [3], b"abc"), page(2, 0, 2, 0, [3], b"abc")
    long = [255] * 255
    yield b""
    yield b"\0"
    # a packet of 70,000 bytes in two pages, with a page of another stream between
    yield (first + second + page(0, -1, 1, 1, long, bytes(65025)) + page(0, 0, 2, 1, [1], b"x")
           + page(5, 9, 1, 2, [255] * 19 + [130], bytes(4975)) + page(4, 0, 2, 2, [], b""))
    # bits of the flags that nothing is said of, and a first number that isn't 0
    yield page(0xFA, 0, 1, 7, [3], b"abc") + page(0xF8, 5, 1, 8, [5], b"hello") + page(0xFC, 5, 1, 9, [], b"")
    # pages without lacing values, between packets and inside one
    yield first + page(0, -1, 1, 1, [], b"") + page(0, -1, 1, 2, [255], bytes(255)) + page(1, -1, 1, 3, [], b"") + page(5, 3, 1, 4, [0], b"")
    # an end on a page with packets, and on a first page; then links with the same serial
    yield page(6, 0, 1, 0, [3], b"abc") + page(6, 0, 1, 0, [3], b"abc") + first + page(4, 8, 1, 1, [0, 1], b"x")
    # what may not follow
    for behind in (page(0, 0, 2, 0, [1], b"x"), page(0, 0, 1, 2, [1], b"x"), page(1, 0, 1, 1, [1], b"x"), first, page(2, 0, 2, 0, [255], bytes(255)),
                   page(2, 0, 2, 0, [], b""), page(2, 0, 2, 0, [1, 1], b"xy"), page(3, 0, 2, 0, [1], b"x"), page(4, 0, 1, 1, [255], bytes(255)),
                   page(0, 0, 1, 1, [255], bytes(255)), page(4, 0, 1, 1, [], b"") + page(0, 0, 1, 2, [1], b"x"),
                   page(0, 0, 1, 1, [1], b"x") + second, page(0, 0, 1, 1, [255], bytes(255)) + page(4, 0, 1, 2, [], b"")):
        yield first + behind
    yield page(0, 0, 1, 0, [3], b"abc")
    # the last number that there is
    yield page(2, 0, 1, 2**32 - 1, [3], b"abc") + page(0, 5, 1, 0, [5], b"hello")
    # 64 streams, and one more
    yield b"".join(page(2, 0, serial, 0, [3], b"abc") for serial in range(1, 65))
    yield b"".join(page(2, 0, serial, 0, [3], b"abc") for serial in range(1, 66))
    # 65,536 links, and one more
    yield b"".join(page(6, 0, link, 0, [0], b"") for link in range(65536))
    yield b"".join(page(6, 0, link, 0, [0], b"") for link in range(65537))


def random_files():
    for seed in range(300):
        chance = random.Random(seed)
        streams, data = {}, b""
        for _ in range(chance.randrange(1, 12)):
            odd = chance.random() < 0.05
            if not streams or chance.random() < 0.15:
                serial = chance.choice((1, 2, 3))
                streams[serial] = [1, False]
                data += page(3 if odd else 2, 0, serial, 0, [3], b"abc")
                continue
            serial = chance.choice(list(streams))
            number, unfinished = streams[serial]
            lacing = [chance.choice((0, 1, 254, 255, 255)) for _ in range(chance.randrange(4))]
            flags = (1 if unfinished else 0) ^ (1 if odd else 0)
            goes_on = lacing[-1] == 255 if lacing else unfinished
            if not goes_on and chance.random() < 0.2 or odd:
                flags |= 4
            data += page(flags, chance.choice((-1, 0, 7)), serial, number + (1 if odd else 0), lacing, chance.randbytes(sum(lacing)))
            streams[serial] = [number + 1, goes_on]
        if chance.random() < 0.2 and data:
            at = chance.randrange(len(data))
            data = data[:at] + bytes([data[at] ^ 1 << chance.randrange(8)]) + data[at + 1 :]
        yield data


def sized(size, number):
    """A page of `size` bytes."""
    values = next(n for n in range(256) if 27 + n + 255 * n >= size)
    rest = size - 27 - values
    lacing = ([255] * (rest // 255) + [rest % 255])[:values]
    lacing = [0] * (values - len(lacing)) + lacing
    return page(2 if number == 0 else 0, number, 1, number, lacing, bytes(number + at & 255 for at in range(rest)))


def edges():
    # If the room's edge cuts a page, the rest of the page is read on, and pages before it are lent out of one read.
    longest = 65307
    for first in (27, 28, 1000, 32653, 65279, 65280, 65306, longest):
        for both in (longest - 1, longest, longest + 1, longest + 26, longest + 27, 2 * longest - 1, 2 * longest):
            if 27 <= both - first <= longest:
                pages = sized(first, 0) + sized(both - first, 1) + sized(longest, 2) + sized(27, 3)
                yield pages
                yield pages[:-1]
                yield pages + b"O"
    changed = sized(40000, 0) + sized(40000, 1)
    for at in (0, 39999, 40000, 65306, 65307, 79999):
        yield changed[:at] + bytes([changed[at] ^ 1]) + changed[at + 1 :]


def compare(program, files, only_pages):
    count = differences = 0
    for data in files:
        with tempfile.NamedTemporaryFile() as file:
            file.write(data)
            file.flush()
            pages = pages_of(data)
            wanted = [([], pages), (["window", file.name], pages)]
            if not only_pages:
                wanted += [(["1"], packets_of(data, 1)), (["2"], packets_of(data, 2)), (["chain"], chain_of(data))]
            ran_all = [(words, want, subprocess.run([program, *words], input=data, capture_output=True, timeout=20)) for words, want in wanted]
        for words, (text, status), ran in ran_all:
            count += 1
            if (ran.stdout.decode(), ran.returncode) != (text, status):
                differences += 1
                print(f"{words} over {len(data)} bytes {data[:60]!r}: status {ran.returncode}, not {status}\n  {ran.stdout!r}\n  not {text!r}")
    print(f"{count} readings, {differences} differences")
    return differences


if __name__ == "__main__":
    if len(sys.argv) != 3:
        sys.exit(__doc__)
    makers = {"damage": damage, "foreign": foreign, "random": random_files, "edges": edges}
    sys.exit(compare(sys.argv[1], makers[sys.argv[2]](), sys.argv[2] == "edges") > 0)
