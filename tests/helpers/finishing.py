#!/usr/bin/env python3
"""What `finish` must write, as the tests' own plain program says.

    finishing.py all FILE                what `finish FILE` writes
    finishing.py link FILE NUMBER        what `finish FILE NUMBER` writes
    finishing.py compare PROGRAM         runs the program on many files, made of pages and of feeds, and says where it differs

Of a stream that has ended, the last page after its first that has lacing values is marked, and the pages after it are
left out, unless one of them states another position.
"""
import os
import random
import subprocess
import sys
import tempfile

sys.path.insert(0, os.path.dirname(os.path.abspath(__file__)))
from model import mux, random_feed
from pages import page
from reading import split

FIRST, LAST, NO_POSITION = 2, 4, 2**64 - 1


def pages_of(data):
    pages, at = [], 0
    while at < len(data):
        one, fault = split(data, at)
        assert not fault, (at, fault)
        pages.append(list(one[:6]) + [data[at : one[6]]])
        at = one[6]
    return pages


def links_of(pages):
    links, ended, begun = [], set(), set()
    for one in pages:
        if one[0] & FIRST and begun == ended:
            links.append([])
            begun, ended = set(), set()
        begun.add(one[2])
        links[-1].append(one)
        if one[0] & LAST:
            ended.add(one[2])
    return links


def finished(link):
    marked, gone = set(), set()
    for serial in {one[2] for one in link}:
        places = [place for place, one in enumerate(link) if one[2] == serial]
        if not any(link[place][0] & LAST for place in places):
            continue
        full = [place for place in places[1:] if link[place][4]]
        if not full:
            continue
        end = full[-1]
        behind = [place for place in places if place > end]
        if all(link[place][1] in (link[end][1], NO_POSITION) for place in behind):
            marked.add(end)
            gone.update(behind)
    data = b""
    for place, (flags, position, serial, sequence, lacing, body, whole) in enumerate(link):
        if place in marked and not flags & LAST:
            signed = position - 2**64 if position >= 2**63 else position
            data += page(flags | LAST, signed, serial, sequence, list(lacing), body)
        elif place not in gone:
            data += whole
    return data


def packets_of(data):
    """For each link and stream what it holds, and whether it has ended, without regard to pages."""
    held = []
    for link in links_of(pages_of(data)):
        streams = {}
        for flags, _, serial, _, lacing, body, _ in link:
            one = streams.setdefault(serial, [b"", b"", 0])
            one[0] += lacing
            one[1] += body
            one[2] |= flags & LAST
        held.append(streams)
    return held


def random_stream(chance, serial):
    """The pages of one stream after its first, as they may follow one another, each as the arguments of `page`."""
    pages, sequence, position, is_open = [], chance.choice((0, 0, 5, 2**32 - 40)), chance.randrange(3), False
    first = page(2, chance.choice((0, -1, position)), serial, sequence, [3], b"abc")
    for _ in range(chance.randrange(12)):
        sequence += 1
        position += chance.randrange(3)
        lacing = [chance.choice((0, 1, 3, 254, 255)) for _ in range(chance.choice((0, 0, 1, 1, 2, 5)))]
        told = chance.choice((position, position, position, -1, -2, -(2**63)))
        flags = int(is_open) + chance.choice((0, 0, 0, 8, 128))
        is_open = lacing[-1] == 255 if lacing else is_open
        pages.append((flags, told, serial, sequence, lacing, chance.randbytes(sum(lacing))))
    if chance.random() < 0.8:
        for _ in range(chance.choice((0, 1, 1, 2))):
            if is_open:
                pages.append((1, position, serial, sequence + 1, [0], b""))
                sequence, is_open = sequence + 1, False
            last = pages[-1][1] if pages else 0
            told = chance.choice((last, last, last, position, position + 7, -1))
            pages.append((0, told, serial, sequence + 1, [], b""))
            sequence += 1
        if is_open:
            pages.append((1, position, serial, sequence + 1, [0], b""))
        if pages:
            pages[-1] = (pages[-1][0] | LAST,) + pages[-1][1:]
    return first, pages


def random_file(chance):
    data = b""
    for _ in range(chance.randrange(1, 4)):
        streams = [random_stream(chance, serial) for serial in chance.sample(range(2**32), chance.choice((1, 1, 2, 3, 5)))]
        data += b"".join(first for first, _ in streams)
        left = [pages for _, pages in streams if pages]
        while left:
            one = chance.choice(left)
            data += page(*one.pop(0))
            left = [pages for pages in left if pages]
        links = links_of(pages_of(data))
        if any(not any(one[0] & LAST for one in links[-1] if one[2] == serial) for serial in {one[2] for one in links[-1]}):
            break
    return data


def files(chance):
    for _ in range(120):
        yield "pages", random_file(chance)
    made = 0
    while made < 80:
        data = mux(random_feed(random.Random(chance.randrange(2**32))))[0]
        if data:
            made += 1
            yield "feed", data


def compare(program):
    different, changed, count = 0, 0, 0
    with tempfile.TemporaryDirectory() as folder:
        path = os.path.join(folder, "file.ogg")

        def finish(*words):
            return subprocess.run([program, "finish", path, *words], capture_output=True, timeout=20)

        for name, data in files(random.Random(20)):
            with open(path, "wb") as file:
                file.write(data)
            wanted = [finished(link) for link in links_of(pages_of(data))]
            whole = b"".join(wanted)
            count += 1
            changed += whole != data
            assert packets_of(whole) == packets_of(data)
            for number, want in [(None, whole)] + list(enumerate(wanted)):
                ran = finish(*([] if number is None else [str(number)]))
                # A recording that is cut inside a packet is listed, and so it is finished.
                if (ran.returncode, ran.stdout, ran.stderr) != (0, want, b""):
                    different += 1
                    print(f"{name} {count}, link {number}: status {ran.returncode}, {len(ran.stdout)} bytes, not {len(want)}; {ran.stderr}")
            # What is finished stays as it is.
            with open(path, "wb") as file:
                file.write(whole)
            if finish().stdout != whole:
                different += 1
                print(f"{name} {count}: finished again it differs")
    print(f"{count} files, {changed} of them changed, {different} differ")
    return int(different > 0 or changed < 50)


if __name__ == "__main__":
    if sys.argv[1] == "compare":
        sys.exit(compare(sys.argv[2]))
    with open(sys.argv[2], "rb") as file:
        links = links_of(pages_of(file.read()))
    if sys.argv[1] == "link":
        links = [links[int(sys.argv[3])]]
    for link in links:
        sys.stdout.buffer.write(finished(link))
