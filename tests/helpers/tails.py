#!/usr/bin/env python3
"""Single bits of a recording that turn over, and what `archive` makes of the file then.

`tails.py PROGRAM FOLDER COUNT` turns COUNT bits of a file of 90 pages over, one at a time: first one in the first byte of
each page, and then any others. If it is in the first byte of a page that isn't the file's first, what stands from there
on must be in a copy beside the file, which a line tells, before the recording goes on at that place. If it is in another
byte the run ends with a fault, and the file is as it was.
"""
import os
import random
import subprocess
import sys

from archiving import found, is_whole, link, stream


def archived(program, path, given, *words):
    return subprocess.run([program, "archive", path, *words], input=given, stdout=subprocess.PIPE, stderr=subprocess.PIPE, timeout=20)


def offsets(data):
    """Where the pages of a file begin."""
    places, at = [], 0
    while data[at : at + 4] == b"OggS":
        places.append(at)
        count = data[at + 26]
        at += 27 + count + sum(data[at + 27 : at + 27 + count])
    return places, at


def beside(path):
    folder, name = os.path.split(path)
    return sorted(os.path.join(folder, one) for one in os.listdir(folder) if one.startswith(name + "."))


def clear(path):
    for one in [path, *beside(path)]:
        if os.path.exists(one):
            os.remove(one)


def read(path):
    with open(path, "rb") as file:
        return file.read()


def write(path, data):
    with open(path, "wb") as file:
        file.write(data)


def kept(ran, path, data, at, more):
    """What is wrong after a run over a file whose page at `at` lost its first byte."""
    copy = f"{path}.tail-{at}"
    line = f"tail {at} {len(data) - at} {copy}\n".encode()
    if ran.returncode:
        yield f"status {ran.returncode}, {ran.stderr}"
    if not ran.stderr.startswith(line):
        yield f"told {ran.stderr}, not {line}"
    if beside(path) != [copy]:
        yield f"beside it are {beside(path)}"
    elif read(copy) != data[at:]:
        yield "the copy isn't what stood there"
    now = read(path)
    if now[:at] != data[:at]:
        yield "the pages before it have changed"
    streams, _ = found(now)
    if not all(is_whole(one) for one in streams) or streams[-1]["packets"] != more:
        yield "what was recorded then isn't there"


def left(ran, path, data):
    """What is wrong after a run over a file that can't be gone on with."""
    if ran.returncode != 1 or not ran.stderr.startswith((b"fault open ", b"fault foreign")) or ran.stderr.count(b"\n") > 1:
        yield f"status {ran.returncode}, {ran.stderr}"
    if read(path) != data:
        yield "the file has changed"
    if beside(path):
        yield f"beside it are {beside(path)}"


def turned(program, folder, count):
    path = os.path.join(folder, "turned.ogg")
    clear(path)
    archived(program, path, b"".join(stream(3, 89)))
    whole = read(path)
    places, end = offsets(whole)
    given = b"".join(link(4, 3))
    rng = random.Random(62)
    bits = [(at, number % 8) for number, at in enumerate(places)]
    bits += [(rng.randrange(end), rng.randrange(8)) for _ in range(count - len(bits))]
    more = found(given)[0][0]["packets"]
    runs = wrong = copies = 0
    for at, bit in bits:
        clear(path)
        data = whole[:at] + bytes([whole[at] ^ 1 << bit]) + whole[at + 1 :]
        write(path, data)
        ran = archived(program, path, given)
        if at in places[1:]:
            copies += 1
            told = list(kept(ran, path, data, at, more))
        else:
            told = list(left(ran, path, data))
        runs += 1
        wrong += bool(told)
        for one in told:
            print(f"bit {bit} of byte {at}: {one}")
    clear(path)
    print(f"{runs} runs, {wrong} wrong, {len(places)} pages, {copies} copies")
    return wrong or len(places) < 90 or copies < 80


if __name__ == "__main__":
    sys.exit(turned(sys.argv[1], sys.argv[2], int(sys.argv[3])))
