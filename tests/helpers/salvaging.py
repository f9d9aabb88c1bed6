#!/usr/bin/env python3
"""Compares the pages of damaged files that `salvage` lists with those of a plain search: salvaging.py PROGRAM

From the front on, each place is checked for a page that begins there, and the search goes on after each page.
"""
import os
import random
import subprocess
import sys
import tempfile

sys.path.insert(0, os.path.dirname(os.path.abspath(__file__)))
from pages import page
from reading import split

SKELETON = page(2, 0, 9, 0, [64], bytes(range(64))) + page(2, 0, 1, 0, [3], b"abc") + page(0, 0, 9, 1, [80], b"x" * 80)
SKELETON += page(4, 0, 9, 2, [0], b"")
EDGE = 1 << 20


def good_pages(data):
    """Capture patterns are found by `find`, so that large files take no time; any other place begins no page."""
    pages, at = [], data.find(b"OggS")
    while at >= 0:
        one, fault = split(data, at)
        if not fault:
            pages.append((at, one[6] - at))
        at = data.find(b"OggS", at + 1 if fault else one[6])
    return "".join(f"{offset} {length}\n" for offset, length in pages)


def damaged():
    """Each byte of a small file changed, and each of its fronts."""
    for at in range(len(SKELETON)):
        yield SKELETON[:at] + bytes([SKELETON[at] ^ 1]) + SKELETON[at + 1 :]
        yield SKELETON[:at]


def scattered(chance):
    """Pages and pieces of pages, one after the other and one inside another."""
    for _ in range(60):
        data = b""
        while chance.random() < 0.9:
            body = chance.randbytes(chance.randrange(200)) if chance.random() < 0.7 else SKELETON[: chance.randrange(200)]
            one = page(0, 0, 1, len(data), [len(body)], body)
            data += one if chance.random() < 0.6 else one[: chance.randrange(len(one))]
            data += b"O" * chance.randrange(3)
        yield data


def edges():
    """A page of the greatest size, and a small one in it, at and around the edges of the pieces that are searched."""
    inner = page(0, 0, 1, 0, [5], b"inner")
    large = page(0, 0, 1, 0, [255] * 255, (inner * 2000)[:65025])
    for at in (EDGE - 1, EDGE, EDGE + 1, EDGE - 65307, EDGE - 65306, EDGE + 65305, EDGE + 65306, EDGE + 65307):
        yield bytes(at) + large + inner
        yield bytes(at) + large[:-1] + inner
        yield inner + bytes(at - len(inner)) + large


def main():
    program, count = sys.argv[1], 0
    with tempfile.TemporaryDirectory() as folder:
        path = os.path.join(folder, "damaged.ogg")
        for data in [*damaged(), *scattered(random.Random(3)), *edges()]:
            with open(path, "wb") as file:
                file.write(data)
            run = subprocess.run([program, "salvage", path], stdout=subprocess.PIPE, timeout=20)
            assert run.returncode == 0, run.returncode
            assert run.stdout.decode() == good_pages(data), f"{len(data)} bytes: {run.stdout[:200]}"
            count += 1
    print(f"{count} files, 0 differences")


if __name__ == "__main__":
    main()
