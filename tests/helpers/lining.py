#!/usr/bin/env python3
"""What the tests of `lines` and `packets` send and compare. They know nothing of the program.

    lining.py pieces FILE SIZE          writes the file in pieces of SIZE bytes, each flushed, with a short wait between
    lining.py killed PROGRAM PATH RUNS WORD ..
                                        runs `PROGRAM lines PATH --acks WORD ..` RUNS times, sends lines to it, kills it in the midst, and
                                        writes what each run was sent and how many lines of it were told to be kept
    lining.py kept SENT PACKETS         whether PACKETS is, run by run, a front of the lines that were sent with all that were told as kept
    lining.py rises FILE                whether the positions of these objects never fall, and each line is an object
    lining.py decodes FILE TEXT         whether the objects' bytes are the lines of TEXT
    lining.py compares PROGRAM COUNT WORK
                                        makes COUNT files of many streams, and compares what `packets` writes of each with what they hold

Packets come in the order of the pages in which they end; a link's headers come first, stream by stream, and only if they
are asked for; all of a Skeleton's packets are headers.
"""
import base64
import json
import os
import random
import signal
import subprocess
import sys
import time

from pages import page


def pieces(path, size):
    data = open(path, "rb").read()
    for at in range(0, len(data), size):
        sys.stdout.buffer.write(data[at : at + size])
        sys.stdout.buffer.flush()
        time.sleep(0.001)


def killed(program, path, runs, words):
    noise = random.Random(7)
    for run in range(runs):
        child = subprocess.Popen(
            [program, "lines", path, "--acks", *words],
            stdin=subprocess.PIPE, stdout=subprocess.PIPE, stderr=subprocess.DEVNULL,
        )
        os.set_blocking(child.stdin.fileno(), False)
        sent = b""
        # Lines of many lengths, in writes that end anywhere.
        text = b"".join(b"run %d line %d %s\n" % (run, n, b"x" * noise.randrange(200)) for n in range(4000))
        stop = noise.randrange(1, len(text))
        while len(sent) < stop:
            try:
                count = os.write(child.stdin.fileno(), text[len(sent) : len(sent) + noise.randrange(1, 3000)])
            except BlockingIOError:
                time.sleep(0.001)
                continue
            sent += text[len(sent) : len(sent) + count]
        time.sleep(noise.random() / 20)
        child.send_signal(signal.SIGKILL)
        acks = child.stdout.read().split(b"\n")
        child.wait()
        told = [int(line.split()[1]) for line in acks if line.startswith(b"kept ")]
        assert told == sorted(set(told)), told
        print(json.dumps({"sent": sent.split(b"\n")[:-1].__len__(), "kept": max(told, default=0), "run": run,
                          "lines": [line.decode() for line in sent.split(b"\n")[:-1]]}))


def kept(sent, packets):
    given = open(packets, "rb").read().split(b"\n")[:-1]
    for row in map(json.loads, open(sent)):
        lines = [line.encode() for line in row["lines"]]
        front = 0
        while front < min(len(lines), len(given)) and given[front] == lines[front]:
            front += 1
        if front < row["kept"]:
            sys.exit(f"run {row['run']}: {row['kept']} lines were told as kept, and {front} are there")
        given = given[front:]
    if given:
        sys.exit(f"there is more: {given[:2]}")


def rises(path):
    last = -1
    for line in open(path, "rb"):
        position = json.loads(line)["position"]
        if position < last:
            sys.exit(f"{position} after {last}")
        last = position


def decodes(path, text):
    found = []
    for line in open(path, "rb"):
        row = json.loads(line)
        data = base64.b64decode(row["data"]) if "data" in row else row["text"].encode()
        if len(data) != row["bytes"]:
            sys.exit(f"{len(data)} bytes, not {row['bytes']}")
        found.append(data)
    if b"".join(packet + b"\n" for packet in found) != open(text, "rb").read():
        sys.exit("other bytes")


# ---- files of many streams
FIRST = {1: b"some codec", 3: b"\x01vorbis and more", 2: b"OpusHead and more"}


class Stream:
    """A stream of a link: its packets, of which the first ones are headers, and the pages that are left of them."""

    def __init__(self, rng, serial, place, name):
        self.serial, self.place, self.name = serial, place, name
        self.count = rng.choice([1, 2, 3])
        more = [bytes(rng.randrange(256) for _ in range(rng.choice([0, 1, 5, 254, 255, 256, 510, 700]))) for _ in range(rng.randrange(8))]
        headers = [FIRST[self.count]] + [b"header %d" % at for at in range(1, self.count)]
        self.headers, self.pages, self.sequence = headers, [], 0
        self.lay(rng, headers[1:])
        self.early = len(self.pages)
        self.lay(rng, more)

    def lay(self, rng, packets):
        """Pages of these packets, each cut anywhere between its lacing values."""
        values = [(value, packet, end) for packet in packets for value, end in laced(packet)]
        body = b"".join(packets)
        while values:
            count = min(len(values), rng.choice([1, 2, 3, 8, 255]))
            part, values = values[:count], values[count:]
            size = sum(value for value, _, _ in part)
            self.pages.append(([value for value, _, _ in part], body[:size], [packet for _, packet, end in part if end]))
            body = body[size:]


def laced(packet):
    """The lacing values of a packet, each with whether the packet ends with it."""
    whole = [(255, False)] * (len(packet) // 255)
    return whole + [(len(packet) % 255, True)]


def made_file(rng):
    """The bytes of a file, and its links: each has its streams, and what its pages end, in order."""
    data, links, serial = b"", [], 1
    for _ in range(rng.randrange(1, 4)):
        streams, skeleton = [], rng.random() < 0.6
        for place in range(1, rng.randrange(2, 5)):
            streams.append(Stream(rng, serial, place, rng.choice([None, b"alpha", b"beta", b"2"]) if skeleton else None))
            serial += 1
        said = [fisbone(it.serial, it.name) for it in streams]
        ended = []
        if skeleton:
            head = b"fishead\0\3\0\0\0" + bytes(52)
            data += page(2, 0, 900 + len(links), 0, [64], head)
            ended.append((None, head, 0))
        for it in streams:
            data += page(2, 0, it.serial, 0, [len(it.headers[0])], it.headers[0])
            ended.append((it, it.headers[0], 0))
        if skeleton:
            for at, packet in enumerate([*said, b""]):
                data += page(4 if packet == b"" else 0, 0, 900 + len(links), at + 1, [value for value, _ in laced(packet)], packet)
                ended.append((None, packet, 0))
        left = {it: it.pages[it.early:] for it in streams}
        order = [(it, one) for it in streams for one in it.pages[: it.early]]
        while any(left.values()):
            it = rng.choice([it for it in streams if left[it]])
            order.append((it, left[it].pop(0)))
        position, open_part = {it: 0 for it in streams}, {it: False for it in streams}
        for it, (values, body, packets) in order:
            it.sequence += 1
            late = (it, (values, body, packets)) not in [(it, one) for one in it.pages[: it.early]]
            position[it] += 10 * late
            at = position[it] if packets else -1
            data += page(open_part[it], at, it.serial, it.sequence, values, body)
            open_part[it] = values[-1] == 255
            ended += [(it, packet, at) for packet in packets]
        for it in streams:
            it.sequence += 1
            data += page(4, position[it], it.serial, it.sequence, [], b"")
        links.append((streams, ended, skeleton))
    return data, links


def fisbone(serial, name):
    front = b"fisbone\0" + (44).to_bytes(4, "little") + serial.to_bytes(4, "little") + bytes(36)
    return front + b"Content-Type: a/b\r\n" + (b"nAmE: " + name + b"\r\n" if name is not None else b"")


def wanted_packets(links, name, number, headers):
    """The packets that are to be written: link, serial, position and bytes."""
    found = []
    for at, (streams, ended, has_skeleton) in enumerate(links):
        skeleton, said = 900 + at, [packet for it, packet, _ in ended if it is None]

        def takes(it, at=at):
            if number not in (None, at) or it is None and name is not None:
                return False
            return name is None or it.name == name.encode() or name.isdigit() and int(name) == it.place

        told = []
        for it in ([None] if has_skeleton else []) + streams:
            if headers and takes(it):
                told += [(at, skeleton if it is None else it.serial, 0, one) for one in (said if it is None else it.headers)]
        seen = {it: 0 for it in streams}
        for it, packet, position in ended:
            if it is not None:
                seen[it] += 1
                if seen[it] > it.count and takes(it):
                    told.append((at, it.serial, position, packet))
        found += told
    return found


def compares(program, count, work):
    rng, wrong = random.Random(20261129), 0
    path = os.path.join(work, "many.ogg")
    for at in range(count):
        data, links = made_file(rng)
        with open(path, "wb") as out:
            out.write(data)
        name = rng.choice([None, None, "alpha", "beta", "1", "2", "3"])
        number, headers = rng.choice([None, None, 0, 1]), rng.random() < 0.5
        words = ["--headers"] * headers + (["--stream", name] if name else []) + (["--link", str(number)] if number is not None else [])
        want = wanted_packets(links, name, number, headers)
        ran = subprocess.run([program, "packets", path, "--json", *words], stdout=subprocess.PIPE, stderr=subprocess.PIPE, timeout=20)
        found = []
        for row in map(json.loads, ran.stdout.splitlines()):
            packet = base64.b64decode(row["data"]) if "data" in row else row["text"].encode()
            found.append((row["link"], row["serial"], row["position"], packet))
        plain = subprocess.run([program, "packets", path, *words], stdout=subprocess.PIPE, stderr=subprocess.PIPE, timeout=20)
        if found != want or plain.stdout != b"".join(packet + b"\n" for _, _, _, packet in want):
            wrong += 1
            print(f"file {at}, {words}: {len(found)} packets and not {len(want)}, {ran.stderr[-200:]!r}")
            first = next((k for k, pair in enumerate(zip(found, want)) if pair[0] != pair[1]), min(len(found), len(want)))
            print("  found", found[first : first + 2], "want", want[first : first + 2])
    print(f"{count} files, {wrong} differ")
    return 1 if wrong else 0


if __name__ == "__main__":
    match sys.argv[1:]:
        case ["pieces", path, size]:
            pieces(path, int(size))
        case ["killed", program, path, runs, *words]:
            killed(program, path, int(runs), words)
        case ["kept", sent, packets]:
            kept(sent, packets)
        case ["rises", path]:
            rises(path)
        case ["decodes", path, text]:
            decodes(path, text)
        case ["compares", program, count, work]:
            sys.exit(compares(program, int(count), work))
        case _:
            sys.exit(__doc__)
