#!/usr/bin/env python3
"""Compares what is in Ogg files before and after `feed`.

    feeding.py same FILE OTHER        whether both hold the same streams, packets, positions and ends
    feeding.py renumbered FILE OTHER  the same, but a stream whose serial an earlier link has gets another one in OTHER
    feeding.py skeletons FILE OTHER [SERIAL]
                                      the same without its Skeletons, or with one made anew for each link, from SERIAL on
    feeding.py compare PROGRAM        random files through `feed` and `mux`, whole, in pieces, cut, and with a byte changed
    feeding.py live PROGRAM           a page at a time through a pipe: its record is out before the next page comes

If a page of the first file ends with the end of a packet, its position is compared: the packet has it in the other file
too.
"""
import os
import random
import select
import struct
import subprocess
import sys
import threading

sys.path.insert(0, os.path.dirname(os.path.abspath(__file__)))
from finishing import links_of
from model import mux, random_feed
from pages import page
from reading import chain_of, found

LAST, NO_POSITION = 4, 2**64 - 1


def pages_of(data):
    """The pages up to the first fault, and whether there was one."""
    pages = []
    for at, one, fault in found(data):
        if fault:
            return pages, True
        pages.append(list(one[:6]) + [data[at:one[6]]])
    return pages, False


def streams_of(pages):
    """For each link its streams in order: serial, whole packets, whether it has ended, and the positions that its pages state."""
    told = []
    for link in links_of(pages):
        streams = {}
        for flags, position, serial, _, lacing, body, _ in link:
            stream = streams.setdefault(serial, {"packets": [], "open": b"", "ended": False, "positions": {}})
            at = 0
            for value in lacing:
                stream["open"] += body[at:at + value]
                at += value
                if value < 255:
                    stream["packets"].append(stream["open"])
                    stream["open"] = b""
            if lacing and lacing[-1] < 255 and position != NO_POSITION:
                stream["positions"][len(stream["packets"])] = position
            stream["ended"] |= bool(flags & LAST)
        told.append(streams)
    return told


def differ(name, data, other):
    """How the second bytes differ from the whole packets of the first ones, as a line, or nothing."""
    one, two = streams_of(pages_of(data)[0]), streams_of(pages_of(other)[0])
    if [list(link) for link in one] != [list(link) for link in two]:
        return "%s: links %r and not %r" % (name, [list(link) for link in two], [list(link) for link in one])
    for number, (link, made) in enumerate(zip(one, two)):
        for serial, stream in link.items():
            again = made[serial]
            if again["packets"] != stream["packets"]:
                return "%s: link %d, stream %d: %d packets and not %d, or others" % (name, number, serial, len(again["packets"]), len(stream["packets"]))
            if again["ended"] != stream["ended"]:
                return "%s: link %d, stream %d: another end" % (name, number, serial)
            for count, position in stream["positions"].items():
                # The headers of a link have no position.
                if again["positions"].get(count, position if count <= HEADERS else None) not in (position, 0 if count <= HEADERS else position):
                    return "%s: link %d, stream %d: packet %d at %r and not at %d" % (name, number, serial, count, again["positions"].get(count), position)
    return None


HEADERS = 3


def renumbered(data, other):
    """How the second bytes differ from the first ones under serials that no two links share, as a line, or nothing."""
    one, two = streams_of(pages_of(data)[0]), streams_of(pages_of(other)[0])
    if len(one) != len(two):
        return "%d links and not %d" % (len(two), len(one))
    earlier = set()
    for number, (link, made) in enumerate(zip(one, two)):
        if [(s["packets"], s["ended"]) for s in link.values()] != [(s["packets"], s["ended"]) for s in made.values()]:
            return "link %d holds something else" % number
        for was, now in zip(link, made):
            if now in earlier or was not in earlier and now != was:
                return "link %d: serial %d became %d" % (number, was, now)
        earlier |= set(made)
    return None


def is_skeleton(stream):
    return any(packet.startswith(b"fishead\0") for packet in stream["packets"][:1])


def described(first):
    """What a first packet says of its stream: media type, rate, preroll, shift, and how many packets are headers."""
    def number(form, at):
        field = first[at:at + 4].ljust(4, b"\0")
        return struct.unpack(form, field)[0]
    byte = lambda at: first[at] if at < len(first) else 0
    if first.startswith(b"\x01vorbis"):
        return b"audio/vorbis", number("<I", 12), 1, 2, 0, 3
    if first.startswith(b"\x80theora"):
        return b"video/theora", number(">I", 22), number(">I", 26), 0, (byte(40) & 3) << 3 | byte(41) >> 5, 3
    if first.startswith(b"OpusHead"):
        return b"audio/opus", 48000, 1, 4, 0, 2
    if first.startswith(b"\x7fFLAC"):
        return b"audio/flac", number(">I", 27) >> 12, 1, 0, 0, 1 + (byte(7) << 8 | byte(8))
    if first.startswith(b"Speex   "):
        return b"audio/speex", number("<I", 36), 1, 3, 0, 2 + (byte(68) | byte(69) << 8)
    return b"application/octet-stream", 1, 1, 0, 0, 1


def skeleton_of(streams, said):
    """The packets of the Skeleton of these streams (Ogg Skeleton 3.0): each with its serial now, and the one that it had. It says
    what the packets `said` of the link's own Skeletons say."""
    times = said[0][12:64] if said else struct.pack("<qqqq20x", 0, 1000, 0, 1000)
    packets = [b"fishead\0" + struct.pack("<HH", 3, 0) + times]
    for serial, was, stream in streams:
        media, rate, denominator, preroll, shift, headers = described(b"".join(stream["packets"][:1]))
        numbers = struct.pack("<qqqIB3x", max(rate, 1), max(denominator, 1), 0, preroll, shift)
        fields = b"Content-Type: " + media + b"\r\n"
        for bone in said[1:]:
            if bone.startswith(b"fisbone\0") and struct.unpack_from("<I", bone, 12)[0] == was:
                numbers, fields = bone[20:52], bone[52:]
                break
        packets.append(b"fisbone\0" + struct.pack("<III", 44, serial, min(headers, len(stream["packets"]))) + numbers + fields)
    return packets + [b""]


def next_free(serial, taken):
    while serial in taken:
        serial = (serial + 1) % 2**32
    return serial


def skeletons(data, other, made_from=None, renumber=False):
    """How the second bytes aren't the first ones without their Skeletons, or with Skeletons made anew, as a line, or nothing."""
    one, two = streams_of(pages_of(data)[0]), streams_of(pages_of(other)[0])
    if len(one) != len(two):
        return "%d links and not %d" % (len(two), len(one))
    earlier = set()
    for number, (link, now) in enumerate(zip(one, two)):
        stay = {serial: stream for serial, stream in link.items() if not is_skeleton(stream)}
        has_made = made_from is not None and 0 < len(stay) < 64
        stay = stay or link
        streams = list(now.items())
        if has_made:
            serial, skeleton = streams.pop(0)
            if serial != next_free(made_from, earlier | {one for one, _ in streams}):
                return "link %d: a Skeleton of serial %d" % (number, serial)
            said = [packet for stream in link.values() if is_skeleton(stream) for packet in stream["packets"]]
            if skeleton["packets"] != skeleton_of([(now, was, one) for was, (now, one) in zip(stay, streams)], said) or not skeleton["ended"]:
                return "link %d: another Skeleton: %r" % (number, skeleton["packets"])
        if [(s["packets"], s["ended"]) for s in stay.values()] != [(s["packets"], s["ended"]) for _, s in streams]:
            return "link %d holds something else" % number
        for was, (serial, _) in zip(stay, streams):
            if serial != was and not (renumber and was in earlier) or renumber and serial in earlier:
                return "link %d: serial %d became %d" % (number, was, serial)
        earlier |= set(now)
    return None


def run(words, given):
    return subprocess.run(words, input=given, stdout=subprocess.PIPE, stderr=subprocess.PIPE, timeout=20)


def in_pieces(program, data, source):
    """What `feed` writes if its input comes in pieces."""
    process = subprocess.Popen([program, "feed"], stdin=subprocess.PIPE, stdout=subprocess.PIPE, stderr=subprocess.PIPE)
    written = [b"", b""]

    def keep(number, stream):
        written[number] = stream.read()

    # Its output is read meanwhile: a full pipe would stop it, and then us.
    readers = [threading.Thread(target=keep, args=it) for it in enumerate((process.stdout, process.stderr))]
    for reader in readers:
        reader.start()
    stop = threading.Timer(20, process.kill)
    stop.start()
    at = 0
    try:
        while at < len(data):
            size = source.choice([1, 2, 26, 27, 100, 5000])
            process.stdin.write(data[at:at + size])
            process.stdin.flush()
            at += size
        process.stdin.close()
    except BrokenPipeError:
        pass
    for reader in readers:
        reader.join()
    status = process.wait()
    stop.cancel()
    return written[0], written[1], status


def fault_of(data):
    """The fault line that an input has, or nothing."""
    at, text = 0, b""
    for at, one, fault in found(data):
        if fault:
            return b"fault make 1 Page %d %d %s\n" % (at, fault[0], fault[1].encode())
    return text


def check(program, name, data, source):
    told, fault = streams_of(pages_of(data)[0]), fault_of(data)
    made = run([program, "feed"], data)
    again = run([program, "mux", "--strict"], made.stdout)
    open_packet = any(stream["open"] for link in told for stream in link.values())
    wrong = []
    if again.returncode:
        wrong.append("%s: a command is refused: %r" % (name, again.stderr[-100:]))
    difference = differ(name, data, again.stdout)
    if difference:
        wrong.append(difference)
    if fault and (made.returncode, made.stderr) != (1, fault):
        wrong.append("%s: %r and not %r" % (name, made.stderr, fault))
    if not fault and not open_packet and (made.returncode, made.stderr) != (0, b""):
        wrong.append("%s: %r" % (name, made.stderr))
    if not fault and open_packet and not made.stderr.startswith(b"fault make 4 Unfinished %d " % len(data)):
        wrong.append("%s: %r for an open packet" % (name, made.stderr))
    if in_pieces(program, data, source) != (made.stdout, made.stderr, made.returncode):
        wrong.append("%s: another feed if the input comes in pieces" % name)
    for line in wrong[:1]:
        print(line)
    return len(wrong)


def options(program):
    """Random files with and without Skeletons, alone and twice, through `feed` with its options, and `mux`."""
    cases = [(["--no-skeleton"], None, 1), (["--skeleton", "3000000000"], 3000000000, 1), (["--skeleton", "0", "--renumber"], 0, 2),
             (["--no-skeleton", "--renumber"], None, 2)]
    files = wrong = described_files = 0
    for n in range(40):
        data = mux(random_feed(random.Random(7000 + n)))[0]
        for words, made_from, times in cases:
            if times == 2 and any(stream["open"] for link in streams_of(pages_of(data)[0]) for stream in link.values()):
                continue
            if not data or times == 2 and not all(stream["ended"] for link in streams_of(pages_of(data)[0])[-1:] for stream in link.values()):
                continue
            files += 1
            made = run([program, "feed"] + words, data * times)
            again = run([program, "mux", "--strict"], made.stdout)
            difference = skeletons(data * times, again.stdout, made_from, "--renumber" in words)
            described_files += any(is_skeleton(stream) for link in streams_of(pages_of(data)[0]) for stream in link.values())
            if difference or again.returncode:
                wrong += 1
                print("file %d, %s: %s %r" % (n, " ".join(words), difference, again.stderr[-60:]))
    print("%d files, %d of them with Skeletons, %d differ" % (files, described_files, wrong))
    return 1 if wrong or files < 60 or described_files < 10 else 0


def compare(program):
    files = wrong = 0
    for n in range(60):
        source = random.Random(n)
        data = mux(random_feed(random.Random(5000 + n)))[0]
        if not data:
            continue
        cases = [("file %d" % n, data)]
        cut = source.randrange(len(data))
        cases.append(("file %d, %d bytes of it" % (n, cut), data[:cut]))
        place = source.randrange(len(data))
        cases.append(("file %d, byte %d changed" % (n, place), data[:place] + bytes([data[place] ^ 1 << source.randrange(8)]) + data[place + 1:]))
        for name, bytes_of in cases:
            files += 1
            wrong += check(program, name, bytes_of, source)
    print("%d files, %d differ" % (files, wrong))
    return 1 if wrong or files < 90 else 0


def live(program):
    """Pages of one stream through a pipe, each followed by nothing until its record has come."""
    process = subprocess.Popen([program, "feed"], stdin=subprocess.PIPE, stdout=subprocess.PIPE)
    steps = [(page(2, 0, 1, 0, [3], b"abc"), 6), (page(0, 5, 1, 1, [5], b"hello"), 6 + 54 + 28), (page(4, 9, 1, 2, [1], b"x"), 6 + 54 + 28 + 24 + 9)]
    got = b""
    for number, (one, size) in enumerate(steps):
        half = len(one) // 2
        for part in (one[:half], one[half:]):
            process.stdin.write(part)
            process.stdin.flush()
        while len(got) < size:
            if not select.select([process.stdout], [], [], 10)[0]:
                print("page %d: %d bytes and not %d" % (number, len(got), size))
                process.kill()
                return 1
            got += os.read(process.stdout.fileno(), 65536)
    process.stdin.close()
    rest = process.stdout.read()
    status = process.wait(timeout=10)
    kinds = [got[0], got[6]]
    if rest or status or len(got) != steps[-1][1] or kinds != [0, 1]:
        print("status %d, %d bytes and %d" % (status, len(got), len(rest)))
        return 1
    return 0


def main():
    if sys.argv[1] in ("same", "renumbered"):
        data, other = (open(path, "rb").read() for path in sys.argv[2:4])
        difference = differ(sys.argv[2], data, other) if sys.argv[1] == "same" else renumbered(data, other)
        if difference:
            print(difference)
        return 1 if difference else 0
    if sys.argv[1] == "skeletons":
        data, other = (open(path, "rb").read() for path in sys.argv[2:4])
        difference = skeletons(data, other, *map(int, sys.argv[4:]))
        if difference:
            print(difference)
        return 1 if difference else 0
    return {"compare": compare, "options": options, "live": live}[sys.argv[1]](sys.argv[2])


if __name__ == "__main__":
    sys.exit(main())
