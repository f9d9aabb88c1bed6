#!/usr/bin/env python3
"""Streams for the tests of `archive`, and kills of an encoder and of the program.

`archiving.py long` writes one long stream to standard output. `archiving.py encode SEED` writes a stream as a live
encoder does, page by page with pauses, until it is killed; a line on standard error says that it has begun. `archiving.py kills PROGRAM FOLDER COUNT` runs an encoder
into `archive` again and again over one growing file, each time killing the encoder, the program or both, and checks
after each run what the file holds. `archiving.py fails PROGRAM LIBRARY FOLDER` has each device call fail in turn, and
`archiving.py refuses PROGRAM LIBRARY FOLDER` each request for memory, by the libraries of failing.c and refusing.c.
`archiving.py resumes PROGRAM LIBRARY FOLDER` has each device call fail once while two links come, one after the other:
all but one group of their commands is kept then. `archiving.py skeletons PROGRAM LIBRARY FOLDER` has each fail once while a
link with a Skeleton comes: wherever the link begins again, it has its Skeleton again.
"""
import os
import random
import select
import struct
import subprocess
import sys
import time

from pages import page


def packet(seed, number):
    """Its bytes tell where it belongs: its stream, its number, and a filling."""
    return struct.pack("<II", seed, number) + bytes([number & 0xFF]) * (number % 61)


def stream(seed, count):
    """The pages of a stream: a first page, and then pages of two packets each."""
    yield page(2, 0, 77, 0, [8], struct.pack("<II", seed, 0))
    number = 1
    for sequence in range(1, count):
        packets = [packet(seed, number), packet(seed, number + 1)]
        number += 2
        yield page(0, number, 77, sequence, [len(p) for p in packets], b"".join(packets))


def encode(seed):
    out = sys.stdout.buffer
    rng = random.Random(seed)
    for number, one in enumerate(stream(seed, 1 << 30)):
        out.write(one)
        out.flush()
        if number == 0:
            os.write(2, b"begun\n")
        time.sleep(rng.choice([0, 0, 0.001]))


def found(data):
    """The streams of a file's pages, front to back: their first packets' seeds, their packets, whether they end."""
    streams, where = [], 0
    while data[where : where + 4] == b"OggS" and len(data) >= where + 27:
        flags, position, serial, sequence = struct.unpack_from("<BqII", data, where + 5)
        count = data[where + 26]
        lacing = data[where + 27 : where + 27 + count]
        at = where + 27 + count
        size = 27 + count + sum(lacing)
        if len(data) < where + size:
            break
        body = data[at : where + size]
        # The page is as it would be written.
        if page(flags, position, serial, sequence, list(lacing), body) != data[where : where + size]:
            break
        if flags & 2:
            streams.append({"serial": serial, "packets": [], "ended": False, "next": 0})
        last = streams[-1]
        if last["serial"] != serial or last["next"] != sequence:
            raise ValueError(f"page at {where}: serial {serial}, number {sequence}")
        last["next"] += 1
        taken = 0
        for value in lacing:
            last["packets"].append(body[taken : taken + value])
            taken += value
        last["ended"] = bool(flags & 4)
        where += size
    return streams, where


def is_whole(one):
    """Whether a stream holds the first packets of its encoder, in order and whole."""
    seed, _ = struct.unpack("<II", one["packets"][0])
    return all(got == packet(seed, number) for number, got in enumerate(one["packets"][1:], 1))


def faults(data, before, end_before):
    """What is wrong with the file after a run."""
    streams, end = found(data)
    if data[:end_before] != before:
        yield "what was on the disk before has changed"
    if end < end_before:
        yield f"{end} bytes of pages, {end_before} before"
    serials = [one["serial"] for one in streams]
    if len(set(serials)) != len(serials):
        yield "a serial stands twice"
    for number, one in enumerate(streams):
        if not is_whole(one):
            yield f"link {number} doesn't hold the first packets of its encoder"
        if not one["ended"] and number + 1 < len(streams):
            yield f"link {number} of {len(streams)} is open"


def kills(program, folder, count):
    rng = random.Random(20)
    path = os.path.join(folder, "kills.ogg")
    wrong = runs = 0
    before, end_before = b"", 0
    for seed in range(1, count + 1):
        words = [sys.executable, __file__, "encode", str(seed)]
        encoder = subprocess.Popen(words, stdout=subprocess.PIPE, stderr=subprocess.PIPE)
        archive = subprocess.Popen(
            [program, "archive", path], stdin=encoder.stdout, stdout=subprocess.DEVNULL, stderr=subprocess.PIPE
        )
        encoder.stdout.close()
        # One in eight is killed at any moment of its start.
        if seed % 8:
            select.select([encoder.stderr], [], [], 20)
        time.sleep(rng.uniform(0, 0.13))
        victims = rng.choice([[encoder], [archive], [encoder, archive], [archive, encoder]])
        for victim in victims:
            victim.kill()
        try:
            told = archive.communicate(timeout=20)[1]
        except subprocess.TimeoutExpired:
            archive.kill()
            told = b"it didn't end"
        if archive not in victims and (archive.returncode != 0 or not told.splitlines()[-1].startswith(b"archived ")):
            print(f"run {seed}: status {archive.returncode}, {told[-200:]}")
            wrong += 1
        encoder.kill()
        encoder.communicate()
        data = open(path, "rb").read() if os.path.exists(path) else b""
        met = list(faults(data, before, end_before))
        for fault in met[:3]:
            print(f"run {seed}: {fault}")
        wrong += bool(met)
        _, end_before = found(data)
        before = data[:end_before]
        runs += 1
    streams, _ = found(before)
    if len(streams) < count // 4:
        print(f"only {len(streams)} links in {count} runs")
        wrong += 1
    print(f"{runs} runs, {wrong} wrong")


def is_part(some, all_of_it):
    """Whether these are some of the others, in their order."""
    rest = iter(all_of_it)
    return all(any(one == other for other in rest) for one in some)


def archived(program, path, given, most, environment):
    return subprocess.run([program, "archive", path, "--group", str(most)], input=given, stdout=subprocess.PIPE, stderr=subprocess.PIPE,
                          timeout=20, env={**os.environ, **environment})


def met_in_turn(mark, environment, limit):
    """An environment for each call that is met, from the first one on."""
    for call in range(1, limit):
        if os.path.exists(mark):
            os.remove(mark)
        yield call, environment(call)
        if not os.path.exists(mark):
            return
    raise ValueError("no end")


def holds(program, path, sent, ran, name):
    """What is wrong with the file after a run in which something failed."""
    again = archived(program, path, b"", 1, {})
    with open(path, "rb") as file:
        streams, _ = found(file.read())
    if again.returncode:
        yield f"{name}: not opened again, {again.stderr}"
    if any(not one["ended"] for one in streams):
        yield f"{name}: a stream is open"
    kept = streams[0]["packets"] if streams else []
    if len(streams) > 1 or not is_part(kept, sent):
        yield f"{name}: other packets"
    if ran.returncode == 0 and kept != sent:
        yield f"{name}: status 0, and {len(kept)} of {len(sent)} packets"


def fails(program, library, folder):
    path, mark = os.path.join(folder, "fails.ogg"), os.path.join(folder, "met")
    given = b"".join(stream(9, 12))
    sent = [struct.pack("<II", 9, 0)] + [packet(9, number) for number in range(1, 23)]
    runs = wrong = 0
    for most in (1, 4, 256):
        for how in ("io", "full", "interrupted", "short", "torn", "stop"):
            for onward in ({}, {"FAILING_ON": "1"}) if how in ("io", "full") else ({},):
                for call, failing in met_in_turn(mark, lambda call: {"LD_PRELOAD": library, "FAILING_CALL": str(call), "FAILING_HOW": how,
                                                                     "FAILING_MET": mark, **onward}, 400):
                    if os.path.exists(path):
                        os.remove(path)
                    ran = archived(program, path, given, most, failing)
                    name = f"{how} {'from' if onward else 'at'} call {call}, groups of {most}"
                    if not os.path.exists(mark):
                        continue
                    runs += 1
                    told = list(holds(program, path, sent, ran, name))
                    if ran.returncode == 1 and not ran.stderr.splitlines()[-1].startswith(b"fault "):
                        told.append(f"{name}: no fault is told, {ran.stderr}")
                    if how == "short" and ran.returncode:
                        told.append(f"{name}: a short write was taken for a fault, {ran.stderr}")
                    wrong += bool(told)
                    print(*told, sep="\n", end="\n" if told else "")
    print(f"{runs} runs, {wrong} wrong")
    return wrong or runs < 200


def link(seed, count):
    """The pages of a stream that ends."""
    pages = list(stream(seed, count))
    number = 2 * count - 1
    pages.append(page(4, number + 1, 77, count, [len(packet(seed, number))], packet(seed, number)))
    return pages


def packets_of(seed, count):
    return [struct.pack("<II", seed, 0)] + [packet(seed, number) for number in range(1, 2 * count)]


def lost_first(kept, sent, firsts, most):
    """Where the packets that are missing begin, if they are of one group of so many commands, and none other is. If a
    link begins in that group, the last such link begins again, unless it ends there too. None if it isn't so."""
    for start in range(len(sent) + 1):
        if kept[:start] != sent[:start]:
            return None
        for end in range(start, min(len(sent), start + 2 * most + 2) + 1):
            again = [one for one in sent[start:end] if one in firsts][-1:]
            if kept in (sent[:start] + sent[end:], sent[:start] + again + sent[end:]):
                return start
    return None


def resumes(program, library, folder):
    path, mark = os.path.join(folder, "resumes.ogg"), os.path.join(folder, "met")
    given = b"".join(link(9, 6) + link(10, 6))
    sent = packets_of(9, 6) + packets_of(10, 6)
    firsts = [sent[0], sent[len(sent) // 2]]
    runs = wrong = 0
    begun_again = set()
    for most in (1, 3, 4, 256):
        for how in ("io", "full", "torn"):
            for call, failing in met_in_turn(mark, lambda call: {"LD_PRELOAD": library, "FAILING_CALL": str(call), "FAILING_HOW": how,
                                                                 "FAILING_MET": mark}, 400):
                if os.path.exists(path):
                    os.remove(path)
                ran = archived(program, path, given, most, failing)
                lines = ran.stderr.splitlines()
                if not os.path.exists(mark) or not any(line.startswith(b"refused 21 Disk") for line in lines):
                    continue
                runs += 1
                name = f"{how} at call {call}, groups of {most}"
                told = []
                with open(path, "rb") as file:
                    streams, _ = found(file.read())
                if sum(line.startswith(b"refused ") for line in lines) > 1:
                    told.append(f"{name}: more is refused, {ran.stderr}")
                if any(not one["ended"] for one in streams) or len({one["serial"] for one in streams}) < len(streams):
                    told.append(f"{name}: a stream is open, or a serial stands twice")
                kept = [one for of_stream in streams for one in of_stream["packets"]]
                start = lost_first(kept, sent, firsts, most)
                if start is None:
                    told.append(f"{name}: more than a group is lost, {len(kept)} of {len(sent)} packets are kept")
                elif kept and any(kept.count(first) == 1 and sent[sent.index(first) + 1] not in kept for first in firsts):
                    begun_again.add(most)
                wrong += bool(told)
                print(*told, sep="\n", end="\n" if told else "")
    print(f"{runs} runs, {wrong} wrong")
    return wrong or runs < 100 or not {3, 4} <= begun_again


SKELETON = [b"fishead\0" + bytes(56), b"fisbone\0" + bytes(44), b""]


def with_skeleton(seed, count):
    """The pages of a link of a stream and of a Skeleton, which ends before the stream's data."""
    pages = list(stream(seed, count))
    return [
        page(2, 0, 99, 0, [64], SKELETON[0]),
        pages[0],
        page(0, 0, 99, 1, [52], SKELETON[1]),
        page(4, 0, 99, 2, [0], SKELETON[2]),
        *pages[1:],
    ]


def links_of(data):
    """The links of a file: of each stream its packets, and whether it ends."""
    links, where, after_first = [], 0, True
    while data[where : where + 4] == b"OggS":
        flags, serial = data[where + 5], struct.unpack_from("<I", data, where + 14)[0]
        lacing = data[where + 27 : where + 27 + data[where + 26]]
        at = where + 27 + len(lacing)
        if flags & 2:
            if after_first:
                links.append({})
            links[-1][serial] = [[], False]
        after_first = not flags & 2
        for value in lacing:
            links[-1][serial][0].append(data[at : at + value])
            at += value
        links[-1][serial][1] |= bool(flags & 4)
        where = at
    return links


def skeletons(program, library, folder):
    path, mark = os.path.join(folder, "skeletons.ogg"), os.path.join(folder, "met")
    given = b"".join(with_skeleton(9, 12))
    runs = wrong = again = 0
    for most in (1, 3, 4, 6):
        for call, failing in met_in_turn(mark, lambda call: {"LD_PRELOAD": library, "FAILING_CALL": str(call), "FAILING_HOW": "io",
                                                             "FAILING_MET": mark}, 400):
            if os.path.exists(path):
                os.remove(path)
            ran = archived(program, path, given, most, failing)
            if not os.path.exists(mark) or b"refused 21 Disk" not in ran.stderr:
                continue
            runs += 1
            with open(path, "rb") as file:
                links = links_of(file.read())
            for one in links:
                streams = list(one.values())
                # The end of a stream has a page to itself, with an empty packet or none.
                packets = [packet for packet in streams[0][0] if packet]
                if len(streams) != 2 or packets != SKELETON[:2] or not streams[0][1]:
                    wrong += 1
                    print(f"call {call}, groups of {most}: a link of {len(streams)} streams, the first with {len(packets)} packets")
            # It began again if the first packets after the headers were lost.
            again += any(list(one.values())[-1][0][1:2] != [packet(9, 1)] for one in links)
    print(f"{runs} runs, {wrong} wrong, {again} times the link began again")
    return wrong or runs < 60 or again < 5


def refuses(program, library, folder):
    path, mark = os.path.join(folder, "refuses.ogg"), os.path.join(folder, "refused")
    given = b"".join(stream(9, 12))
    sent = [struct.pack("<II", 9, 0)] + [packet(9, number) for number in range(1, 23)]
    runs = wrong = 0
    for onward in ({}, {"REFUSING_ON": "1"}):
        for call, refusing in met_in_turn(mark, lambda call: {"LD_PRELOAD": library, "REFUSING_CALL": str(call), "REFUSING_MET": mark, **onward},
                                          4000):
            if os.path.exists(path):
                os.remove(path)
            ran = archived(program, path, given, 4, refusing)
            if not os.path.exists(mark):
                continue
            runs += 1
            name = f"request {call}{' and all after it' if onward else ''}"
            told = list(holds(program, path, sent, ran, name)) if os.path.exists(path) else []
            if ran.returncode and not any(line in ran.stderr for line in (b"emory", b"refused 20 Memory")):
                told.append(f"{name}: status {ran.returncode}, {ran.stderr[-200:]}")
            wrong += bool(told)
            print(*told, sep="\n", end="\n" if told else "")
    print(f"{runs} runs, {wrong} wrong")
    return wrong or runs < 100


if __name__ == "__main__":
    if sys.argv[1] == "long":
        sys.stdout.buffer.write(b"".join(stream(5, 400)))
    elif sys.argv[1] == "encode":
        try:
            encode(int(sys.argv[2]))
        except BrokenPipeError:
            os.close(1)
    elif sys.argv[1] == "fails":
        sys.exit(fails(*sys.argv[2:]))
    elif sys.argv[1] == "resumes":
        sys.exit(resumes(*sys.argv[2:]))
    elif sys.argv[1] == "skeletons":
        sys.exit(skeletons(*sys.argv[2:]))
    elif sys.argv[1] == "refuses":
        sys.exit(refuses(*sys.argv[2:]))
    else:
        kills(sys.argv[2], sys.argv[3], int(sys.argv[4]))
