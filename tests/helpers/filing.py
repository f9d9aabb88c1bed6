#!/usr/bin/env python3
"""Folders of recordings for the tests of `archive DIR`: what they hold, and kills of an encoder and of the program.

`filing.py holds FOLDER COUNT ..` checks a folder that streams of so many pages were recorded into, one after the other, whole:
each packet stands once, in order, over all files. `filing.py kills PROGRAM FOLDER COUNT` runs an encoder into `archive`
again and again over one growing folder whose files have few pages, each time killing the encoder, the program or both,
and checks after each run what the folder holds. `filing.py fills PROGRAM LIBRARY FOLDER` has the device run full at each of
its calls in turn, by the library of filling.c, until one file or two were thrown away. `filing.py fails PROGRAM LIBRARY
FOLDER` has each device call of a recording over several files fail in turn, or the program stop before it, by the library of
failing.c; then another stream is recorded, and all that was kept of the first one is there still.
"""
import os
import random
import re
import select
import shutil
import struct
import subprocess
import sys
import time

from archiving import found, packet, stream

NAME = re.compile(r"(\d{6,})-\d{8}T\d{6}Z(-on)?\.ogg")


def files_of(folder):
    """The files by number: each with its name, whether it goes on, its bytes, and the lines of its times."""
    files = []
    for name in os.listdir(folder):
        if it := NAME.fullmatch(name):
            path = os.path.join(folder, name)
            times = path[:-4] + ".times"
            # A line that a stop has torn, or a fault, isn't one.
            lines = open(times).read().split("\n")[:-1] if os.path.exists(times) else []
            files.append((int(it[1]), name, bool(it[2]), open(path, "rb").read(), lines))
    return sorted(files)


def wrong_times(data, end, lines):
    """What is wrong with the times of a file whose pages end here."""
    boundaries, where = {0}, 0
    while where < end:
        count = data[where + 26]
        where += 27 + count + sum(data[where + 27 : where + 27 + count])
        boundaries.add(where)
    last = (0, 0)
    for number, line in enumerate(lines):
        offset, moment, begin, begun = line.split(" ")
        offset, moment = int(offset), int(moment)
        if offset not in boundaries:
            yield f"line {number}: {offset} is no end of a page"
        if number and (offset <= last[0] or moment < last[1]):
            yield f"line {number} doesn't rise: {line}"
        if begin != "-" and not int(begin) < int(begun) <= offset:
            yield f"line {number}: {line}"
        if begin != "-" and data[int(begin) + 5] & 2 == 0:
            yield f"line {number}: no link begins at {begin}"
        last = (offset, moment)


def wrong(folder, whole=(), ended=False):
    """What is wrong with a folder: each stream's packets are the first of its encoder, in order, over all files, and those
    of the streams in `whole` are all there. Returns the faults, and how many packets of each stream there are."""
    faults, counts, going = [], {}, None
    files = files_of(folder)
    numbers = [it[0] for it in files]
    if numbers != sorted(set(numbers)):
        faults.append(f"numbers {numbers}")
    for number, name, goes_on, data, lines in files:
        streams, end = found(data)
        is_newest = number == numbers[-1]
        if not is_newest and end != len(data):
            faults.append(f"{name}: {len(data) - end} bytes behind its pages")
        # One that was set aside has what a stop left.
        if is_newest and len(data) - end > 1 and data[end] != 0:
            faults.append(f"{name}: a tail of {len(data) - end} bytes")
        faults += [f"{name}: times: {it}" for it in wrong_times(data, end, lines)]
        for place, one in enumerate(streams):
            seed, _ = struct.unpack("<II", one["packets"][0][:8])
            before = counts.get(seed, 0)
            continues = place == 0 and seed == going
            if before and not continues:
                # The link was begun again after a fault, or a file was set aside.
                faults.append(f"{name}: stream {seed} begins a second time at link {place}")
            if goes_on and place == 0 and not continues:
                faults.append(f"{name}: it goes on with nothing")
            if continues and not goes_on:
                faults.append(f"{name}: it goes on, and doesn't say so")
            for at, got in enumerate(one["packets"][1:], before + 1):
                if got != packet(seed, at):
                    faults.append(f"{name}: packet {at} of stream {seed}")
                    break
            counts[seed] = before + len(one["packets"]) - 1
            if not one["ended"] and (ended or not is_newest or place + 1 < len(streams)):
                faults.append(f"{name}: link {place} is open")
            going = seed
        serials = [one["serial"] for one in streams]
        if len(set(serials)) != len(serials):
            faults.append(f"{name}: a serial stands twice")
    for seed, count in dict(whole).items():
        if counts.get(seed, 0) != count:
            faults.append(f"stream {seed} has {counts.get(seed, 0)} packets, not {count}")
    return faults, counts


def kills(program, folder, count):
    rng = random.Random(21)
    path = os.path.join(folder, "kills") + "/"
    bad = runs = 0
    kept = {}
    for seed in range(1, count + 1):
        encoder = subprocess.Popen(
            [sys.executable, os.path.join(os.path.dirname(__file__), "archiving.py"), "encode", str(seed)],
            stdout=subprocess.PIPE,
            stderr=subprocess.PIPE,
        )
        most = str(rng.choice([300, 1000, 5000]))
        archive = subprocess.Popen(
            [program, "archive", path, "--every", "1s", "--most-bytes", most],
            stdin=encoder.stdout,
            stdout=subprocess.DEVNULL,
            stderr=subprocess.PIPE,
        )
        encoder.stdout.close()
        if seed % 8:
            select.select([encoder.stderr], [], [], 20)
        time.sleep(rng.uniform(0, 0.2))
        victims = rng.choice([[encoder], [archive], [encoder, archive], [archive, encoder]])
        for victim in victims:
            victim.kill()
        try:
            told = archive.communicate(timeout=20)[1]
        except subprocess.TimeoutExpired:
            archive.kill()
            told = b"it didn't end"
        if archive not in victims and (archive.returncode != 0 or not told.splitlines()[-1].startswith(b"archived ")):
            print(f"run {seed}: status {archive.returncode}, {told[-200:]}")
            bad += 1
        encoder.kill()
        encoder.communicate()
        faults, counts = wrong(path) if os.path.isdir(path) else ([], {})
        faults += [f"stream {it} had {much} packets" for it, much in kept.items() if counts.get(it, 0) < much]
        for fault in faults[:3]:
            print(f"run {seed}: {fault}")
        bad += bool(faults)
        kept, runs = counts, runs + 1
    files = len(files_of(path))
    if len(kept) < count // 4 or files < count // 2:
        print(f"only {len(kept)} streams in {files} files in {count} runs")
        bad += 1
    print(f"{runs} runs, {bad} wrong")


# How many commands share a commit while the device runs full, and how many pages come then.
GROUP, COMING = 4, 16


def filled(path, program, library, call, going, *words):
    """Archives stream 2 into the folder while the device runs full from this call on until so many files went. Returns
    whether a call has failed, the status, and what was told."""
    met = path + ".met"
    if os.path.exists(met):
        os.remove(met)
    ran = subprocess.run(
        [program, "archive", path, "--every", "52w", "--most-bytes", "400", "--group", str(GROUP), *words],
        input=b"".join(stream(2, COMING)),
        stdout=subprocess.DEVNULL,
        stderr=subprocess.PIPE,
        timeout=20,
        env={**os.environ, "LD_PRELOAD": library, "FILLING_CALL": str(call), "FILLING_GOING": str(going), "FILLING_MET": met},
    )
    return os.path.exists(met), ran.returncode, ran.stderr.decode().splitlines()


def untrue(path, before, status, told, gone):
    """What is wrong after the device ran full, and so many of the files that there were before had to go."""
    files = files_of(path)
    left = {name: data for _, name, _, data, _ in files}
    removed = [line.split()[3] for line in told if " removed " in line]
    # A line of times that can't be written is told, and needs no room.
    is_advice = not removed and any(line.startswith("no times: ") for line in told)
    if removed != [name for _, name, _, _, _ in before[:gone]] and not is_advice:
        yield f"thrown away: {removed}"
    for _, name, _, data, _ in before[gone:]:
        if not left.get(name, b"").startswith(data):
            yield f"{name} has changed"
    lost = sum(line.startswith("refused 21 Disk ") for line in told)
    if (status, told[-1]) not in [(0, told[-1]), (1, "fault refused")] or (status == 1) != (lost > 0):
        yield f"status {status}, {lost} times lost, {told[-1]}"
    numbers, serials = [], set()
    for _, name, _, data, lines in files:
        streams, end = found(data)
        yield from (f"{name}: times: {it}" for it in wrong_times(data, end, lines))
        for one in streams:
            seed, _ = struct.unpack("<II", one["packets"][0][:8])
            got = [struct.unpack("<II", it[:8])[1] for it in one["packets"][1:]]
            if any(it != packet(seed, number) for it, number in zip(one["packets"][1:], got)):
                yield f"{name}: a packet isn't what was sent"
            if not one["ended"]:
                yield f"{name}: a link is open"
            if (name, one["serial"]) in serials:
                yield f"{name}: a serial stands twice"
            serials.add((name, one["serial"]))
            numbers += got if seed == 2 else []
    if numbers != sorted(set(numbers)):
        yield f"packets {numbers}"
    kept = [int(line.split()[2]) for line in told if line.startswith("archived ")]
    missing = 2 * (COMING - 1) - len(numbers)
    if not kept or kept[0] > len(numbers) or missing > 2 * GROUP * lost:
        yield f"{len(numbers)} packets, archived {kept}, {missing} missing, {lost} times lost"


def fills(program, library, folder):
    old, path = os.path.join(folder, "filled"), os.path.join(folder, "full")
    subprocess.run(
        [program, "archive", old, "--every", "52w", "--most-bytes", "300", "--seal"],
        input=b"".join(stream(1, 16)),
        stderr=subprocess.DEVNULL,
        timeout=20,
    )
    before = files_of(old)
    runs = bad = losses = 0

    def fresh():
        shutil.rmtree(path, ignore_errors=True)
        shutil.copytree(old, path)

    for going in (1, 2):
        # The first three sync the lock and the folder, before a file is looked at: the run ends there.
        for call in range(4, 500):
            fresh()
            met, status, told = filled(path, program, library, call, going, "--keep-bytes", "100000")
            if not met:
                break
            losses += status == 1
            faults = list(untrue(path, before, status, told, going))
            for fault in faults[:3]:
                print(f"full at call {call}, until {going} went: {fault}")
            bad += bool(faults)
            runs += 1
    # Nothing is thrown away unless a bound is set for the bytes.
    fresh()
    met, status, told = filled(path, program, library, 12, 1)
    if not met or status != 1 or any(" removed " in it for it in told) or len(files_of(path)) < len(before):
        print(f"with no bound: status {status}, {told}")
        bad += 1
    # Nor is what has a mark: the next one goes.
    fresh()
    open(os.path.join(path, before[0][1] + ".keep"), "w").close()
    met, status, told = filled(path, program, library, 12, 1, "--keep-bytes", "100000")
    if not met or [it.split()[1] for it in told if " removed " in it] != [str(before[1][0])]:
        print(f"with a mark: status {status}, {told}")
        bad += 1
    # With nothing that may go the run ends.
    fresh()
    met, status, told = filled(path, program, library, 12, 100, "--keep-bytes", "100000")
    if status != 1 or len([it for it in told if " removed " in it]) != len(before) - 1:
        print(f"full for good: status {status}, {told}")
        bad += 1
    if runs < 60 or losses < 10:
        print(f"only {runs} runs, {losses} with a loss")
        bad += 1
    print(f"{runs} runs, {bad} wrong")


def in_files(folder):
    """The numbers of the packets of each stream, in order, and what is wrong with the files."""
    numbers, faults = {}, []
    for _, name, _, data, lines in files_of(folder):
        streams, end = found(data)
        faults += [f"{name}: times: {it}" for it in wrong_times(data, end, lines)]
        for one in streams:
            seed, _ = struct.unpack("<II", one["packets"][0][:8])
            got = [struct.unpack("<II", it[:8])[1] for it in one["packets"][1:]]
            faults += [f"{name}: packet {at}" for it, at in zip(one["packets"][1:], got) if it != packet(seed, at)]
            numbers.setdefault(seed, []).extend(got)
    faults += [f"stream {seed}: {got}" for seed, got in numbers.items() if got != sorted(set(got))]
    return numbers, faults


def failed(path, program, library, call, how):
    """Archives stream 1 over several files, and then stream 2. Returns whether the call was met, and what is wrong."""
    shutil.rmtree(path, ignore_errors=True)
    command = [program, "archive", path, "--every", "52w", "--most-bytes", "300", "--group", str(GROUP)]
    more = {"LD_PRELOAD": library, "FAILING_CALL": str(call), "FAILING_HOW": how, "FAILING_MET": path[:-1] + ".met"}
    if os.path.exists(more["FAILING_MET"]):
        os.remove(more["FAILING_MET"])
    given = b"".join(stream(1, COMING))
    first = subprocess.run(command, input=given, capture_output=True, timeout=20, env={**os.environ, **more})
    if not os.path.exists(more["FAILING_MET"]):
        return False, []
    told = first.stderr.decode().splitlines()
    numbers, faults = in_files(path) if os.path.isdir(path) else ({}, [])
    kept = numbers.get(1, [])
    if how == "stop" and kept != list(range(1, len(kept) + 1)):
        faults.append(f"stopped: packets {kept}")
    if how != "stop" and (first.returncode not in (0, 1) or not told):
        faults.append(f"status {first.returncode}, {told}")
    if first.returncode == 0 and kept != list(range(1, 2 * COMING - 1)):
        faults.append(f"status 0, and packets {kept}")
    second = subprocess.run(command, input=b"".join(stream(2, COMING)), capture_output=True, timeout=20)
    then = second.stderr.decode().splitlines()
    if second.returncode != 0:
        faults.append(f"the second run: status {second.returncode}, {then}")
    numbers, more_faults = in_files(path)
    faults += more_faults
    if numbers.get(1, [])[: len(kept)] != kept:
        faults.append(f"packets {kept} became {numbers.get(1, [])}")
    if numbers.get(2, []) != list(range(1, 2 * COMING - 1)):
        faults.append(f"of the second stream {numbers.get(2, [])}")
    aside = {line.split()[1] for line in told + then if line.startswith("damaged ")}
    for _, name, _, data, _ in files_of(path)[:-1]:
        streams, end = found(data)
        if name not in aside and (end != len(data) or not all(one["ended"] for one in streams)):
            faults.append(f"{name} isn't sealed")
    return True, faults


def fails(program, library, folder):
    runs = bad = 0
    for how in ("stop", "io", "full", "torn", "short", "interrupted"):
        for call in range(1, 1000):
            met, faults = failed(os.path.join(folder, "fails/"), program, library, call, how)
            if not met:
                break
            for fault in faults[:3]:
                print(f"{how} at call {call}: {fault}")
            bad += bool(faults)
            runs += 1
    if runs < 300:
        print(f"only {runs} runs")
        bad += 1
    print(f"{runs} runs, {bad} wrong")


def main():
    match sys.argv[1:]:
        case ["stream", seed, count]:
            sys.stdout.buffer.write(b"".join(stream(int(seed), int(count))))
        case ["holds", folder, *counts]:
            # Of a stream of so many pages all but the first have two packets.
            whole = {seed: 2 * (int(it) - 1) for seed, it in enumerate(counts, 1)}
            faults, _ = wrong(folder, whole, ended=True)
            print("\n".join(faults[:5]), end="\n" if faults else "")
            sys.exit(bool(faults))
        case ["kills", program, folder, count]:
            kills(program, folder, int(count))
        case ["fills", program, library, folder]:
            fills(program, library, folder)
        case ["fails", program, library, folder]:
            fails(program, library, folder)
        case _:
            sys.exit(__doc__)


if __name__ == "__main__":
    main()
