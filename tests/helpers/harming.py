#!/usr/bin/env python3
"""Whatever stands in a folder, `archive DIR` records: its newest file harmed anywhere, ten thousand files, a clock that jumps.

`harming.py harms PROGRAM FOLDER COUNT` turns bits of the newest file over, cuts it, writes over it and behind it, at random
places, and archives another stream. `harming.py many PROGRAM FOLDER` does so into a folder of 10,000 files.
`harming.py clocks PROGRAM LIBRARY FOLDER` sets the clock, by the library of setting.c, to 1970 and by years to and fro from
run to run.

Each prints what is wrong, and last how many runs there were, and in how many something was wrong.
"""
import hashlib
import os
import random
import shutil
import subprocess
import sys

from archiving import found, is_whole, stream
from filing import NAME, files_of

PAGES = 30
PACKETS = 2 * (PAGES - 1)


def archive(program, path, seed, *words, **more):
    ran = subprocess.run(
        [program, "archive", path, *words],
        input=b"".join(stream(seed, PAGES)),
        stdout=subprocess.PIPE,
        stderr=subprocess.PIPE,
        timeout=20,
        env={**os.environ, **more},
    )
    return ran.returncode, ran.stderr.decode(errors="replace")


def newest(path):
    return max((int(it[1]), name) for name in os.listdir(path) if (it := NAME.fullmatch(name)))[1]


def packets_of(path, seed):
    """The numbers of the packets of a stream, over all files."""
    numbers = []
    for _, name, _, data, _ in files_of(path):
        for one in found(data)[0]:
            if int.from_bytes(one["packets"][0][:4], "little") == seed:
                if not is_whole(one):
                    yield f"{name}: a packet isn't what was sent"
                numbers += [int.from_bytes(it[4:8], "little") for it in one["packets"][1:]]
    if numbers != list(range(1, PACKETS + 1)):
        yield f"stream {seed} has the packets {numbers}"


def harm(rng, data):
    """A harmed copy, how, and whether all that was recorded is still there as it was."""
    kind = rng.choice(["bit", "bit", "bit", "cut", "over", "zeros", "behind"])
    at = rng.randrange(len(data))
    if kind == "bit":
        harmed = bytearray(data)
        harmed[at] ^= 1 << rng.randrange(8)
        return bytes(harmed), f"a bit at {at}"
    if kind == "cut":
        return data[:at], f"cut at {at}"
    if kind == "behind":
        more = rng.randbytes(rng.randrange(1, 300))
        return data + more, f"{len(more)} bytes behind"
    size = min(rng.choice([1, 20, 512]), len(data) - at)
    filling = bytes(size) if kind == "zeros" else rng.randbytes(size)
    return data[:at] + filling + data[at + size :], f"{size} {kind} at {at}"


def harms(program, folder, count):
    rng = random.Random(31)
    whole, path = os.path.join(folder, "unharmed"), os.path.join(folder, "harmed")
    archive(program, whole + "/", 1)
    name = newest(whole)
    data = open(os.path.join(whole, name), "rb").read()
    bad = left = 0
    for run in range(count):
        shutil.rmtree(path, ignore_errors=True)
        shutil.copytree(whole, path)
        harmed, how = harm(rng, data)
        with open(os.path.join(path, name), "wb") as file:
            file.write(harmed)
        status, told = archive(program, path, 2)
        faults = [] if status == 0 else [f"status {status}"]
        faults += packets_of(path, 2)
        now = open(os.path.join(path, name), "rb").read()
        is_left = any(line.startswith("damaged ") for line in told.splitlines())
        left += is_left
        if is_left and now != harmed:
            faults.append("a damaged file isn't as it was")
        # What was good is still there: the file goes on with it, or a copy keeps what was cut away.
        if not is_left and found(now)[1] < found(harmed)[1]:
            faults.append("good pages are gone")
        if not is_left and newest(path) != name and "damaged" not in told and now != harmed:
            faults.append("a file that is over has changed")
        bad += bool(faults)
        for fault in faults[:3]:
            print(f"{how}: {fault}; {told}")
    if not 0 < left < count:
        print(f"{left} of {count} files were left as they were")
        bad += 1
    print(f"{count} runs, {bad} wrong")


def many(program, folder):
    path = os.path.join(folder, "many")
    os.mkdir(path)
    archive(program, path, 1, "--seal")
    first = os.path.join(path, newest(path))
    for number in range(2, 10001):
        os.link(first, os.path.join(path, "%06d-20260101T%02d%02d%02dZ.ogg" % (number, number // 3600, number // 60 % 60, number % 60)))
    before = hashlib.md5(open(first, "rb").read()).digest()
    status, told = archive(program, path, 2)
    faults = [] if status == 0 else [f"status {status}"]
    faults += packets_of(path, 2)
    if not newest(path).startswith("010001-"):
        faults.append(f"the newest is {newest(path)}")
    if hashlib.md5(open(first, "rb").read()).digest() != before:
        faults.append("a file has changed")
    status, told = archive(program, path, 3, "--keep-bytes", "1", "--most-bytes", "600")
    faults += [] if status == 0 else [f"status {status}"]
    faults += [] if "file 1 removed " in told else ["the oldest stays"]
    for fault in faults[:5]:
        print(f"many files: {fault}; {told[-300:]}")
    print(f"2 runs, {len(faults)} wrong")


def clocks(program, library, folder):
    path, bad, year = os.path.join(folder, "clocks") + "/", 0, 365 * 86400
    moments = [10, 56 * year, 56 * year + 5, 40 * year, 200 * year, 0, 57 * year, 56 * year, 3600, 3500]
    for run, moment in enumerate(moments, 1):
        status, told = archive(program, path, run, LD_PRELOAD=library, SETTING_TO=str(moment))
        faults = [] if status == 0 else [f"status {status}"]
        for seed in range(1, run + 1):
            faults += packets_of(path, seed)
        numbers = [it[0] for it in files_of(path)]
        if numbers != list(range(1, len(numbers) + 1)):
            faults.append(f"numbers {numbers}")
        checked = subprocess.run([program, "verify", path], capture_output=True, timeout=20)
        if checked.returncode != 0:
            faults.append(f"verify: {checked.stdout[-300:]}")
        listed = subprocess.run([program, "list", path], capture_output=True, timeout=20)
        if listed.returncode != 0 or listed.stdout.count(b"file ") != len(numbers):
            faults.append(f"list: {listed.stdout[-300:]}")
        bad += bool(faults)
        for fault in faults[:3]:
            print(f"run {run}, at {moment}: {fault}; {told}")
    if len(files_of(path)) < 5:
        print(f"only {len(files_of(path))} files")
        bad += 1
    print(f"{len(moments)} runs, {bad} wrong")


def main():
    match sys.argv[1:]:
        case ["harms", program, folder, count]:
            harms(program, folder, int(count))
        case ["many", program, folder]:
            many(program, folder)
        case ["clocks", program, library, folder]:
            clocks(program, library, folder)
        case _:
            sys.exit(__doc__)


if __name__ == "__main__":
    main()
