#!/usr/bin/env python3
"""Kills a recording again and again, and continues it: killing.py PROGRAM MOST

Each run puts packets that say their number, in groups of MOST, and is killed at another time. Then the file must hold
the packets from the first on, each once, and every one that a reply said was kept.
"""
import os
import random
import subprocess
import sys
import tempfile
import threading
import time

sys.path.insert(0, os.path.dirname(os.path.abspath(__file__)))
from reading import found
from records import begin, put

RUNS = 150
AHEAD = 1000


def text_of(number):
    return b"packet %d " % number * (1 + number % 7)


class File:
    """The packets in a file's pages, each of which ends where its page ends. What was read before must stand there still."""

    def __init__(self, path):
        self.path, self.read, self.packets = path, b"", []

    def look(self):
        with open(self.path, "rb") as file:
            data = file.read()
        assert data.startswith(self.read), "what was kept has changed"
        at = end = len(self.read)
        for _, one, fault in found(data[at:]):
            if fault:
                break
            self.packets.append(bytes(one[5]))
            end = at + one[6]
        self.read = data[:end]
        return self.packets


def feed(run, number):
    """Puts packets, of which the first has this number, until nobody reads them."""
    try:
        for n in range(number, number + AHEAD):
            run.stdin.write(put([(1, n, text_of(n))]))
        run.stdin.flush()
    except (BrokenPipeError, OSError):
        pass


def record(program, path, most, number, wait):
    """Continues the recording with this packet, kills it, and returns how many the replies said were kept."""
    command = [program, "record", path, "--group", str(most)]
    run = subprocess.Popen(command, stdin=subprocess.PIPE, stdout=subprocess.PIPE)
    feeder = threading.Thread(target=feed, args=(run, number))
    feeder.start()
    time.sleep(wait)
    run.kill()
    lines = run.stdout.read().split(b"\n")[:-1]
    run.wait(10)
    feeder.join(10)
    try:
        run.stdin.close()
    except (BrokenPipeError, OSError):
        pass
    kept = [int(line.split()[1]) for line in lines if line.startswith(b"kept")]
    assert all(line.startswith((b"kept", b"held")) for line in lines), lines[-1]
    return max(kept, default=0)


def main():
    program, most = sys.argv[1], int(sys.argv[2])
    chance = random.Random(7)
    with tempfile.TemporaryDirectory() as folder:
        path = os.path.join(folder, "killed.ogg")
        made = subprocess.run([program, "record", path], input=begin([1]), stdout=subprocess.PIPE, timeout=20)
        assert made.stdout == b"kept 1 31\n", made.stdout
        file = File(path)
        number, unseen = 0, 0
        for _ in range(RUNS):
            kept = record(program, path, most, number, chance.uniform(0.005, 0.08))
            opened = subprocess.run([program, "record", path], input=b"", stdout=subprocess.PIPE, timeout=20)
            assert opened.returncode == 0, opened.returncode
            packets = file.look()[1:]
            assert packets[number:] == [text_of(n) for n in range(number, len(packets))], "not the first packets"
            assert len(packets) >= number + kept, (len(packets), number, kept)
            assert len(packets) <= number + kept + most, (len(packets), number, kept)
            unseen += len(packets) - number - kept
            number = len(packets)
        assert number > 0, "nothing was recorded before a kill"
        print(f"{RUNS} times killed, {number} packets, {unseen} of them found without a reply")


if __name__ == "__main__":
    main()
