#!/usr/bin/env python3
"""Listeners that join at once: station.py PORT PATH PID COUNT SECONDS

Connects COUNT listeners to a server that sends a live stream, all at once, and reads for SECONDS. Prints how long the
first byte of audio took (in the middle, at worst), how many listeners got one, the longest pause in the middle, and
what the server took meanwhile: CPU milliseconds for each listener that heard something and minute, and MB of memory.
Without listeners it prints what the server takes by itself in a minute.
"""
import os
import selectors
import socket
import sys
import time


def cpu(pid):
    with open("/proc/%d/stat" % pid) as stat:
        words = stat.read().rpartition(")")[2].split()
    return (int(words[11]) + int(words[12])) / os.sysconf("SC_CLK_TCK")


def memory(pid):
    with open("/proc/%d/status" % pid) as status:
        return next(int(line.split()[1]) for line in status if line.startswith("VmRSS")) / 1024


def main():
    port, path, pid, count, seconds = int(sys.argv[1]), sys.argv[2], int(sys.argv[3]), int(sys.argv[4]), float(sys.argv[5])
    selector = selectors.DefaultSelector()
    before, start = cpu(pid), time.monotonic()
    for _ in range(count):
        one = socket.socket()
        one.setblocking(False)
        one.connect_ex(("127.0.0.1", port))
        selector.register(one, selectors.EVENT_WRITE, {"got": b"", "first": None, "last": None, "pause": 0.0})
    end = start + seconds
    if not count:
        time.sleep(seconds)
        print("no listener; %.1f ms of CPU a minute; %.1f MB" % ((cpu(pid) - before) * 1000 / (seconds / 60), memory(pid)))
        return 0
    while (now := time.monotonic()) < end:
        for key, mask in selector.select(0.1):
            one, state, now = key.fileobj, key.data, time.monotonic()
            if mask & selectors.EVENT_WRITE:
                one.send(b"GET %s HTTP/1.0\r\n\r\n" % path.encode())
                selector.modify(one, selectors.EVENT_READ, state)
                continue
            try:
                piece = one.recv(65536)
            except ConnectionError:
                piece = b""
            if not piece:
                selector.unregister(one)
                one.close()
                continue
            if state["first"] is None:
                state["got"] += piece
                if b"OggS" not in state["got"]:
                    continue
                state["first"] = state["last"] = now
            state["pause"] = max(state["pause"], now - state["last"])
            state["last"] = now
    states = [key.data for key in selector.get_map().values()]
    took = cpu(pid) - before
    first = sorted(state["first"] - start for state in states if state["first"])
    pauses = sorted(state["pause"] for state in states if state["first"])
    if not first:
        print("nobody heard anything")
        return 1
    print("first byte %.2f s in the middle, %.2f s at worst; %d of %d hear; longest pause %.2f s in the middle; "
          "%.1f ms of CPU a listener and minute; %.1f MB"
          % (first[len(first) // 2], first[-1], len(first), count, pauses[len(pauses) // 2],
             took * 1000 / len(first) / (seconds / 60), memory(pid)))
    return 0


if __name__ == "__main__":
    sys.exit(main())
