#!/usr/bin/env python3
"""Serves connections of which one call fails, or whose client is silent: peering.py PROGRAM LIBRARY WORK

Three connections in a row ask for a file of 70 kB, which goes out in some twenty pieces. The first call on a socket
fails, then the second, up to a run in which none fails: by a reset, by a peer that is gone, or by a single byte that is
moved. The connection whose call failed gets the front of its answer, the others get theirs whole, and the server ends
well. While `live` records, its feed is recorded whole. A client that sends half a head, and one that takes nothing of
its answer, are cut off, and the next one is served. Prints a line for each run that differs; the status is 1 if there
was one.
"""
import os
import socket
import subprocess
import sys

import serving
from records import begin, end, put

CONNECTIONS = 3


def run(words, given):
    return subprocess.run(words, input=given, stdout=subprocess.PIPE, stderr=subprocess.PIPE, timeout=20)


def served(words, path, rest, **more):
    """What each connection got, and how the server ended."""
    port = serving.free_port()
    server = subprocess.Popen(words + [path, "127.0.0.1:%d" % port] + rest, stdout=subprocess.PIPE, stderr=subprocess.PIPE,
                              env={**os.environ, **more})
    try:
        for _ in range(2000):
            if serving.listens(port) or server.poll() is not None:
                break
        got = [serving.ask(port, b"GET /link/0 HTTP/1.1\r\nHost: a\r\n\r\n") for _ in range(CONNECTIONS)]
        out, err = server.communicate(timeout=20)
        return got, server.returncode, out, err
    finally:
        if server.poll() is None:
            server.kill()


def silent(words, path, rest, length, **more):
    """Whether the third client gets so many bytes, after one that sends half a head and one that takes nothing."""
    port = serving.free_port()
    server = subprocess.Popen(words + [path, "127.0.0.1:%d" % port] + rest, stdout=subprocess.PIPE, stderr=subprocess.PIPE,
                              env={**os.environ, **more})
    clients = []
    try:
        for _ in range(2000):
            if serving.listens(port) or server.poll() is not None:
                break
        for text in (b"GET /all HT", b"GET /all HTTP/1.0\r\n\r\n"):
            one = socket.socket()
            one.setsockopt(socket.SOL_SOCKET, socket.SO_RCVBUF, 4096)
            one.connect(("127.0.0.1", port))
            one.sendall(text)
            clients.append(one)
        got = serving.ask(port, b"GET /all HTTP/1.0\r\n\r\n")
        server.communicate(timeout=20)
        return server.returncode == 0 and len(got.partition(b"\r\n\r\n")[2]) == length
    except (OSError, subprocess.TimeoutExpired):
        return False
    finally:
        for one in clients:
            one.close()
        if server.poll() is None:
            server.kill()


def main():
    program, library, work = sys.argv[1:]
    first = run([program, "mux"], begin([1]) + put([(1, 5, bytes(range(250)) * 280)]) + end(1) + begin([2])).stdout
    records = [put([(2, n, b"x" * n)]) for n in range(40)] + [end(2)]
    path, feed, mark = (os.path.join(work, name) for name in ("peers.ogg", "peers.feed", "peers.met"))
    with open(feed, "wb") as file:
        file.write(b"".join(records))
    link = serving.links_of(first)[0][0]
    whole = serving.answer(first, b"GET", b"/link/0", 1, [(b"Host", b"a")])
    assert whole.endswith(first[:link["length"]])
    runs = wrong = 0
    for words, rest, lines in (([program, "serve"], [str(CONNECTIONS)], 0), ([program, "live"], [feed, str(CONNECTIONS)], len(records))):
        for how in ("reset", "gone", "short"):
            for call in range(1, 200):
                with open(path, "wb") as file:
                    file.write(first)
                if os.path.exists(mark):
                    os.remove(mark)
                failing = {"LD_PRELOAD": library, "PEERS_CALL": str(call), "PEERS_HOW": how, "PEERS_MET": mark}
                got, status, out, err = served(words, path, rest, **failing)
                cut = [one for one in got if one != whole]
                met = os.path.exists(mark)
                runs += met
                fits = not cut if how == "short" or not met else len(cut) == 1 and whole.startswith(cut[0])
                kept = [line for line in out.splitlines() if line.startswith(b"kept")]
                if not fits or status or err or len(kept) != lines:
                    print("%s, %s at call %d: %r, status %d, %d kept, %r" % (words[1], how, call, [len(one) for one in got], status, len(kept), err))
                    wrong += 1
                if not met:
                    break
            else:
                print("%s, %s: no end" % (words[1], how))
                wrong += 1
    # More than the system keeps for a client that takes nothing.
    large = run([program, "mux"], begin([1]) + b"".join(put([(1, n, bytes(4 << 20))]) for n in range(4))).stdout
    for words, rest in (([program, "serve"], ["3"]), ([program, "live"], [os.devnull, "3"])):
        with open(path, "wb") as file:
            file.write(large)
        if not silent(words, path, rest, len(large), LD_PRELOAD=library, PEERS_HURRY="1"):
            print("%s: after silent clients the next one isn't served" % words[1])
            wrong += 1
    print("%d runs, %d wrong" % (runs, wrong))
    return 1 if wrong or runs < 200 else 0


if __name__ == "__main__":
    sys.exit(main())
