#!/usr/bin/env python3
"""Records with each device call failing in turn: failing.py PROGRAM LIBRARY WORK

A feed is recorded, alone and in groups, with its first device call failing, then with the second, up to a run in which
no call fails. A call fails by an error, by a short or a torn write, or by a stop before the call, once or from then on.
Each file is opened again. It must hold the pages of the first commands, all that were said to be kept among them, and
at most one more group. Prints a line for each run that does not; the status is 1 if there was one.
"""
import os
import subprocess
import sys

from records import begin, end, flush, put

FEED = (begin([1]) + put([(1, 5, b"hello")]) + put([(1, 6, bytes(range(256)) * 280)]) + put([(7, 6, b"refused")]) + flush()
        + put([(1, 7, b"x"), (1, 8, b"")]) + end(1) + begin([2, 3]) + put([(3, 1, b"z" * 600), (2, 1, b"y")]))


def kept_in(text):
    """How many commands the replies said were kept, and how many bytes their pages have."""
    lines = [line.split() for line in text.decode().splitlines() if line.startswith("kept")]
    return (int(lines[-1][1]), int(lines[-1][2])) if lines else (0, 0)


def run(words, feed, **more):
    return subprocess.run(words, input=feed, stdout=subprocess.PIPE, stderr=subprocess.PIPE, timeout=20, env={**os.environ, **more})


def main():
    program, library, work = sys.argv[1:]
    whole = run([program, "mux"], FEED)
    pages = whole.stdout
    # After a flush the same line comes again.
    ends = [0] + list(dict.fromkeys(int(line.split()[2]) for line in whole.stderr.decode().splitlines() if line.startswith("kept")))
    path, mark = os.path.join(work, "failing.ogg"), os.path.join(work, "met")
    runs = wrong = 0
    for most in (1, 3):
        for how in ("io", "full", "interrupted", "short", "torn", "stop"):
            for onward in ({}, {"FAILING_ON": "1"}) if how in ("io", "short") else ({},):
                for call in range(1, 200):
                    for old in (path, mark):
                        if os.path.exists(old):
                            os.remove(old)
                    failing = {"LD_PRELOAD": library, "FAILING_CALL": str(call), "FAILING_HOW": how, "FAILING_MET": mark, **onward}
                    ran = run([program, "record", path, "--group", str(most), "--seal"], FEED, **failing)
                    if not os.path.exists(mark):
                        break
                    runs += 1
                    count, length = kept_in(ran.stdout)
                    again = run([program, "record", path], b"")
                    listed = run([program, "links", path], b"").stdout.split(b"\n")[0].split()
                    found = int(listed[1]) if listed[:1] == [b"committed"] else -1
                    with open(path, "rb") as file:
                        data = file.read()
                    name = "%s %s call %d, groups of %d" % (how, "from" if onward else "at", call, most)
                    if again.returncode or found not in ends or data[:found] != pages[:found]:
                        print("%s: %d bytes found, status %d, %r" % (name, found, again.returncode, again.stderr))
                        wrong += 1
                    elif not length <= found <= ends[min(ends.index(length) + most, len(ends) - 1)]:
                        print("%s: %d bytes kept and %d found" % (name, length, found))
                        wrong += 1
                    elif how == "short" and (ran.returncode or found != len(pages)):
                        print("%s: a short write was taken for a fault: %r" % (name, ran.stderr))
                        wrong += 1
                    elif how not in ("short", "stop") and found < len(pages) and ran.returncode != 1:
                        print("%s: status %d" % (name, ran.returncode))
                        wrong += 1
                else:
                    print("%s: no end" % how)
                    wrong += 1
    print("%d runs, %d wrong" % (runs, wrong))
    return 1 if wrong or runs < 100 else 0


if __name__ == "__main__":
    sys.exit(main())
