#!/usr/bin/env python3
"""A client for the tests, on 127.0.0.1: asking.py port | wait PORT | ask PORT [WORD ..] [--shut] [--most COUNT]

`port` prints a port that is free, and `wait` ends once somebody listens to PORT. `ask` sends each word, with \\r, \\n and
NAME*COUNT spelled out, and writes what comes back until the server closes, or COUNT bytes of it. With --shut it sends
no more then.
"""
import sys
import time

import serving


def spelled(word):
    text, star, count = word.rpartition("*")
    if star and count.isdigit():
        return text.encode() * int(count)
    return word.encode().decode("unicode_escape").encode("latin-1")


def main():
    words = sys.argv[1:]
    if words[0] == "port":
        print(serving.free_port())
        return 0
    if words[0] == "wait":
        for _ in range(2000):
            if serving.listens(int(words[1])):
                return 0
            time.sleep(0.01)
        return 1
    shut = "--shut" in words
    most = int(words[words.index("--most") + 1]) if "--most" in words else None
    if most is not None:
        del words[words.index("--most"):words.index("--most") + 2]
    pieces = [spelled(word) for word in words[2:] if word != "--shut"]
    sys.stdout.buffer.write(serving.ask(int(words[1]), *pieces, shut=shut, most=most))
    return 0


if __name__ == "__main__":
    sys.exit(main())
