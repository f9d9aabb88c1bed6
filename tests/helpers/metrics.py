#!/usr/bin/env python3
"""Reads numbers in Prometheus' text format, version 0.0.4, from standard input, and prints them: a line `NAME VALUE` each.

    curl http://ADDR/status | metrics.py [NAME]     with a name, its value alone

It is strict: each metric has its HELP and TYPE line in this order before its samples, its samples stand together, no
sample comes twice, counters end in `_total`, and the text ends with a line feed. The status is 1 if anything else comes.
"""
import re
import sys

NAME = r"[a-zA-Z_:][a-zA-Z0-9_:]*"
LABELS = r'\{(?:[a-zA-Z_][a-zA-Z0-9_]*="(?:[^"\\\n]|\\["\\n])*",?)*\}'
SAMPLE = re.compile(rf"({NAME})({LABELS})? (\d+(?:\.\d+)?)\Z")
HELP = re.compile(rf"# HELP ({NAME}) (\S.*)\Z")
TYPE = re.compile(rf"# TYPE ({NAME}) (counter|gauge)\Z")


def samples(text):
    if not text.endswith("\n"):
        raise ValueError("no line feed at the end")
    described = None
    current = None
    done = set()
    found = {}
    for line in text[:-1].split("\n"):
        if match := HELP.match(line):
            described = match[1]
            if described in done:
                raise ValueError(f"described twice: {line}")
            done.add(described)
            current = None
        elif match := TYPE.match(line):
            if match[1] != described or current is not None:
                raise ValueError(f"a type without its help: {line}")
            if (match[2] == "counter") != match[1].endswith("_total"):
                raise ValueError(f"a counter by its name or by its type alone: {line}")
            current = match[1]
        elif match := SAMPLE.match(line):
            name = match[1] + (match[2] or "")
            if match[1] != current:
                raise ValueError(f"a sample that stands elsewhere: {line}")
            if name in found:
                raise ValueError(f"a sample that comes twice: {line}")
            found[name] = match[3]
        else:
            raise ValueError(f"no line of the format: {line!r}")
    return found


def main():
    found = samples(sys.stdin.buffer.read().decode("utf-8"))
    if len(sys.argv) > 1:
        print(found[sys.argv[1]])
    else:
        for name, value in found.items():
            print(name, value)


if __name__ == "__main__":
    main()
