#!/usr/bin/env python3
"""Runs a command, and tells how many seconds of a processor the checks of each crate took in it.

    bench/by_crate.py [--save FILE] COMMAND [WORD ..]
    bench/by_crate.py taskset -c 0,1 ./check
    bench/by_crate.py --save tools/seconds.txt ./kudzuturret --version

The checks are the processes of the prover below the command. They are looked at twice a second, so of each the last
half second at most is missed. The last line has the whole: by the clock, and of a processor with everything else that
the command did. With --save a file has the seconds of the proofs, and then those of the wrong bodies, a line for each
crate, as tools/build.py and tools/proofs.py read them; what this run didn't do stays as the file had it. Nothing that
these proofs stand on may be kept from before. The status is that of the command. Not part of the tests.
"""
import collections
import os
import resource
import subprocess
import sys
import threading
import time
import uuid

MARK = f"BY_CRATE={uuid.uuid4()}"
TICKS = os.sysconf("SC_CLK_TCK")
KINDS = ("proof", "tests", "wrong bodies")


def words_of(process):
    """The words of a process of the prover below the command, or none if it is another process."""
    with open(f"/proc/{process}/environ", "rb") as it:
        if MARK.encode() not in it.read().split(b"\0"):
            return []
    with open(f"/proc/{process}/cmdline", encoding="utf-8", errors="replace") as it:
        words = it.read().split("\0")
    return words if os.path.basename(words[0]) == "rattle" and "--crate-name" in words else []


def ticks_of(process):
    """What the process has used of a processor itself, in ticks, with the system's, and when it began."""
    with open(f"/proc/{process}/stat", encoding="utf-8", errors="replace") as it:
        fields = it.read().rpartition(")")[2].split()
    return int(fields[11]) + int(fields[12]), fields[19]


def look(seen):
    """Notes what each check has used so far."""
    for process in filter(str.isdigit, os.listdir("/proc")):
        try:
            words = words_of(process)
            if words:
                ticks, began = ticks_of(process)
                kind = "wrong bodies" if "--only" in words else "tests" if "--test" in words else "proof"
                seen[process, began] = words[words.index("--crate-name") + 1], kind, ticks
        except (OSError, IndexError, ValueError):
            # It ended meanwhile.
            continue


def save(file, used):
    """Writes the seconds of each crate's proof and wrong bodies. Those that weren't measured stay as they were."""
    saved = {}
    if os.path.isfile(file):
        with open(file, encoding="utf-8") as it:
            saved = {name: numbers for name, *numbers in map(str.split, it)}
    for crate, by in used.items():
        numbers = [*saved.get(crate, []), "", ""][:2]
        for at, kind in enumerate(("proof", "wrong bodies")):
            if by[kind]:
                numbers[at] = f"{by[kind]:.0f}"
        # Without the first number the second would be taken for it.
        if numbers[0]:
            saved[crate] = numbers
    with open(file, "w", encoding="utf-8") as it:
        it.writelines(" ".join([crate, *filter(None, numbers)]) + "\n" for crate, numbers in sorted(saved.items()))


def main():
    words, file = sys.argv[1:], None
    if words[:1] == ["--save"]:
        file, words = words[1] if len(words) > 1 else None, words[2:]
    if not words or words[0].startswith("-"):
        sys.exit(__doc__.strip())
    began, seen, is_over = time.time(), {}, threading.Event()
    name, _, value = MARK.partition("=")

    def watch():
        while not is_over.wait(0.5):
            look(seen)

    watcher = threading.Thread(target=watch)
    watcher.start()
    try:
        status = subprocess.run(words, env={**os.environ, name: value}, check=False).returncode
    finally:
        is_over.set()
        watcher.join()

    used = collections.defaultdict(collections.Counter)
    for crate, kind, ticks in seen.values():
        used[crate][kind] += ticks / TICKS
    for crate, by in sorted(used.items(), key=lambda it: -it[1].total()):
        print(f"{crate}: " + ", ".join(f"{kind} {by[kind]:.0f} s" for kind in KINDS if by[kind]))
    if file:
        save(file, used)
    children = resource.getrusage(resource.RUSAGE_CHILDREN)
    checks = sum(by.total() for by in used.values())
    whole = children.ru_utime + children.ru_stime
    print(f"{time.time() - began:.0f} s by the clock; {whole:.0f} s of a processor, {checks:.0f} s of these in checks")
    return status


if __name__ == "__main__":
    sys.exit(main())
