#!/usr/bin/env python3
"""Prints bench/RESULTS.md: results.py ROWS FAILED LOAD SECONDS

ROWS has lines of NAME, UNIT, OURS, COMPETITOR, THEIRS and COMMAND, with tabs between them (common.bash); FAILED has a line
for each script that failed. LOAD is what the load was before, and SECONDS how long all of it took.
"""
import datetime
import os
import platform
import re
import subprocess
import sys
from pathlib import Path

TOP = Path(__file__).resolve().parent.parent


def said(*words):
    """The first line that a command prints, or nothing if it can't be run."""
    try:
        ran = subprocess.run(words, cwd=TOP, stdout=subprocess.PIPE, stderr=subprocess.DEVNULL, text=True, check=False)
    except OSError:
        return ""
    return (ran.stdout.splitlines() or [""])[0]


def machine():
    """What is known of the machine, a line for each thing."""
    cpu = re.search(r"^model name\s*: (.*)$", Path("/proc/cpuinfo").read_text(encoding="utf-8"), re.M)
    memory = re.search(r"^MemTotal: +(\d+)", Path("/proc/meminfo").read_text(encoding="utf-8"), re.M)
    folder = os.environ.get("TMPDIR", "/tmp")
    yield f"{cpu[1] if cpu else platform.machine()}, {len(os.sched_getaffinity(0))} processors, {int(memory[1]) / 1e6:.0f} GB"
    yield f"Linux {platform.release()}; the files lie on {said('stat', '-f', '-c', '%T', folder) or 'a disk'}"


def ratio(unit, ours, theirs):
    """How many times as good ours is."""
    better, worse = (ours, theirs) if unit.endswith("/s") else (theirs, ours)
    return f"{better / worse:.2f}" if better and worse else "-"


def table(rows):
    """A table whose columns are as wide as their widest cells, so that it can be read as it stands."""
    head = ["What", "Unit", "Ours", "Competitor", "Theirs", "Ratio", "Command"]
    cells = [head, *rows]
    widths = [max(len(row[i]) for row in cells) for i in range(len(head))]
    sides = ["<", "<", ">", "<", ">", ">", "<"]
    lines = [" | ".join(f"{it:{side}{width}}" for it, side, width in zip(row, sides, widths)) for row in cells]
    rule = " | ".join("-" * (width - 1) + (":" if side == ">" else "-") for side, width in zip(sides, widths))
    return "\n".join(f"| {line} |" for line in [lines[0], rule, *lines[1:]])


def main():
    rows_file, failed_file, load, seconds = sys.argv[1:]
    rows, commands = [], []
    for line in Path(rows_file).read_text(encoding="utf-8").splitlines():
        name, unit, ours, competitor, theirs, command = line.split("\t")
        shown = [f"{float(it):,.3f}".rstrip("0").rstrip(".") for it in (ours, theirs)]
        rows.append([name, unit, shown[0], competitor, shown[1], ratio(unit, float(ours), float(theirs)), f"`{command}`"])
        commands.append(command)
    failed = Path(failed_file).read_text(encoding="utf-8").splitlines()
    changed = said("git", "status", "--porcelain", "--", ".", ":!bench/RESULTS.md")
    commit = said("git", "rev-parse", "--short=12", "HEAD") + ("-dirty" if changed else "")
    print("# Speed\n")
    print("Made by `bench/all.sh`, which measures all of it anew. The ratio says how many times as good ours is: 2 is half the")
    print("time or the memory, or twice the rate. Where the competitor is ours too, two cases of ours are compared. Each number")
    print("is the best of several runs that take turns, as the head of its script says. The last column is the command that")
    print("gives the row.\n")
    print(f"- {datetime.date.today():%d %B %Y}, in {int(seconds) // 60} minutes and {int(seconds) % 60} seconds"
          f"{f', of commit {commit}' if commit else ''}; {said('rt', 'version') or 'no rt'}")
    for it in machine():
        print(f"- {it}")
    busy = float(load)
    print(f"- the load before was {load}: {'the machine was quiet' if busy < 0.3 else 'other work ran on it, so the numbers are rough'}")
    for it in failed:
        print(f"- not measured: {it}")
    print(f"\n{table(rows)}")
    return 0


if __name__ == "__main__":
    sys.exit(main())
