#!/usr/bin/env python3
"""Proves and builds programs, as many crates at once as there are processors, and then runs a command in its place.

    tools/build.py PROGRAM[,PROGRAM ..] COMMAND [WORD ..]

kudzuturret starts it if a program isn't built that a word needs, and is the command. Progress goes to standard error;
the status is 3 if a crate isn't proved, and if INT, TERM or HUP came.

`rt lib` locks the folder of its crate and of each crate below it, so in one tree two crates that share one below never
prove side by side. So each crate is proved in a room: a small tree that has copies of the crate and of those below, and
links to the libraries of those below, which are finished. What was made is moved to crates/NAME/out at the end, where
`rt lib` would have made it, also if the check failed or was ended: the next start goes on from there.
"""
import contextlib
import fcntl
import graphlib
import heapq
import os
import re
import shutil
import signal
import subprocess
import sys
import time
from collections.abc import Callable, Iterator
from concurrent.futures import FIRST_COMPLETED, Future, ThreadPoolExecutor, wait
from pathlib import Path

TOP = Path(__file__).resolve().parent.parent
# One build at a time locks this folder, and has its rooms in it.
OUT = TOP / "out"
ROOMS = OUT / "rooms"
# The parts of a crate that a check reads.
PARTS = ("src", "specs", "proofs")
# What a check may take of the memory, in bytes.
MEMORY = 3_000_000_000
# After so many seconds without a line, the progress of each check is told.
SILENCE = 15

Uses = dict[str, list[str]]
Seconds = dict[str, float]


class NotBuilt(Exception):
    """A crate wasn't proved. Its log is the text."""


def say(text: str) -> None:
    print(f"kudzuturret: {text}", file=sys.stderr, flush=True)


def crates(programs: list[str]) -> Uses:
    """The programs and the crates below them, each with those of this repository that it uses."""
    lines = [it.partition("#")[0].partition(":") for it in (TOP / "crates.txt").read_text().splitlines()]
    every = {name.strip(): words.split() for name, _, words in lines if name.strip()}
    uses: Uses = {}
    wanted = [*programs]
    while wanted:
        name = wanted.pop()
        if name not in uses:
            uses[name] = [it for it in every[name] if it in every]
            wanted += uses[name]
    return uses


def below(name: str, uses: Uses) -> set[str]:
    """The crates that a crate stands on."""
    return set(uses[name]).union(*(below(it, uses) for it in uses[name]))


def seconds_of(uses: Uses) -> Seconds:
    """How many seconds of a processor the first check of each crate takes, as they were measured."""
    lines = (TOP / "tools" / "seconds.txt").read_text().splitlines()
    known = {name: float(number) for name, number, *_ in map(str.split, lines) if name in uses}
    usual = sum(known.values()) / max(len(known), 1)
    return {name: known.get(name, usual) for name in uses}


def chains(uses: Uses, seconds: Seconds) -> Seconds:
    """How many seconds it takes at least from the start of each crate to the end of a program above it."""
    found = dict.fromkeys(uses, 0.0)
    for name in reversed(list(graphlib.TopologicalSorter(uses).static_order())):
        found[name] += seconds[name]
        for it in uses[name]:
            found[it] = max(found[it], found[name])
    return found


def newest_source() -> float:
    """When the last of the files that a build reads was changed, also if that is said to be in the future."""
    files = [TOP / "crates.txt", *(it for it in TOP.glob("crates/*/src/**/*") if it.is_file())]
    return max(it.stat().st_mtime for it in files)


def memory_for() -> int:
    """How many checks the free memory holds."""
    memory = os.sysconf("SC_AVPHYS_PAGES") * os.sysconf("SC_PAGE_SIZE")
    with contextlib.suppress(OSError, StopIteration, ValueError):
        with open("/proc/meminfo", encoding="ascii") as it:
            memory = 1024 * next(int(line.split()[1]) for line in it if line.startswith("MemAvailable:"))
    return max(memory // MEMORY, 1)


@contextlib.contextmanager
def held(folder: Path, waiting: Callable[[], None]) -> Iterator[None]:
    """Locks a folder, as rt locks those of crates; `waiting` is called, again and again, while another has the lock."""
    at = os.open(folder, os.O_RDONLY)
    try:
        while True:
            try:
                fcntl.flock(at, fcntl.LOCK_EX | fcntl.LOCK_NB)
                break
            except BlockingIOError:
                waiting()
                time.sleep(0.2)
        yield
    finally:
        os.close(at)


class Build:
    """What is proved so far, and what is being proved, each crate in a thread that waits for its process."""

    def __init__(self, programs: list[str]) -> None:
        self.programs = programs
        self.uses = crates(programs)
        # How many checks run side by side: one a processor, as many as the free memory holds.
        memory = memory_for()
        self.lanes = min(len(os.sched_getaffinity(0)), memory)
        # Whether one check may have a job beside these, and the crate that has it. On two processors the longest chain
        # of crates takes less than half the time of all.
        self.has_spare = self.lanes > 2 and memory > self.lanes
        self.beside: str | None = None
        self.seconds = seconds_of(self.uses)
        self.chains = chains(self.uses, self.seconds)
        self.read = max(time.time(), newest_source())
        self.began = self.told = time.monotonic()
        self.finished: set[str] = set()
        self.started: Seconds = {}
        # How many processors each check that runs takes.
        self.jobs: dict[str, int] = {}
        self.processes: dict[str, subprocess.Popen] = {}
        self.is_ended = False
        # The seconds that were said of the crates that were proved in this run, and those that they took.
        self.said = self.took = 0.0

    def tell(self, text: str) -> None:
        self.told = time.monotonic()
        minutes, seconds = divmod(int(self.told - self.began), 60)
        say(f"{minutes}:{seconds:02}  {text}")

    def idle(self) -> int:
        """How many processors no check uses."""
        return max(self.lanes - sum(self.jobs.values()), 0)

    def is_awaited(self, name: str) -> bool:
        """Whether a program waits for a crate, and for those above it, longer than for any that is being proved."""
        now = time.monotonic()
        return all(self.chains[it] - (now - self.started[it]) <= self.chains[name] for it in self.started)

    def pace(self) -> float:
        """How many seconds here are one of those that are written down."""
        return self.took / self.said if self.said else 1.0

    def seconds_left(self) -> float:
        """When the programs are finished, if from now on each crate takes what is said of it."""
        left = {name: [it for it in words if it not in self.finished] for name, words in self.uses.items()}
        sorter = graphlib.TopologicalSorter({name: words for name, words in left.items() if name not in self.finished})
        sorter.prepare()
        now, pace = 0.0, self.pace()
        spent = {name: time.monotonic() - began for name, began in self.started.items()}
        ends = [(max(pace * self.seconds[name] - gone, 1.0), name) for name, gone in spent.items()]
        heapq.heapify(ends)
        ready = [name for name in sorter.get_ready() if name not in spent]
        while ready or ends:
            ready.sort(key=self.chains.__getitem__)
            while ready and len(ends) < self.lanes:
                name = ready.pop()
                heapq.heappush(ends, (now + pace * self.seconds[name], name))
            now, name = heapq.heappop(ends)
            sorter.done(name)
            ready += sorter.get_ready()
        return now

    def time_left(self) -> str:
        minutes = round(self.seconds_left() / 60)
        return f"about {minutes} minutes to go" if minutes > 1 else "about a minute to go"

    def run(self, name: str, folder: Path, *words: str) -> None:
        """Runs rt in a folder, in a session of its own so that it can be ended whole."""
        with open(ROOMS / f"{name}.log", "wb") as log:
            process = subprocess.Popen(
                [sys.executable, str(TOP / "tools" / "rt_once.py"), *words],
                cwd=folder,
                stdin=subprocess.DEVNULL,
                stdout=log,
                stderr=log,
                start_new_session=True,
            )
            self.processes[name] = process
            if self.is_ended:
                self.end_all()
            status = process.wait()
            del self.processes[name]
        if status:
            raise NotBuilt(name)

    def end_all(self) -> None:
        """Ends every check, and those that begin later. What each has proved so far is kept."""
        self.is_ended = True
        for process in list(self.processes.values()):
            with contextlib.suppress(ProcessLookupError):
                os.killpg(process.pid, signal.SIGTERM)

    def go_on(self) -> None:
        if self.is_ended:
            raise KeyboardInterrupt

    def prove(self, name: str, jobs: int) -> None:
        """Proves a crate whose crates below are finished; a program is built, and run once."""
        own = TOP / "crates" / name
        with held(own, self.go_on):
            room = make_room(name, below(name, self.uses))
            at = room / "crates" / name
            if (own / "out").is_dir():
                (own / "out").rename(at / "out")
            try:
                if name in self.programs:
                    self.build(name, at, jobs)
                else:
                    self.run(name, at, "lib", "--jobs", str(jobs))
            finally:
                if (at / "out").is_dir():
                    (at / "out").rename(own / "out")
                shutil.rmtree(room)

    def build(self, name: str, folder: Path, jobs: int) -> None:
        """Proves, builds and runs a program; the word makes the run do nothing else."""
        try:
            self.run(name, folder, "run", "--jobs", str(jobs), "--", "--version")
        except NotBuilt:
            # The version is no work that was asked for, so the status is 2.
            if not re.search(r"^kudzuturret \d", (ROOMS / f"{name}.log").read_text(errors="replace"), re.MULTILINE):
                raise
        # A source that was changed since then is in the next build.
        os.utime(folder / "out" / name, (self.read, self.read))

    def note(self, name: str) -> None:
        """Notes that a crate is finished, and how long it took unless it was there already."""
        took = (time.monotonic() - self.started.pop(name)) * self.jobs.pop(name)
        self.finished.add(name)
        if self.beside == name:
            self.beside = None
        if b"logic=proved" in (ROOMS / f"{name}.log").read_bytes():
            self.said += self.seconds[name]
            self.took += took
        self.tell(f"crate {len(self.finished)} of {len(self.uses)} is proved: {name}; {self.time_left()}")

    def tell_progress(self) -> None:
        for name in self.started:
            log = ROOMS / f"{name}.log"
            if not log.exists():
                self.tell(f"{name}: waiting for another check of it to end")
                continue
            lines = log.read_text(errors="replace").splitlines()
            told = [it for it in lines if it.startswith("so far: ")] or ["so far: begun"]
            self.tell(f"{name}: {told[-1].removeprefix('so far: ').partition(';')[0]}")

    def all_crates(self) -> None:
        """Proves all crates, those first that the longest chain of others waits for."""
        sorter = graphlib.TopologicalSorter(self.uses)
        sorter.prepare()
        ready: list[str] = []
        running: dict[Future[None], str] = {}
        with ThreadPoolExecutor(self.lanes) as pool:
            try:
                while sorter.is_active():
                    ready = sorted([*ready, *sorter.get_ready()], key=self.chains.__getitem__)
                    while ready and self.idle():
                        # Processors that no other crate waits for are shared. The crate that a program waits for
                        # longest has a second job in any case: the others lose less than it gains.
                        taken = max(self.idle() // len(ready), 1)
                        name = ready.pop()
                        if taken == 1 and self.has_spare and not self.beside and self.is_awaited(name):
                            self.beside = name
                        self.started[name], self.jobs[name] = time.monotonic(), taken
                        running[pool.submit(self.prove, name, taken + (self.beside == name))] = name
                    for it in wait(running, timeout=1, return_when=FIRST_COMPLETED).done:
                        name = running.pop(it)
                        it.result()
                        self.note(name)
                        sorter.done(name)
                    if time.monotonic() - self.told >= SILENCE:
                        self.tell_progress()
            except BaseException:
                self.end_all()
                raise


def make_room(name: str, deps: set[str]) -> Path:
    """A tree that has a crate, without what was made of it, and those below it with their libraries."""
    room = ROOMS / name
    lines = [it for it in (TOP / "crates.txt").read_text().splitlines() if it.partition(":")[0] in {name, *deps}]
    for it in (name, *deps):
        for part in PARTS:
            if (TOP / "crates" / it / part).is_dir():
                shutil.copytree(TOP / "crates" / it / part, room / "crates" / it / part)
    for it in deps:
        library = Path("crates", it, "out", "rlib")
        shutil.copytree(TOP / library, room / library, copy_function=os.link)
    (room / "crates.txt").write_text("\n".join(lines) + "\n")
    return room


def clear_rooms() -> None:
    """Gives back what a build that was killed had in its rooms, and removes them."""
    for room in ROOMS.iterdir() if ROOMS.is_dir() else ():
        out = room / "crates" / room.name / "out"
        to = TOP / "crates" / room.name / "out"
        if out.is_dir() and to.parent.is_dir() and not to.exists():
            out.rename(to)
    shutil.rmtree(ROOMS, ignore_errors=True)


SIGNALS = (signal.SIGINT, signal.SIGTERM, signal.SIGHUP)


def stop(*_: object) -> None:
    for it in SIGNALS:
        signal.signal(it, signal.SIG_IGN)
    raise KeyboardInterrupt


def build(programs: list[str], asker: str) -> None:
    work = Build(programs)
    say(
        f"{asker} needs {len(work.uses)} crates. They are proved and built now, once, "
        f"on {work.lanes} processors: {work.time_left()}."
    )
    try:
        work.all_crates()
        work.tell("built")
    except NotBuilt as failed:
        sys.stderr.write((ROOMS / f"{failed}.log").read_text(errors="replace"))
        say(f"{failed} could not be built")
        sys.exit(3)
    except KeyboardInterrupt:
        work.end_all()
        say("interrupted; what is proved stays, and the next start goes on from there")
        sys.exit(3)


def main() -> None:
    if len(sys.argv) < 3:
        sys.exit(__doc__)
    programs = sys.argv[1].split(",")
    command = sys.argv[2:]
    for it in SIGNALS:
        signal.signal(it, stop)
    OUT.mkdir(exist_ok=True)
    has_waited: list[bool] = []

    def waiting() -> None:
        if not has_waited:
            say("another start is building the program here; waiting for it")
        has_waited.append(True)

    try:
        with held(OUT, waiting):
            if not has_waited:
                clear_rooms()
                ROOMS.mkdir()
                try:
                    build(programs, command[1] if len(command) > 1 else "the program")
                finally:
                    clear_rooms()
    except KeyboardInterrupt:
        sys.exit(3)
    os.execv(command[0], command)


if __name__ == "__main__":
    main()
