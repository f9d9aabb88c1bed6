#!/usr/bin/env python3
"""rt, which reads each crate once in place of once for each path to it.

    tools/rt_once.py WORD ..    is rt WORD ..

rt knows by a stamp whether a crate has changed. The stamp of a crate has those of the crates that it uses, and rt works
them out along each path of the graph, from the sources each time: of the program's that is 32,000 times. Here a stamp
that is asked for reads each crate once. What it is stays the same. The list of the crates below one is made along each
path, too, for each import of a check; here it is made once. An rt that has no such methods, or that isn't written in
Python, runs as it is.
"""
import importlib.machinery
import os
import shutil
import sys
import threading
from collections.abc import Callable

# The stamps that are known while one is worked out, in each thread.
known = threading.local()


def once(stamp: Callable[[object], str]) -> Callable[[object], str]:
    """The same method, which works out each stamp at most once in a call from outside."""

    def stamped(crate: object) -> str:
        is_outermost = getattr(known, "stamps", None) is None
        if is_outermost:
            known.stamps = {}
        try:
            if crate not in known.stamps:
                known.stamps[crate] = stamp(crate)
            return known.stamps[crate]
        finally:
            if is_outermost:
                known.stamps = None

    return stamped


def listed(below: Callable[[object], list]) -> Callable[[object], list]:
    """The same method, which lists the crates below a crate once."""
    lists: dict[object, list] = {}

    def list_of(crate: object) -> list:
        if crate not in lists:
            lists[crate] = below(crate)
        return [*lists[crate]]

    return list_of


class Loader(importlib.machinery.SourceFileLoader):
    """Loads a module as ever. In the one that has rt's crates the methods are replaced."""

    def exec_module(self, module) -> None:
        super().exec_module(module)
        crate = getattr(module, "Crate", None)
        if module.__name__ == "rtlib" and hasattr(crate, "stamp"):
            crate.stamp = once(crate.stamp)
        if module.__name__ == "rtlib" and hasattr(crate, "below"):
            crate.below = listed(crate.below)


def main() -> None:
    path = os.path.realpath(shutil.which("rt") or sys.exit("rt isn't here"))
    with open(path, "rb") as file:
        text = file.read()
    if not (text.startswith(b"#!") and b"python" in text.partition(b"\n")[0]):
        os.execv(path, ["rt", *sys.argv[1:]])
    importlib.machinery.SourceFileLoader = Loader
    sys.argv[0] = path
    exec(compile(text, path, "exec"), {"__name__": "__main__", "__file__": path, "__builtins__": __builtins__})


if __name__ == "__main__":
    main()
