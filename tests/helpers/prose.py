#!/usr/bin/env python3
"""Finds what must not stand in prose: prose.py lines | words | tables FILE ..

'lines' finds lines over 120 columns, but for rows of tables and indented lines. 'words' finds the words of the list
below, also over the end of a line. 'tables' finds rows that haven't as many cells as their head. Each is printed with
its place, and why; the status is 1 if there was one.
"""
import re
import sys

COLUMNS = 120
# A word that is wrong wherever it stands, as a pattern in which a space is any white space, and what to say for it.
WORDS = [
    ("some first(?! of all)", "a number has its name: 'a prefix of the commands', 'the first n commands'"),
    ("so many(?! that)", "a number has its name: 'the first n bytes'"),
    ("as players like (?:it|them)", "say what for: 'so that players stop at the right sample'"),
    ("[Rr]eading borrows", "say what borrows: 'what is read borrows from the packet'"),
    ("Neither: ", "a list has a verb: 'Not proved: that ..'"),
    ("pos(?!\\w)", "the word is 'position'"),
    ("seq(?!\\w)", "the word is 'sequence'"),
    ("segs?(?!\\w)", "the word is 'lacing', or 'lacing value'"),
    ("came to(?= [0-9])", "the word is 'total', or 'result'"),
    ("[Nn]obody's clause", "say it: 'no contract states this'"),
    ("for each who(?!\\w)", "say for whom: 'per listener'"),
]


def lines(text):
    """Lines of prose that are too long."""
    for number, line in enumerate(text.splitlines(), 1):
        if len(line) > COLUMNS and not line.startswith(("|", "    ")):
            yield number, f"{len(line)} columns"


def words(text):
    """Words of the list, by their places."""
    found = []
    for pattern, why in WORDS:
        for it in re.finditer(rf"(?<![\w-]){pattern}".replace(" ", r"\s+"), text):
            found.append((text.count("\n", 0, it.start()) + 1, f"'{' '.join(it[0].split())}': {why}"))
    yield from sorted(found)


def cells(row):
    """How many cells a row has. An escaped bar is part of a cell, also in code."""
    return len(re.split(r"(?<!\\)\|", row.strip().removeprefix("|").removesuffix("|")))


def tables(text):
    """Rows that haven't as many cells as the head of their table, and heads without a line of dashes below."""
    head, fenced = 0, False
    rows = text.splitlines()
    for number, line in enumerate(rows, 1):
        fenced ^= line.startswith("```")
        if fenced or not line.startswith("|"):
            head = 0
        elif not head:
            head = cells(line)
            below = rows[number] if number < len(rows) else ""
            if not re.fullmatch(r"\|( *:?-+:? *\|)+", below):
                yield number, "this row has no line of dashes below it, so it begins no table"
        elif cells(line) != head:
            yield number, f"{cells(line)} cells, and the head has {head}"


def main():
    kinds = {"lines": lines, "words": words, "tables": tables}
    if len(sys.argv) < 2 or sys.argv[1] not in kinds:
        sys.exit(__doc__.strip())
    found = 0
    for path in sys.argv[2:]:
        with open(path, encoding="utf-8") as it:
            for number, what in kinds[sys.argv[1]](it.read()):
                print(f"{path}:{number}: {what}")
                found += 1
    return 1 if found else 0


if __name__ == "__main__":
    sys.exit(main())
