#!/usr/bin/env python3
"""Draws docs/crates.svg: the families of crates.txt as boxes, their crates inside, and arrows to what they stand on.

    tools/map.py            writes it
    tools/map.py --check    says whether it is as it would be written

A family stands above each family whose crates its own crates use. Of its arrows those are left out that a way over other
arrows says already. A family that crates.txt has below, and that uses one above, has a broken arrow beside the boxes, with
the crates that make it. The last line of --check is 'N passed, M failed'; the status is 0 if nothing failed.
"""
import sys
from html import escape
from pathlib import Path

TOP = Path(__file__).resolve().parent.parent
CRATES = TOP / "crates.txt"
PICTURE = TOP / "docs" / "crates.svg"

WIDTH, SIDE = 960, 48
BETWEEN, ABOVE = 24, 40
PAD, TITLE = 14, 30
CHIP, GAP = 24, 8
# What a character of a crate's name takes at most, in a font of 13 pixels.
LETTER = 7.9

HEAD = """<svg xmlns="http://www.w3.org/2000/svg" viewBox="0 0 {width} {height}" width="{width}" height="{height}" role="img"
    font-family="sans-serif" font-size="13">
  <title>The crates by families, each above those that it stands on</title>
  <defs>
    <marker id="tip" markerUnits="userSpaceOnUse" markerWidth="12" markerHeight="10" refX="11" refY="5" orient="auto">
      <path d="M0 0 L12 5 L0 10 z" fill="#33536b"/>
    </marker>
    <style>
      rect.back {{ fill: #fff }}
      rect.family {{ fill: #eaf1f7; stroke: #33536b; rx: 8px }}
      rect.crate {{ fill: #fff; stroke: #9fb6c8; rx: 5px }}
      text {{ fill: #1b2a34 }}
      text.crate {{ text-anchor: middle }}
      text.on {{ font-size: 12px; fill: #33536b; text-anchor: middle }}
      .name {{ font-weight: bold; font-size: 14px }}
      path.way {{ fill: none; stroke: #33536b; stroke-width: 2; marker-end: url(#tip) }}
      path.up {{ stroke-dasharray: 6 4 }}
    </style>
  </defs>
  <rect class="back" width="{width}" height="{height}"/>
"""


class Family:
    """A family: what crates.txt calls it, its crates with what they use, and its place in the picture."""

    def __init__(self, title):
        self.title = title
        self.crates = {}
        self.uses = {}
        self.row = 0
        self.x = self.y = self.width = self.height = 0

    def below(self):
        """The families that this one stands on, and those below them."""
        return set().union(self.uses, *(it.below() for it in self.uses))

    def drawn(self):
        """The families to which it has an arrow."""
        return [it for it in self.uses if not any(it in other.below() for other in self.uses)]

    def size(self):
        """About how much room its crates take, in pixels of one line."""
        return sum(wide(it) + GAP for it in self.crates)

    def place(self, x, y, width):
        """Puts it there, and its crates into as many lines as they take."""
        self.x, self.y, self.width = x, y, width
        self.places, across, down = {}, x + PAD, y + TITLE + 6
        for name in self.crates:
            if across + wide(name) > x + width - PAD and across > x + PAD:
                across, down = x + PAD, down + CHIP + GAP
            self.places[name] = across, down
            across += wide(name) + GAP
        self.height = down + CHIP + PAD - y


def wide(name):
    return round(LETTER * len(name)) + 14


def families():
    """The families from the lowest to the highest, and the uses of one that crates.txt has after its user's."""
    found, of = [], {}
    for line in CRATES.read_text(encoding="utf-8").splitlines()[1:]:
        if line.startswith("#"):
            found.append(Family(line.removeprefix("#").strip()))
        elif line:
            name, _, uses = line.partition(":")
            found[-1].crates[name] = uses.split()
            of[name] = found[-1]
    upward = {}
    for family in found:
        for name, uses in family.crates.items():
            for used in uses:
                other = of.get(used, family)
                if found.index(other) > found.index(family):
                    upward.setdefault((family, other), []).append(f"{name} uses {used}")
                elif other is not family:
                    family.uses[other] = True
    for family in found:
        family.row = max((it.row + 1 for it in family.uses), default=0)
    return found, upward


def put(found):
    """Gives each family its place, the lowest at the bottom, and gives the height of all."""
    y = 16
    for row in range(max(it.row for it in found), -1, -1):
        members = [it for it in found if it.row == row]
        room = WIDTH - 2 * SIDE - BETWEEN * (len(members) - 1)
        total, x = sum(it.size() for it in members), SIDE
        for it in members:
            width = round(room * it.size() / total)
            it.place(x, y, width)
            x += width + BETWEEN
        height = max(it.height for it in members)
        for it in members:
            it.height = height
        y += height + ABOVE
    return y - ABOVE + 16


def box(it):
    """A family with its crates."""
    title, colon, more = it.title.partition(":")
    yield f'<rect class="family" x="{it.x}" y="{it.y}" width="{it.width}" height="{it.height}"/>'
    more = f"<tspan>{escape(colon + more)}</tspan>" if colon else ""
    yield f'<text x="{it.x + PAD}" y="{it.y + 22}"><tspan class="name">{escape(title)}</tspan>{more}</text>'
    for name, (x, y) in it.places.items():
        yield f'<rect class="crate" x="{x}" y="{y}" width="{wide(name)}" height="{CHIP}"/>'
        yield f'<text class="crate" x="{x + wide(name) / 2:g}" y="{y + 16}">{escape(name)}</text>'


def aside(start, goal, words=""):
    """An arrow beside the boxes, on the left if both begin there; a broken one, with words, if it goes up."""
    left = start.x == goal.x == SIDE
    (x, y), (to_x, to_y) = [(it.x if left else it.x + it.width, it.y + it.height // 2) for it in (start, goal)]
    out = 22 if left else WIDTH - 22
    yield f'<path class="way{" up" if words else ""}" d="M{x} {y} H{out} V{to_y} H{to_x - 2 if left else to_x + 2}"/>'
    if words:
        x, y = out - 8 if left else out + 16, (y + to_y) // 2
        yield f'<text class="on" x="{x}" y="{y}" transform="rotate(-90 {x} {y})">{escape(words)}</text>'


def arrows(found, upward):
    for it in found:
        for other in it.drawn():
            begin, end = max(it.x, other.x), min(it.x + it.width, other.x + other.width)
            if it.row == other.row + 1 and end - begin > 2 * PAD:
                middle = (begin + end) // 2
                yield f'<path class="way" d="M{middle} {it.y + it.height} V{other.y - 2}"/>'
            else:
                yield from aside(it, other)
    for (it, other), why in upward.items():
        yield from aside(it, other, ", ".join(why))


def picture():
    found, upward = families()
    height = put(found)
    lines = [line for it in found for line in box(it)]
    drawn = "".join(f"  {it}\n" for it in [*lines, *arrows(found, upward)])
    return f"{HEAD.format(width=WIDTH, height=height)}{drawn}</svg>\n"


def main():
    if sys.argv[1:] not in ([], ["--check"]):
        sys.exit(__doc__.strip())
    text = picture()
    if not sys.argv[1:]:
        PICTURE.write_text(text, encoding="utf-8")
        return 0
    stale = not PICTURE.is_file() or PICTURE.read_text(encoding="utf-8") != text
    if stale:
        print("FAILED: docs/crates.svg is stale: tools/map.py draws it")
    print(f"{1 - stale} passed, {int(stale)} failed")
    return int(stale)


if __name__ == "__main__":
    sys.exit(main())
