#!/usr/bin/env python3
"""Tries what the borrow check must refuse: to hold what is lent while its reader goes on, or its source is changed.

    tests/borrows.py

Each case is a function with two lines in an order that must be refused with exactly this error, and in the other
order, which must be taken. The crates below must be built, as './check' and './kudzuturret' leave them. The last line
is 'N passed, M failed'; the status is 0 if nothing failed.
"""
import dataclasses
import sys
import tempfile
from pathlib import Path

from wrong_bodies import Checker, Crate


@dataclasses.dataclass
class Case:
    """What is held, a function up to the two lines and after them, the lines, and the error if it is held too long."""

    held: str
    uses: list
    before: str
    change: str
    read: str
    after: str
    error: str


CASES = [
    Case(
        held="a page, while its window lends the next one",
        uses=["ogg_page"],
        before="""//! A page that is lent, and its window.
#![tactic(auto)]
use ogg_page::{PageSource, Window};

/// The offset of the first page.
pub fn first_offset<S: PageSource>(window: &mut Window<S>) -> u64 {
    let Ok(Some(lent)) = window.next() else {
        return 0;
    };
""",
        change="    let _ = window.advance();\n",
        read="    let offset = lent.offset();\n",
        after="    offset\n}\n",
        error="borrow-e0499",
    ),
    Case(
        held="a packet, while its source is changed",
        uses=["ogg_page", "packet_view"],
        before="""//! A packet, and its source.
#![tactic(auto)]
use packet_view::Packets;

/// The length of the first packet.
pub fn first_length(bytes: &mut [u8; 4]) -> usize {
    let Ok(Some(packet)) = Packets::of(bytes, 1).next() else {
        return 0;
    };
""",
        change="    bytes[0] = 0;\n",
        read="    let length = packet.len();\n",
        after="    length\n}\n",
        error="borrow-e0506",
    ),
    Case(
        held="a part, while its stream lends the next one",
        uses=["ogg_page", "packet_view"],
        before="""//! A part that is lent, and its stream.
#![tactic(auto)]
use ogg_page::PageSource;
use packet_view::Stream;

/// The length of the first part.
pub fn first_length<S: PageSource>(stream: &mut Stream<S>) -> usize {
    let Ok(Some(part)) = stream.next_part() else {
        return 0;
    };
""",
        change="    let _ = stream.next_part();\n",
        read="    let length = part.bytes.len();\n",
        after="    length\n}\n",
        error="borrow-e0499",
    ),
]


def checked(checker, uses, text):
    """What a check says of a crate of this one source."""
    with tempfile.TemporaryDirectory(prefix="borrows-") as room:
        source = Path(room, "src", "lib.rt")
        source.parent.mkdir()
        source.write_text(text, encoding="utf-8")
        return checker.ran(checker.command(Crate("scratch", uses)), room)[0]


def main():
    checker = Checker.found()
    passed = failed = 0
    for case in CASES:
        lacking = [it for it in case.uses if not checker.crates[it].rlib.is_dir()]
        if lacking:
            sys.exit(f"{lacking[0]} isn't built: ./check and ./kudzuturret build it")
        held = checked(checker, case.uses, case.before + case.change + case.read + case.after)
        done = checked(checker, case.uses, case.before + case.read + case.change + case.after)
        for is_well, what, said in (
            (f"error[{case.error}]" in held, "refused", held),
            ("\nlogic=proved" in done, "taken if it is done with before", done),
        ):
            print(f"{case.held}: {what}" if is_well else f"FAILED: {case.held}: {what}\n{said[:2000]}", flush=True)
            passed, failed = passed + is_well, failed + (not is_well)
    print(f"{passed} passed, {failed} failed")
    return 1 if failed else 0


if __name__ == "__main__":
    sys.exit(main())
