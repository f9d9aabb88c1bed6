#!/usr/bin/env python3
"""Tells what is promised, by which contract, and which wrong bodies are refused.

    tools/proofs.py            writes docs/PROOFS.md: what the program promises, what isn't proved, what isn't promised
    tools/proofs.py CRATE ..   prints what these crates promise
    tools/proofs.py --all      prints the rest: the mistakes that are refused, what each crate promises, and its size
    tools/proofs.py --check    says whether docs/PROOFS.md is as it would be written, and whether all names exist

crates/CRATE/promises.txt has the promises of a crate. An indented line goes on with the one before it:

    promise: read_page
    says: a page is read exactly if the bytes begin with a page's bytes; of other bytes the first fault of the table is
      reported; no memory is taken
    by: `read_page`: found, each, exact

'promise' is its name. A wrong body says by it which promise it breaks, or several, each in a line 'promise: read_page'
of wrong-bodies/NAME.edit, or '# promise: read_page' of must-fail/NAME.edit. 'says' is what is promised. 'by' is what
carries it: functions, types and definitions in backticks, and after a colon their clauses. All of them must be there;
one of another crate has that crate's name after it, in brackets. 'tried' says what tries the promise beside its wrong
bodies, or why it has none, and then it must be there.

docs/proofs/program.txt has the promises of the whole program in the same form: names of any crate, and no wrong bodies;
its 'tried' is what only tests show. docs/proofs/*.md and crates/CRATE/tested.md are prose, which is taken as it stands.
Nothing in docs/PROOFS.md is counted or measured, so it changes only if docs/proofs/ does.

The last line of --check is 'N passed, M failed'; the status is 0 if nothing failed.
"""
import difflib
import functools
import itertools
import re
import sys
import textwrap
from pathlib import Path

TOP = Path(__file__).resolve().parent.parent
sys.path.insert(0, str(TOP / "tests"))

from wrong_bodies import BadEdit, Edit, functions_of  # noqa: E402

PAGE = TOP / "docs" / "PROOFS.md"
PROSE = TOP / "docs" / "proofs"
COLUMNS = 120
WORDS = ("says", "by", "tried")
# What would begin a list or a heading if a line began with it.
BEGINS = re.compile(r" (?=[-+*#>|=]|\d+[.)] )")


class Bad(Exception):
    """What is wrong with a file that this page is made of."""


class Promise:
    """A promise: its name, what it says, what carries it, what tries it beside its wrong bodies, and these."""

    def __init__(self, name):
        self.name = name
        self.says = self.by = self.tried = ""
        self.edits = []


def promises_of(path):
    """The promises of a file, by name."""
    found, last, where = {}, None, path.relative_to(TOP)
    for line in path.read_text(encoding="utf-8").splitlines() if path.is_file() else ():
        word, _, rest = line.partition(": ")
        if line.startswith("  ") and last:
            setattr(*last, f"{getattr(*last)} {line.strip()}")
        elif word == "promise":
            if rest in found or not re.fullmatch(r"[a-z]\w*", rest):
                raise Bad(f"{where}: the name {rest!r} is another promise's, or isn't of small letters")
            found[rest] = Promise(rest)
        elif word in WORDS and found:
            last = [*found.values()][-1], word
            setattr(*last, rest)
        elif line and not line.startswith("#"):
            raise Bad(f"{where}: what does this line say: {line[:80]}")
    for it in found.values():
        if not it.says or not it.by:
            raise Bad(f"{where}: {it.name} lacks what it says, or what carries it")
    return found


class Crate:
    """A crate: its files, what its sources declare, its promises, and its wrong bodies."""

    def __init__(self, name, family):
        self.name = name
        self.family = family
        self.folder = TOP / "crates" / name
        self.promises = promises_of(self.folder / "promises.txt")
        self.edits = [self.edit(it) for kind in ("must-fail", "wrong-bodies") for it in self.files(kind, "*")]
        for it in self.edits:
            for promise in it.promises:
                if promise in self.promises:
                    self.promises[promise].edits.append(it)

    def files(self, part, pattern):
        return sorted(it for it in (self.folder / part).rglob(pattern) if it.is_file())

    def edit(self, path):
        """A wrong body. Those of must-fail/, which the toolchain reads, name no function, and their promise in a comment."""
        text = path.read_text(encoding="utf-8")
        if path.parent.name == "must-fail":
            text = "refused: any\n" + re.sub(r"(?m)^# (?=promise: |mistake: )", "", text)
        try:
            return Edit(path.stem, text)
        except BadEdit as why:
            raise Bad(f"{path.relative_to(TOP)}: {why}") from why

    @functools.cached_property
    def sources(self):
        return {it.relative_to(self.folder).as_posix(): it.read_text(encoding="utf-8") for it in self.files("src", "*.rt")}

    @functools.cached_property
    def code(self):
        return "\n".join(self.sources.values())

    @functools.cached_property
    def specs(self):
        return "\n".join(it.read_text(encoding="utf-8") for it in self.files("specs", "*.antt"))

    @functools.cached_property
    def functions(self):
        return [name for found in functions_of(self.sources).values() for _, name in found]

    @functools.cached_property
    def declared(self):
        """The names of functions, types, traits and definitions."""
        in_code = re.findall(r"\b(?:fn|struct|enum|trait|type|const) (\w+)", self.code)
        return {*in_code, *re.findall(r"(?m)^\s*(?:(?:pub|abbrev|data|record|rec) )*([\w-]+)", self.specs)}

    @functools.cached_property
    def clauses(self):
        """The names of the clauses of contracts, and of the fields of definitions."""
        in_code = re.findall(r"\b(?:ensures|requires|ghost) (\w+)", self.code)
        return {*in_code, *re.findall(r"(?m)^\s+(?:pub )?(\w+)\b[^:=\n]*:", self.specs)}

    def has(self, name):
        """Whether the crate has a function, a type, a trait, an implementation or a definition of this name."""
        of, _, inner = name.replace(".", "::").partition("::")
        if "::" in name:
            # The first word is a type of the crate, which has the function, or a trait, which declares it.
            own = any(re.search(rf"(^|::){of}\w*::{inner}$", it) for it in self.functions)
            return own or of in self.declared and inner in self.declared
        if "." in name:
            return of in self.declared and inner in self.clauses
        return f"impl {name} " in self.code if " for " in name else name in self.declared

    def lines(self, part, pattern):
        return sum(len(it.read_text(encoding="utf-8").splitlines()) for it in self.files(part, pattern))

    def tested(self):
        return text_of(self.folder / "tested.md")


def text_of(path):
    return path.read_text(encoding="utf-8").strip() if path.is_file() else ""


def every_crate():
    """The crates, in the order of crates.txt, each with the comment that its family stands under."""
    found, family = {}, ""
    for line in (TOP / "crates.txt").read_text(encoding="utf-8").splitlines()[1:]:
        if line.startswith("#"):
            family = line.removeprefix("#").strip()
        elif line:
            name = line.partition(":")[0]
            found[name] = Crate(name, family)
    return found


def names_in(text):
    """The names in backticks, each with the crate that stands in brackets after it, and the names of clauses."""
    clauses = []
    # What stands in brackets isn't looked at for clauses.
    for part in re.sub(r" \(.*?\)", "", text).split(";"):
        for words in part.split("`: ")[1:]:
            clauses += itertools.takewhile(re.compile(r"\w+").fullmatch, words.split(", "))
    names = []
    for name, crate in re.findall(r"`([^`]+)`(?: \((\w+)\))?", text):
        base, _, inner = name.partition("::{")
        each = [f"{base}::{it}" for it in inner.rstrip("}").split(", ")] if inner else [name]
        # What a type is generic over is no part of its name.
        names += [(it if " for " in it else re.sub(r"<\w+>", "", it), crate) for it in each]
    return names, clauses


def lost_names(text, crates, own):
    """The names and clauses in a text that aren't there. Only the crate in brackets is looked into, if there is one."""
    names, clauses = names_in(text)
    for name, of in names:
        where = [crates[of]] if of in crates else own
        if not any(it.has(name) or name in it.clauses for it in where):
            yield name
    for name in clauses:
        if not any(name in it.clauses for it in own):
            yield f"{name} (a clause)"


def faults(crates, program):
    """What is wrong with the promises and the wrong bodies."""
    for crate in crates.values():
        for it in crate.edits:
            for name in it.promises or ["(none)"]:
                if name not in crate.promises:
                    yield f"{crate.name}/{it.name} names the promise {name}, which the crate doesn't have"
        for it in crate.promises.values():
            if not it.edits and not it.tried:
                yield f"{crate.name}/{it.name} has no wrong body, and doesn't say why"
            for name, of in re.findall(r"(\w+) \((\w+)\)", it.tried):
                if of in crates and name not in [edit.name for edit in crates[of].edits]:
                    yield f"{crate.name}/{it.name} is tried by {name}, which isn't in {of}"
            for name in lost_names(it.by, crates, [crate]):
                yield f"{crate.name}/{it.name} is carried by {name}, which isn't in the crate"
    for it in program.values():
        for name in lost_names(it.by, crates, [*crates.values()]):
            yield f"{it.name} is carried by {name}, which is in no crate"


def wrapped(text, first, rest):
    """A text in lines of 120 columns, of which the first and the others begin so; none begins like a list."""
    lines = textwrap.wrap(
        BEGINS.sub("\0", text),
        COLUMNS,
        initial_indent=first,
        subsequent_indent=rest,
        break_long_words=False,
        break_on_hyphens=False,
    )
    return "\n".join(lines).replace("\0", " ")


def ended(text):
    """A text as a sentence."""
    return text if text.endswith((".", ":")) else f"{text}."


def listed(promise):
    """A promise of a crate as an item of a list."""
    tried = ", ".join(it.name for it in promise.edits)
    tried = "; ".join(it for it in (tried, promise.tried) if it)
    # A reason alone isn't a wrong body, and a law has none at all.
    kind = "Refused" if promise.edits else "No wrong body" if " law" in promise.tried else "No wrong body of its own"
    return "\n".join(
        [
            wrapped(ended(f"**{promise.name}**: {promise.says}"), "- ", "  "),
            wrapped(ended(f"By {promise.by}"), "  - ", "    "),
            wrapped(ended(f"{kind}: {tried}"), "  - ", "    "),
        ]
    )


def told(promise):
    """A promise of the program as an item of a list."""
    says = promise.says[0].upper() + promise.says[1:]
    lines = [wrapped(ended(says), "- ", "  "), wrapped(ended(f"By {promise.by}"), "  - ", "    ")]
    if promise.tried:
        lines.append(wrapped(ended(f"Only tested: {promise.tried}"), "  - ", "    "))
    return "\n".join(lines)


def by_family(crates):
    """The families in the order of crates.txt, each with its crates."""
    found = {}
    for it in crates:
        found.setdefault(it.family, []).append(it)
    return found


def contents(crates):
    """A line for each family, with links to its crates."""
    for family, members in by_family(crates).items():
        yield wrapped(f"**{family}:** {', '.join(f'[{it.name}](#{it.name})' for it in members)}", "- ", "  ")


def section(crate):
    """What is proved of a crate, and what isn't."""
    yield f"### {crate.name}"
    yield "\n".join(map(listed, crate.promises.values())) or "It promises nothing of its own."
    yield crate.tested()


def mistakes(crates):
    """The mistakes that wrong bodies are named for, each with these wrong bodies by crate."""
    found = {}
    for crate in crates.values():
        for it in crate.edits:
            if it.mistake:
                found.setdefault(it.mistake, {}).setdefault(crate.name, []).append(it.name)
    for mistake, edits in found.items():
        names = "; ".join(f"{', '.join(names)} ({crate})" for crate, names in edits.items())
        yield f"{wrapped(f'{mistake}:', '- ', '  ')}\n{wrapped(names, '  ', '  ')}"


def table(head, rows):
    """A table whose columns are as wide as their widest cells, so that it can be read as it stands."""
    cells = [head, *rows]
    widths = [max(len(row[i]) for row in cells) for i in range(len(head))]
    drawn = [[f"{row[0]:{widths[0]}}", *(f"{it:>{width}}" for it, width in zip(row[1:], widths[1:]))] for row in cells]
    rule = ["-" * widths[0], *(f"{'-' * (width - 1)}:" for width in widths[1:])]
    return "\n".join(f"| {' | '.join(row)} |" for row in [drawn[0], rule, *drawn[1:]])


def sizes(crates):
    """The table of lines, functions, tests, wrong bodies and seconds of each crate."""
    seconds = {}
    for line in (TOP / "tools" / "seconds.txt").read_text(encoding="utf-8").splitlines():
        name, *numbers = line.split()
        seconds[name] = numbers
    rows = []
    for it in crates.values():
        tests = it.code.count("#[test]")
        counts = [it.lines("src", "*.rt"), it.lines("specs", "*.antt"), it.lines("proofs", "*.antt")]
        counts += [len(it.functions) - tests, tests, len(it.edits)]
        measured = [*seconds.get(it.name, []), "", ""][:2]
        rows.append([it.name, *(f"{number:,}" if number else "" for number in counts), *measured])
    totals = [sum(int(row[i].replace(",", "") or 0) for row in rows) for i in range(1, len(rows[0]))]
    rows.append(["all", *(f"{it:,}" if it else "" for it in totals)])
    head = ["Crate", "Code", "Definitions", "Proofs", "Functions", "Tests", "Wrong bodies", "Proof, s", "Wrong bodies, s"]
    return table(head, rows)


def prose(name):
    return text_of(PROSE / f"{name}.md")


def joined(parts):
    return "\n\n".join(it for it in parts if it) + "\n"


def page(program):
    """The text of docs/PROOFS.md."""
    return joined(
        [
            "<!-- Made by tools/proofs.py, which says what of. Don't change it here. -->",
            "# What is proved, what is tested, what is neither",
            prose("intro"),
            "## The promises of the program",
            prose("program"),
            "\n".join(map(told, program.values())),
            "## Not proved yet",
            prose("not-proved"),
            "## Not promised, and trusted",
            prose("not-promised"),
            "## Crate by crate",
            prose("crates"),
        ]
    )


def rest(crates):
    """What docs/PROOFS.md leaves out."""
    proved = [it for it in crates.values() if it.promises or it.tested()]
    return joined(
        [
            "## Mistakes that an implementer makes",
            prose("mistakes"),
            "\n".join(mistakes(crates)),
            prose("mistakes-by-tests"),
            "## Crate by crate",
            "\n".join(contents(proved)),
            *(part for it in proved for part in section(it)),
            "## Wrong bodies that a tool makes",
            prose("planted"),
            "## Lines, and what `./check` costs",
            prose("gate"),
            sizes(crates),
        ]
    )


def check(text, lost):
    """Prints what is wrong, and gives the counts of what is right and wrong."""
    for it in lost:
        print(f"FAILED: {it}")
    old = PAGE.read_text(encoding="utf-8") if PAGE.is_file() else ""
    changes = list(difflib.unified_diff(old.splitlines(), text.splitlines(), "docs/PROOFS.md", "as it would be made", "", "", 0))
    if changes:
        print("\n".join(["FAILED: docs/PROOFS.md is stale: tools/proofs.py makes it", *changes[:20]]))
    return 2 - bool(lost) - bool(changes), len(lost) + bool(changes)


def main():
    words = sys.argv[1:]
    try:
        crates = every_crate()
        program = promises_of(PROSE / "program.txt")
        lost, text, more = [*faults(crates, program)], page(program), rest(crates)
    except Bad as why:
        print(f"FAILED: {why}\n0 passed, 1 failed")
        return 1
    if words == ["--check"]:
        passed, failed = check(text, lost)
        print(f"{passed} passed, {failed} failed")
        return 1 if failed else 0
    unknown = [it for it in words if it not in crates]
    if unknown and words != ["--all"]:
        sys.exit(f"usage: tools/proofs.py [--check | --all | CRATE ..]: crates.txt has no {unknown[0]}")
    for it in lost:
        print(f"note: {it}", file=sys.stderr)
    if unknown:
        print(more, end="")
    elif words:
        print(joined(part for it in words for part in section(crates[it])), end="")
    else:
        PAGE.write_text(text, encoding="utf-8")
    return 0


if __name__ == "__main__":
    sys.exit(main())
