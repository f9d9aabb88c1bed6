#!/usr/bin/env python3
"""Tries the wrong bodies: functions with an error put in, which their contracts must refuse.

    tests/wrong_bodies.py [--alone] [--minutes N] [CRATE ..]      none: every crate

crates/CRATE/wrong-bodies/NAME.edit is named for its mistake. It names the promise that it breaks, one of those in
crates/CRATE/promises.txt, and the function that must be refused, as a check prints it, and has the lines that are
changed:

    promise: page_fields
    refused: page::Page::serial
    file: src/page.rt
    old:         self.head.serial
    new:         self.head.sequence

What stands after 'old: ' is in the file once; what stands after 'new: ' takes its place. A line 'mistake: TEXT' says what
the wrong body does, where 'tools/proofs.py --all' lists it among the mistakes that an implementer makes.

The wrong bodies of a crate are planted together in one copy of it, and one check says of each function whether it is
proved. None of them hides another: the proof of a function rests on the contracts of what it calls, not on the bodies,
and the check tells a function that isn't proved from one that only calls such a function. A second one in the same
function changes a twin of it: a function of another name that stands behind it, with the same contract and the same
proof file. A trait's function can't have one, so there is a second copy then, and so there is for a wrong body that
changes more than one function. With --alone each has a copy of its own, which takes hours.

The functions that aren't changed have a hole for a proof: their contracts are taken as they stand, since 'rt ci' proves
them. So only the changed functions are proved again.

A wrong body is refused if the check doesn't prove its function, and names a goal in it that it can't prove. It is a
failure if that function is proved, if only its proof file names what isn't there any more, if the check has no verdict
on it, or if a function is refused in which nothing was changed.

Each crate has a control besides, planted among them: a right body of another shape, made by giving a variable another
name in a function whose proof file cites it. That it is proved, or that nothing can be told of it, is right; that it is
refused is a failure, since so might be any right body.

The crates below must be built, as './check' and './kudzuturret' leave them, and not be older than their files. As many
crates are tried side by side as there are processors. With --minutes no check begins after so many: the crates that the
newest commits changed are tried first then, and the others from a place that moves with each commit; a line names what
wasn't tried, and one tells how many those are. What a check says is read as the kit in KIT says it; the first line tells
of another kit. The last line is 'N passed, M failed'; the status is 0 if nothing failed.
"""
import argparse
import itertools
import math
import os
import re
import shutil
import subprocess
import sys
import tempfile
import time
from concurrent.futures import ThreadPoolExecutor, as_completed
from copy import copy as clone
from pathlib import Path

TOP = Path(__file__).resolve().parent.parent
# A check takes up to ten minutes; one that takes this many seconds hangs.
LONGEST = 3600
# What a check may take of the memory, in bytes.
MEMORY = 3_000_000_000
# Stands between a crate and the names of its wrong bodies for which there was no time.
NOT_TRIED = ": not tried for want of time:"
# So many commits are the newest: what they changed is tried first, if there may be no time for all.
NEWEST = 7


# The kit whose checks this script reads.
KIT = "rattle-kit-13f"

# A body of text_line that means what the one before meant. If this one counted as refused, any other might.
RIGHT = """refused: line::Line::as_slice
file: src/line.rt
old:         let (_, text) = self.bytes.split_at(self.start);
new:         let (_, text) = (self.bytes).split_at(self.start);
"""


# The files of a function's proof, and one with a hole.
PROOF_FILES = ("Invariants.antt", "Answers.antt", "Proof.antt")
HOLE = """use Rattle.{crate}.proofs.{path}.Statement as stated

pub {name}_spec : {{M : Type 1}} → stated.statement M
{name}_spec = ?
"""


FUNCTION = re.compile(r"(?:    )?(?:pub(?:\(\w+\))? )?(?:const )?(?:unsafe )?fn (\w+)")
TYPE = re.compile(r"(?:pub(?:\(\w+\))? )?(?:struct|enum) (\w+)")
TRAIT = re.compile(r"(?:pub(?:\(\w+\))? )?trait ")
# The parameters; a trait, if there is one, and what it is of; and the type, and what it is of.
IMPL = re.compile(r"impl(?:<(.*?)>)? (?:(\w+)(?:<(\w+).*?>)? for )?(?:&(?:'\w+ )?(?:mut )?)?(\w+)(?:<(\w+)>)?")
# What is said of a proof file that names something that the edit took away.
MISSING = re.compile(r"has no field|has no `|is not in scope|was not admitted|, which was rejected,")
NEAREST = re.compile(rf"{MISSING.pattern}|\(nearest: ")
# What is said of an answer to a goal that has another name now, so that it isn't answered.
RENAMED = re.compile(r"\.Goals` has no `")


def functions_of(sources):
    """The functions of a crate's sources, which are texts by file: by file, the line and the name of each.

    The names are those that a check prints. A type's methods have the module that declares the type, and those of a
    trait the module that they stand in.
    """
    modules, types = {}, {}
    for file, text in sources.items():
        names = file.removeprefix("src/").removesuffix(".rt").split("/")
        modules[file] = [it for it in names if it not in ("lib", "main")]
        types |= {found[1]: modules[file] for line in text.splitlines() if (found := TYPE.match(line))}
    return {file: [*named_functions(text, modules[file], types)] for file, text in sources.items()}


def named_functions(text, module, types):
    """The functions of a source file of this module, each with its line. The modules of the crate's types are given."""
    outer = module
    for number, line in enumerate(text.splitlines(), 1):
        if found := IMPL.match(line):
            parameters = re.findall(r"(?:^|, )(\w+)", found[1] or "")
            part, of = (it if it and it not in parameters else "" for it in (found[3], found[5]))
            name = "Any" if found[4] in parameters else found[4] + of.capitalize()
            outer = [*module, name + found[2] + part] if found[2] else [*types.get(found[4], module), name]
        elif TRAIT.match(line):
            outer = None
        elif line.startswith("}"):
            outer = module
        elif (found := FUNCTION.match(line)) and outer is not None:
            yield number, "::".join([*outer, found[1]])


def copy_proof(proofs, function, twin):
    """Gives a function's twin a copy of the function's proof."""
    known, other = (it.split("::") for it in (function, twin))
    folder = proofs.joinpath(*other)
    if proofs.joinpath(*known).is_dir():
        shutil.copytree(proofs.joinpath(*known), folder)
    for file in folder.rglob("*.antt"):
        text = file.read_text(encoding="utf-8")
        text = text.replace(f".proofs.{'.'.join(known)}.", f".proofs.{'.'.join(other)}.")
        file.write_text(re.sub(rf"\b{known[-1]}_spec\b", f"{other[-1]}_spec", text), encoding="utf-8")


class BadEdit(Exception):
    """Why a wrong body can't be planted."""


class Edit:
    """A wrong body: its name, its promises and its mistake, the functions that must be refused, and the changed lines."""

    def __init__(self, name, text):
        self.name = name
        self.promises = []
        self.mistake = ""
        self.refused = []
        self.changes = []
        self.is_right = False
        # If it changes a twin, the function that this is the twin of.
        self.twin_of = ""
        file = old = None
        for line in text.splitlines():
            word, _, rest = line.partition(":")
            rest = rest.removeprefix(" ")
            if word == "promise":
                self.promises.append(rest)
            elif word == "mistake":
                self.mistake = rest
            elif word == "refused":
                self.refused.append(rest)
            elif word == "file":
                file = rest
            elif word == "old":
                old = rest
            elif word == "new" and file and old:
                self.changes.append((file, old, rest))
                old = None
            else:
                raise BadEdit(f"what does this line say: {line[:80]}")
        if not self.refused or not self.changes:
            raise BadEdit("it names no function that must be refused, or changes nothing")

    @staticmethod
    def control(function, file, old, new):
        """A right body of this function, which has another shape: its text before and after."""
        edit = Edit("control", f"refused: {function}\nfile: {file}\nold: none\nnew: none\n")
        edit.changes = [(file, old, new)]
        edit.is_right = True
        return edit

    def of_twin(self, copied):
        """The same wrong body in a twin of its function that is put behind it in this copy, or why that can't be."""
        function, file = self.refused[0], self.changes[0][0]
        if len(self.refused) > 1 or any(it != file for it, _, _ in self.changes):
            raise BadEdit("more than one function is changed, or more than one file")
        *module, name = function.split("::")
        twin = f"{name}_twin{len(copied.edits)}"
        # The twin is what the function was before the copy changed it.
        text = Copy(copied.folder).text_of(file, function)
        for _, old, new in self.changes:
            if text.count(old) != 1:
                raise BadEdit(f"an 'old:' isn't in {function}")
            text = text.replace(old, new)
        text = re.sub(rf"\bfn {name}\b", f"fn {twin}", text, count=1)
        first = copied.text_of(file, function)
        edit = clone(self)
        edit.refused = ["::".join([*module, twin])]
        edit.changes = [(file, first, f"{first}\n{text}")]
        edit.twin_of = function
        return edit

    def plant(self, texts, folder):
        """The texts, which are by file, with the changed lines, or why that can't be."""
        planted = dict(texts)
        for file, old, new in self.changes:
            if file not in planted:
                if not file.startswith(("src/", "specs/", "proofs/")) or not (folder / file).is_file():
                    raise BadEdit(f"there is no file {file}")
                planted[file] = (folder / file).read_text(encoding="utf-8")
            count = planted[file].count(old)
            if count != 1:
                raise BadEdit(f"an 'old:' is in {file} {count} times, and not once")
            planted[file] = planted[file].replace(old, new)
        return planted


class Copy:
    """Wrong bodies that stand in one copy of a crate, each in another function, and the texts of the changed files."""

    def __init__(self, folder):
        self.folder = folder
        self.edits = []
        self.texts = {}

    def functions(self):
        return [it for edit in self.edits for it in edit.refused]

    def take(self, edit):
        """Plants one more, and says whether that could be done."""
        try:
            if {*self.functions()} & {*edit.refused}:
                edit = edit.of_twin(self)
            self.texts = edit.plant(self.texts, self.folder)
        except BadEdit:
            return False
        self.edits.append(edit)
        return True

    def sources(self):
        """The copy's sources, by file."""
        files = {it.relative_to(self.folder).as_posix(): it for it in (self.folder / "src").rglob("*.rt")}
        return {file: self.texts.get(file) or it.read_text(encoding="utf-8") for file, it in files.items()}

    def text_of(self, file, function):
        """The text of a function, from its attributes on, if it may have a twin."""
        sources = self.sources()
        lines = sources.get(file, "").splitlines(keepends=True)
        begin = next((line - 1 for line, name in functions_of(sources).get(file, []) if name == function), None)
        if begin is None:
            raise BadEdit(f"{file} has no function {function}")
        indent = re.match(" *", lines[begin])[0]
        outer = next((found for it in reversed(lines[:begin]) if (found := IMPL.match(it))), None)
        if indent and outer and outer[2]:
            raise BadEdit(f"{function} is a trait's")
        end = next(at for at in range(begin, len(lines)) if lines[at].startswith((indent + "}", indent + "{}")))
        while lines[begin - 1].lstrip().startswith("#["):
            begin -= 1
        return "".join(lines[begin : end + 1])

    def write(self, at):
        """Writes the copy, with a hole in place of the proof of each function that isn't changed."""
        for part in ("src", "specs", "proofs"):
            if (self.folder / part).is_dir():
                shutil.copytree(self.folder / part, at / part)
        for file, text in self.texts.items():
            (at / file).write_text(text, encoding="utf-8")
        for edit in self.edits:
            if edit.twin_of:
                copy_proof(at / "proofs", edit.twin_of, edit.refused[0])
        found = functions_of(self.sources())
        for function in {name for functions in found.values() for _, name in functions} - {*self.functions()}:
            names = function.split("::")
            folder = Path(at, "proofs", *names)
            folder.mkdir(parents=True, exist_ok=True)
            for name in PROOF_FILES:
                (folder / name).unlink(missing_ok=True)
            hole = HOLE.format(crate=self.folder.name, path=".".join(names), name=names[-1])
            (folder / "Proof.antt").write_text(hole, encoding="utf-8")

    def function_at(self, file, number):
        """The name of the function at a line of a file, its attributes included."""
        sources = self.sources()
        functions = functions_of(sources)[file]
        if sources[file].splitlines()[number - 1].lstrip().startswith("#["):
            return next((name for line, name in functions if line >= number), None)
        return next((name for line, name in reversed(functions) if line <= number), None)

    def unproved(self, output):
        """The names of the functions with a goal that the check can't prove."""
        notes = re.findall(r"^note: (src/\S+?):(\d+):\d+: (?:it is not proved|`search` found)", output, re.M)
        return {self.function_at(file, int(number)) for file, number in notes}


class Crate:
    """A crate, and the libraries that its line in crates.txt names."""

    PARTS = ("src", "specs", "proofs")

    def __init__(self, name, uses):
        self.name = name
        self.uses = uses
        self.folder = TOP / "crates" / name
        self.rlib = self.folder / "out" / "rlib" / f"{name}.rlib"

    def root(self):
        """The file that names the crate's modules, which says whether it is a program."""
        return "src/main.rt" if (self.folder / "src" / "main.rt").is_file() else "src/lib.rt"

    def is_stale(self):
        """Whether a file of the crate is newer than what was built of it."""
        built = self.rlib.stat().st_mtime
        return any(it.stat().st_mtime > built for part in self.PARTS for it in (self.folder / part).rglob("*.*"))

    def controls(self):
        """Right bodies of another shape, one for each function of the crate that can be changed so."""
        sources = Copy(self.folder).sources()
        ends = {file: len(text.splitlines()) + 1 for file, text in sources.items()}
        for file, functions in functions_of(sources).items():
            lines = sources[file].splitlines(keepends=True)
            for (begin, name), (end, _) in itertools.pairwise([*functions, (ends[file], "")]):
                answers = self.folder / "proofs" / name.replace("::", "/") / "Answers.antt"
                if not answers.is_file():
                    continue
                cited = answers.read_text(encoding="utf-8")
                text = "".join(lines[begin - 1 : end - 1])
                for variable in re.findall(r"(?m)^ +let (?:mut |\(|Some\()*(\w+)", text):
                    # A field or a call of this name would get another name too.
                    other = rf"[.{{]\s*{variable}\b|\b{variable}:|\b{variable} {{|\b{variable}\(|{variable},? }}"
                    if re.search(rf"[-.]{variable}\b", cited) and not re.search(other, text):
                        yield Edit.control(name, file, text, re.sub(rf"\b{variable}\b", f"{variable}_named", text))
                        break

    def copies(self, alone):
        """The copies that try the crate's wrong bodies and its control, and a line for each that can't be planted."""
        copies, bad = [], []

        def take(edit):
            if alone or not any(it.take(edit) for it in copies):
                copies.append(Copy(self.folder))
                copies[-1].take(edit)

        for path in sorted((self.folder / "wrong-bodies").glob("*")):
            try:
                edit = Edit(path.stem, path.read_text(encoding="utf-8"))
                edit.plant({}, self.folder)
                take(edit)
            except (BadEdit, ValueError) as why:
                bad.append(f"{self.name}/{path.name}: {why}")
        controls = [*self.controls()] if copies else []
        # A copy more is a check more: so the control is of a function that is as it was in one of those that there are.
        if controls and not any(not alone and it.take(control) for control in controls for it in copies):
            take(controls[0])
        return copies, bad


class Checker:
    """The toolchain's check, and the crates by name."""

    @staticmethod
    def found():
        """The checker of the kit that rt belongs to; without rt the program ends here."""
        rt = shutil.which("rt")
        if not rt:
            sys.exit("rt isn't here")
        return Checker(Path(rt).resolve().parent.parent)

    def __init__(self, kit):
        self.kit = kit
        self.crates = {}
        for line in (TOP / "crates.txt").read_text(encoding="utf-8").splitlines():
            if line and not line.startswith("#"):
                name, _, uses = line.partition(":")
                self.crates[name] = Crate(name, uses.split())

    def below(self, crate):
        """The crates of the repository that a crate stands on, each once."""
        found = {}
        for name in crate.uses:
            if name in self.crates:
                found.update({it.name: it for it in self.below(self.crates[name])})
                found[name] = self.crates[name]
        return [*found.values()]

    def command(self, crate):
        """The words that check the crate in the folder where they are run."""
        words = [f"{self.kit}/bin/rattle", "check", "--crate-name", crate.name, crate.root()]
        for name in ["std", *crate.uses]:
            ours = self.crates.get(name)
            words += ["--extern", f"{name}={ours.rlib if ours else f'{self.kit}/rlibs/{name}.rlib'}"]
        words += ["-L", f"dependency={self.kit}/rlibs"]
        for it in self.below(crate):
            words += ["-L", f"dependency={it.rlib.parent}"]
        words += ["--antt-project", f"{self.kit}/rattle/logic/antt-project.json"]
        words += ["--logic-built", f"{self.kit}/logic_built"]
        return [*words, "--links", f"{crate.name}=", "--jobs", "1"]

    @staticmethod
    def ran(words, at):
        """What these words say, run in this folder, and their status."""
        ran = subprocess.run(
            words,
            cwd=at,
            stdin=subprocess.DEVNULL,
            stdout=subprocess.PIPE,
            stderr=subprocess.STDOUT,
            errors="replace",
            timeout=LONGEST,
        )
        return ran.stdout, ran.returncode

    def check(self, crate, copy, room):
        """What the check of a copy says, and its status. What it proves is kept in the room for the next copy."""
        with tempfile.TemporaryDirectory(prefix="copy-", dir=room) as at:
            copy.write(Path(at))
            words = [*self.command(crate), "--incremental", f"{room}/kept", "--allow-holes"]
            for it in copy.functions():
                words += ["--only", it]
            return self.ran(words, at)

    def tried(self, crate, copies, end):
        """The lines to print of the crate's copies, each with whether it tells of a wrong body that was refused.

        For a copy that wasn't tried before the end, a moment of the clock, this is None.
        """
        lines = []
        with tempfile.TemporaryDirectory(prefix="wrong-bodies-") as room:
            for copy in copies:
                if time.monotonic() > end:
                    names = " ".join(it.name for it in copy.edits)
                    lines.append((None, f"{crate.name}{NOT_TRIED} {names}"))
                    continue
                try:
                    lines += verdicts(crate, copy, *self.check(crate, copy, room))
                except subprocess.TimeoutExpired:
                    lines.append((False, f"{crate.name}: a check took more than {LONGEST} seconds"))
        return lines


def right_body(checker):
    """Whether a right body isn't taken for a wrong one."""
    crate = checker.crates["text_line"]
    copy = Copy(crate.folder)
    copy.take(Edit("right_body", RIGHT))
    found = checker.tried(crate, [copy], math.inf)
    if found == [(False, "text_line/right_body: NOT REFUSED: line::Line::as_slice: no holes")]:
        return [(True, "text_line: a right body is not refused")]
    return [(False, f"text_line: a right body seems wrong: {line}") for _, line in found]


def verdicts(crate, copy, output, status):
    """What a check has found of each wrong body in a copy."""
    said = dict(re.findall(rf"^fn {crate.name}::(\S+): (.*)$", output, re.M))
    if status not in (0, 1, 3) or not re.search(r"^only=\d+ holes=\d+$", output, re.M):
        names = " ".join(it.name for it in copy.edits)
        begin = "\n".join(output.splitlines()[:8])
        yield False, f"{crate.name}: no verdict (status {status}) with {names}:\n{begin}"
        return
    errors = {it: proof_errors(it, output) for it in said}
    # An error that names what isn't there any more tells nothing of the contract. Nor does any goal for sure, if an
    # invariant has such an error: they all rest on it. A goal that has another name now isn't answered, right or wrong.
    shown = copy.unproved(output) | {it for it in said if not all(MISSING.search(error) for _, error in errors[it])}
    sure = copy.unproved(output) | {it for it in said if not all(NEAREST.search(error) for _, error in errors[it])}
    sure -= {it for it in said if any(file == "Invariants" and NEAREST.search(error) for file, error in errors[it])}
    sure -= {it for it in said if any(RENAMED.search(error) for _, error in errors[it])}
    for edit in copy.edits:
        for function in edit.refused:
            verdict = said.get(function, "not among the crate's functions")
            name = edit.twin_of or function
            if edit.is_right:
                is_told = is_refused(verdict) and function in sure
                yield not is_told, f"{crate.name}: a right body of {name} is {'refused' if is_told else 'not refused'}"
            elif is_refused(verdict) and function in shown:
                form = "" if function in sure else ", with its proof's names gone: make it again, so that a clause shows"
                yield True, f"{crate.name}/{edit.name}: refused{form}"
            elif is_refused(verdict) and errors[function]:
                yield False, f"{crate.name}/{edit.name}: only the proof file of {name} misses what was taken away"
            else:
                yield False, f"{crate.name}/{edit.name}: NOT REFUSED: {name}: {verdict[:160]}"
    for function in shown - {*copy.functions()}:
        if is_refused(said.get(function, "")):
            yield False, f"{crate.name}: nothing was changed in {function}: {said[function][:160]}"


def is_refused(verdict):
    """Whether a verdict says that a function isn't proved, and not only that it calls such a function."""
    return verdict.startswith("not proved") or "`search` did not prove" in verdict


def proof_errors(function, output):
    """What the check has against the files of a function's proof, each with the name of the file."""
    folder = re.escape(f"proofs/{function.replace('::', '/')}/")
    return re.findall(rf"^\S*{folder}(\w+)\.antt:\d+:\d+: error: (.*)$", output, re.M)


def side_by_side():
    """How many checks run at once: one for each processor, as far as there is memory."""
    free = 1024 * int(re.search(r"^MemAvailable: +(\d+)", Path("/proc/meminfo").read_text(encoding="ascii"), re.M)[1])
    return max(1, min(len(os.sched_getaffinity(0)), free // MEMORY))


def history(*words):
    """The lines that git tells of the history; none if there is none."""
    told = subprocess.run(["git", *words], cwd=TOP, stdout=subprocess.PIPE, stderr=subprocess.DEVNULL, text=True)
    return told.stdout.split()


def in_turn(trials):
    """The crates that the newest commits changed, the newest first, and then the others, from a place that moves with each
    commit: so that each has its turn, if there isn't time for all."""
    changed = history("log", f"-{NEWEST}", "--format=", "--name-only", "--", "crates")
    newest = list(dict.fromkeys(it.split("/")[1] for it in changed))
    first = sorted((it for it in trials if it[0].name in newest), key=lambda it: newest.index(it[0].name))
    others = [it for it in trials if it[0].name not in newest]
    count = int((history("rev-list", "--count", "HEAD") or [0])[0])
    start = NEWEST * count % max(len(others), 1)
    return first + others[start:] + others[:start]


def main():
    parser = argparse.ArgumentParser(allow_abbrev=False)
    parser.add_argument("--alone", action="store_true")
    parser.add_argument("--minutes", type=float, default=math.inf)
    parser.add_argument("crates", nargs="*")
    words = parser.parse_args()
    asked, end = words.crates, time.monotonic() + 60 * words.minutes
    checker = Checker.found()
    unknown = [it for it in asked if it not in checker.crates]
    if unknown:
        sys.exit(f"crates.txt has no crate {' '.join(unknown)}")

    kit = (checker.kit / "KIT-ID").read_text(encoding="utf-8").strip()
    if kit.split()[0] != KIT:
        print(f"this is {kit}; what its checks say is read as {KIT} says it", flush=True)
    trials, lines = [], []
    for crate in checker.crates.values():
        copies, bad = crate.copies(words.alone) if not asked or crate.name in asked else ([], [])
        lines += [(False, it) for it in bad]
        below = checker.below(crate) if copies else []
        lacking = [it.name for it in below if not it.rlib.is_dir()]
        stale = [it.name for it in below if it.rlib.is_dir() and it.is_stale()]
        if lacking or stale:
            why = f"{lacking[0]} isn't built" if lacking else f"what was built of {stale[0]} is older than its files"
            lines.append((False, f"{crate.name}: {why}: ./check and ./kudzuturret build it"))
        elif copies:
            trials.append((crate, copies))
    # Those with most to try first, so that no processor waits for the last, unless there may be no time for all.
    trials.sort(key=lambda it: sum(len(copy.edits) for copy in it[1]), reverse=True)
    if end < math.inf:
        trials = in_turn(sorted(trials, key=lambda it: it[0].name))

    passed = failed = untried = 0
    with ThreadPoolExecutor(side_by_side()) as pool:
        found = [] if asked else [pool.submit(right_body, checker)]
        found += [pool.submit(checker.tried, *it, end) for it in trials]
        for told in itertools.chain([lines], (it.result() for it in as_completed(found))):
            for is_well, line in told:
                print(line, flush=True)
                passed, failed = passed + (is_well is True), failed + (is_well is False)
                untried += line.partition(NOT_TRIED)[2].count(" ") if is_well is None else 0
    if untried:
        print(f"{untried} wrong bodies weren't tried for want of time: ./check --all tries them")
    print(f"{passed} passed, {failed} failed")
    return 0 if passed and not failed else 1


if __name__ == "__main__":
    sys.exit(main())
