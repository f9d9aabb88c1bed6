#!/usr/bin/env python3
"""Makes a Debian package of the programs that are built.

    tools/package.py [FOLDER]      none: out/

kudzuturret --package starts it, once all programs are built. The package has the programs, a script kudzuturret that
runs the one that answers a word, a manual page for each word, what bash completes, units for archives and a station
under systemd, and the docs with the examples. It needs libc6 alone, so one machine proves and many run:

    dpkg -i out/kudzuturret_VERSION_amd64.deb

Manual pages and completion are made of what the programs say at --help. The maintainer is DEBFULLNAME and DEBEMAIL, as
other tools of Debian take it, or else as git is told, or else who runs this. The path of the package goes to standard
output.
"""
import getpass
import gzip
import hashlib
import os
import re
import shutil
import socket
import subprocess
import sys
import tempfile
import textwrap
from email.utils import formatdate
from pathlib import Path

TOP = Path(__file__).resolve().parent.parent
PROGRAMS = ("ogg_archive", "ogg_station", "ogg_main")
ASKED = TOP / "crates" / PROGRAMS[0] / "out" / PROGRAMS[0]
LIBRARY = "usr/lib/kudzuturret"
DOC = "usr/share/doc/kudzuturret"
# The units, each with what its user has to do first.
UNITS = {
    "kudzuturret-station.service": (
        "# Put the password into /etc/kudzuturret/password, readable for root alone; then it is started by\n"
        "# `systemctl enable --now kudzuturret-station`.\n"
    ),
    "kudzuturret-archive@.service": (
        "# Put a line such as `SOURCE=http://127.0.0.1:8000/live` into /etc/kudzuturret/NAME.conf; then it is started by\n"
        "# `systemctl enable --now kudzuturret-archive@NAME`, and records into /var/lib/kudzuturret-NAME. A second line,\n"
        "# `OPTIONS=--every 15m --keep-bytes 50000000000`, says otherwise.\n"
    ),
}


def said(*words: str) -> str:
    """What a program says of a command line. Its status is 2 then, as of any that asks for no work."""
    done = subprocess.run([ASKED, *words], capture_output=True, text=True, check=False, stdin=subprocess.DEVNULL)
    return done.stderr + done.stdout


class Help:
    """What is said of a word: its first line, its usage, its lists of arguments and options, and the text after them."""

    def __init__(self, *words: str) -> None:
        text = said(*words, "--help")
        front, usage, rest = re.fullmatch(r"(.*?)\n\nUsage: (.*?)\n\n(.*)", text, re.DOTALL).groups()
        self.purpose = front.strip()
        self.usage = usage.strip()
        self.lists: dict[str, list[tuple[str, str]]] = {}
        while found := re.match(r"(Commands|Arguments|Options):\n((?:  .*\n)+)\n*", rest):
            rows = [re.split(r"\s{2,}", it.strip(), maxsplit=1) for it in found[2].splitlines()]
            self.lists[found[1]] = [(name, meaning) for name, meaning in rows if name != "help"]
            rest = rest[found.end() :]
        self.text = rest.strip("\n")

    def words(self) -> list[str]:
        return [name for name, _ in self.lists["Commands"]]

    def options(self) -> list[str]:
        return re.findall(r"--[a-z-]+", " ".join(name for name, _ in self.lists["Options"]))


def roff(text: str) -> str:
    """The text as a manual page writes it: no line of it is a request."""
    text = text.replace("\\", "\\e").replace("-", "\\-").replace("`", "").replace("'", "\\(aq")
    return "\n".join("\\&" + it if it.startswith(".") else it for it in text.splitlines())


def paragraphs(text: str) -> str:
    """Paragraphs of a help text; what is indented stays as it stands."""
    parts = []
    for part in text.split("\n\n"):
        if part.startswith("  "):
            parts.append(f".PP\n.RS 4\n.nf\n{roff(textwrap.dedent(part))}\n.fi\n.RE")
        else:
            parts.append(f".PP\n{roff(part)}")
    return "\n".join(parts)


def listed(title: str, rows: list[tuple[str, str]]) -> str:
    return "\n".join([f".SH {title}", *(f".TP\n.B {roff(name)}\n{roff(meaning)}" for name, meaning in rows)])


def manual(name: str, version: str, page: Help, others: list[str]) -> str:
    """The manual page of a word, or of the command itself."""
    synopsis = roff(page.usage)
    parts = [
        f'.TH {roff(name.upper())} 1 "" "kudzuturret {version}" "User Commands"',
        f".SH NAME\n{roff(name)} \\- {roff(page.purpose[:1].lower() + page.purpose[1:])}",
        f".SH SYNOPSIS\n.B {synopsis}",
        f".SH DESCRIPTION\n{paragraphs(page.text)}",
        *(listed(title.upper(), rows) for title, rows in page.lists.items()),
        ".SH EXIT STATUS\n0: done. 1: a fault, whose line is the last on standard error. 2: help, the version, or a "
        "command line that can\\(aqt be read.",
        ".SH SEE ALSO\n" + ",\n".join(f".BR {roff(it)} (1)" if len(others) == 1 else f"{roff(it)}(1)" for it in others),
    ]
    return "\n".join(parts) + "\n"


def completion(main: Help, pages: dict[str, Help]) -> str:
    """What bash completes: a word, the options of a word, and otherwise files."""
    rows = "\n".join(f'            {word}) words="{" ".join(page.options())}" ;;' for word, page in pages.items())
    return f"""# Completes the command line of kudzuturret.
_kudzuturret() {{
    local words= last=${{COMP_WORDS[COMP_CWORD]}}
    if ((COMP_CWORD == 1)); then
        words="{' '.join([*main.words(), *main.options()])}"
    elif [[ $last == -* ]]; then
        case ${{COMP_WORDS[1]}} in
{rows}
        esac
    fi
    COMPREPLY=($(compgen -W "$words" -- "$last"))
}}
complete -o default -F _kudzuturret kudzuturret
"""


def unit(name: str, first: str) -> str:
    """The example of a unit, for a package that has put it and the programs where they belong."""
    text = (TOP / "examples" / "station" / name).read_text()
    return first + text[text.index("[Unit]") :].replace("/usr/local/bin/", "/usr/bin/")


def maintainer() -> str:
    """Who makes the package: as Debian's tools are told it, or else as git is, or else whoever runs this."""
    name = os.environ.get("DEBFULLNAME") or configured("user.name") or getpass.getuser()
    mail = os.environ.get("DEBEMAIL") or configured("user.email") or f"{getpass.getuser()}@{socket.getfqdn()}"
    return f"{name} <{mail}>"


def configured(key: str) -> str:
    """What git is told, if there is a git."""
    if not shutil.which("git"):
        return ""
    return subprocess.run(["git", "-C", TOP, "config", key], capture_output=True, text=True, check=False).stdout.strip()


def libc() -> str:
    """The least version of the C library that has what the programs call."""
    found = {it for name in PROGRAMS for it in re.findall(rb"GLIBC_(2\.\d+)", program(name).read_bytes())}
    return max(found, key=lambda it: int(it.split(b".")[1])).decode()


def program(name: str) -> Path:
    return TOP / "crates" / name / "out" / name


class Tree:
    """The files of the package."""

    def __init__(self, root: Path) -> None:
        self.root = root

    def put(self, name: str, content: bytes | str, mode: int = 0o644) -> None:
        at = self.root / name
        at.parent.mkdir(parents=True, exist_ok=True)
        data = content.encode() if isinstance(content, str) else content
        at.write_bytes(gzip.compress(data, 9, mtime=0) if name.endswith(".gz") else data)
        at.chmod(mode)

    def copy(self, name: str, source: Path, mode: int = 0o644) -> None:
        self.put(name, source.read_bytes(), mode)

    def strip(self, name: str) -> None:
        """Leaves out what only a debugger reads, where there is a tool for that."""
        if shutil.which("strip"):
            subprocess.run(["strip", "--remove-section=.comment", "--strip-unneeded", self.root / name], check=True)

    def files(self) -> list[Path]:
        return sorted(it for it in self.root.rglob("*") if it.is_file() and "DEBIAN" not in it.parts)

    def control(self, version: str) -> None:
        sums = [f"{hashlib.md5(it.read_bytes()).hexdigest()}  {it.relative_to(self.root)}" for it in self.files()]
        size = sum(it.stat().st_size for it in self.files()) // 1024 + 1
        self.put("DEBIAN/md5sums", "\n".join(sums) + "\n")
        self.put(
            "DEBIAN/control",
            f"""Package: kudzuturret
Version: {version}
Section: sound
Priority: optional
Architecture: amd64
Installed-Size: {size}
Depends: libc6 (>= {libc()})
Suggests: ffmpeg
Maintainer: {maintainer()}
Description: records Ogg streams and serves them, whatever stops it
 Records streams of Ogg (RFC 3533), such as radio, and serves them over HTTP
 while they are recorded. Whatever stops it, the file keeps all that was
 acknowledged; that is proved. Damaged streams are mended, and each loss is
 told.
""",
        )


def fill(tree: Tree, version: str) -> None:
    main = Help()
    pages = {word: Help(word) for word in main.words()}
    for name in PROGRAMS:
        tree.copy(f"{LIBRARY}/{name}", program(name), 0o755)
        tree.strip(f"{LIBRARY}/{name}")
    tree.copy(f"{LIBRARY}/programs.bash", TOP / "tools" / "programs.bash")
    tree.copy("usr/bin/kudzuturret", TOP / "tools" / "installed.bash", 0o755)
    names = [f"kudzuturret-{word}" for word in pages]
    tree.put("usr/share/man/man1/kudzuturret.1.gz", manual("kudzuturret", version, main, names))
    for name, page in zip(names, pages.values()):
        tree.put(f"usr/share/man/man1/{name}.1.gz", manual(name, version, page, ["kudzuturret"]))
    tree.put("usr/share/bash-completion/completions/kudzuturret", completion(main, pages))
    for name, first in UNITS.items():
        tree.put(f"lib/systemd/system/{name}", unit(name, first))
    for at in [TOP / "README.md", *TOP.glob("docs/*.md"), *TOP.glob("docs/*.svg"), *TOP.glob("examples/**/*")]:
        if at.is_file() and at.name not in UNITS:
            tree.copy(f"{DOC}/{at.relative_to(TOP)}", at)
    tree.put(f"{DOC}/changelog.gz", changelog(version))
    tree.put(f"{DOC}/copyright", "No licence is given yet: see README.md.\n")


def changelog(version: str) -> str:
    news = "  * CHANGELOG.md of the sources says what changed.\n"
    return f"kudzuturret ({version}) unstable; urgency=medium\n\n{news}\n -- {maintainer()}  {formatdate()}\n"


def main() -> None:
    if len(sys.argv) > 2 or sys.argv[1:2] in (["-h"], ["--help"]):
        sys.exit(__doc__)
    for name in PROGRAMS:
        if not program(name).is_file():
            sys.exit(f"package: {name} isn't built; ./kudzuturret --package builds it first")
    if not shutil.which("dpkg-deb"):
        sys.exit("package: dpkg-deb isn't here, which Debian's dpkg has")
    folder = Path(sys.argv[1]) if len(sys.argv) > 1 else TOP / "out"
    folder.mkdir(parents=True, exist_ok=True)
    version = said("--version").split()[1]
    package = folder / f"kudzuturret_{version}_amd64.deb"
    os.umask(0o022)
    with tempfile.TemporaryDirectory() as at:
        tree = Tree(Path(at) / "package")
        fill(tree, version)
        tree.control(version)
        subprocess.run(
            ["dpkg-deb", "--build", "--root-owner-group", tree.root, package], check=True, stdout=subprocess.DEVNULL
        )
    print(package)


if __name__ == "__main__":
    main()
