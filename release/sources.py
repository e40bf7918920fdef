"""What the programs are built from: their crates, a digest of all files, the version, and the text dist/SOURCES that
names them.
"""

import hashlib
import pathlib
import re
import subprocess

TOP = pathlib.Path(__file__).resolve().parent.parent
DIST = TOP / "dist"
PROGRAMS = ("vp8serve", "vp8list")
CPUS = ("x86-64-v2", "x86-64-v3")
# What a crate's check and its program read.
PARTS = ("src", "specs", "proofs", "args", "stdin", "stdout", "status", "data")


class Failed(Exception):
    """Why nothing was built, as a sentence."""


def version():
    """The version of the client and, by its own line, of the programs. Both must be the same."""
    text = (TOP / "VERSION").read_text(encoding="ascii").strip()
    source = TOP / "crates/command_lines/src/arguments.rt"
    if source.is_file() and f'"{text}"' not in source.read_text(encoding="utf-8"):
        raise Failed(
            f"VERSION is {text}, and the programs have another version: change VERSION in {source.relative_to(TOP)} too"
        )
    header, number = TOP / "clients/c/include/wokureti.h", [int(part) for part in text.split(".")]
    if (
        header.is_file()
        and [
            int(part)
            for part in re.findall(
                r"#define WK_VERSION_(?:MAJOR|MINOR|PATCH) (\d+)", header.read_text(encoding="utf-8")
            )
        ]
        != number
    ):
        raise Failed(
            f"VERSION is {text}, and the header of the library has another version: change WK_VERSION_MAJOR, _MINOR and"
            f" _PATCH in {header.relative_to(TOP)} too"
        )
    return text


def needed(names=PROGRAMS):
    """The lines of crates.txt for the programs, or for other crates, and for the crates below them."""
    lines = {}
    for line in (TOP / "crates.txt").read_text().splitlines():
        if ":" in line and not line.startswith("#"):
            lines[line.split(":")[0].split()[0]] = line
    wanted, left = [], list(names)
    while left:
        name = left.pop()
        if name in lines and name not in wanted:
            wanted.append(name)
            left += lines[name].split(":")[1].split()
    return {name: lines[name] for name in lines if name in wanted}


def below(crates, name):
    """The crates of this repository that a crate uses."""
    return [word for word in crates[name].split(":")[1].split() if word in crates]


def files_of(crate):
    for part in PARTS:
        path = TOP / "crates" / crate / part
        if path.is_dir():
            yield from sorted(file for file in path.rglob("*") if file.is_file())
        elif path.is_file():
            yield path


def digest(crates):
    """A text that changes with each file that the programs are built from."""
    found = hashlib.sha256("\n".join(crates.values()).encode())
    for crate in crates:
        for path in files_of(crate):
            found.update(f"{path.relative_to(TOP)}\0".encode() + hashlib.sha256(path.read_bytes()).digest())
    return found.hexdigest()


def kit():
    """The line of the kit that docs/design/proofs.md names."""
    text = " ".join((TOP / "docs/design/proofs.md").read_text().split())
    found = re.search(r"rattle-kit-\S+ logic [0-9a-f]+", text)
    return found.group(0) if found else ""


def kit_here():
    """The line of the kit on the PATH."""
    return subprocess.run(["rt", "version"], capture_output=True, text=True, check=False).stdout.strip()


def kit_folder():
    """The folder of the Rattle kit: `rt doc` prints its first page."""
    shown = subprocess.run(["rt", "doc"], capture_output=True, text=True, check=True).stdout.strip()
    return pathlib.Path(shown).parent


def sum_of(path):
    return hashlib.sha256(pathlib.Path(path).read_bytes()).hexdigest()


def read_names(path=DIST / "SOURCES"):
    """The lines of dist/SOURCES: each name with its value; nothing if there is no such file."""
    if not path.is_file():
        return {}
    lines = path.read_text(encoding="utf-8").splitlines()
    return dict(line.split(": ", 1) for line in lines if ": " in line and not line.startswith("#"))


def write_names(names, path=DIST / "SOURCES"):
    about = "# What the programs in the wheel next to this file are built from: see ./build.py --verify\n"
    path.write_text(about + "".join(f"{name}: {value}\n" for name, value in names.items()), encoding="utf-8")
