"""Builds the programs and the C library for Linux on ARM: proved for that target by the kit, compiled by its clang, and
linked by Debian's cross compiler.

The kit has no archives of C functions for ARM. kit_os.c and kit_heap.c in this folder replace them.
"""

import concurrent.futures
import hashlib
import os
import pathlib
import re
import shutil
import subprocess
import sys

from . import library, linked, proving, sdk
from .sources import PROGRAMS, TOP, Failed, digest, kit_folder, kit_here, needed
from .targets import ARM

TRIPLE, PREFIX = "aarch64-unknown-linux-gnu", "aarch64-linux-gnu-"
CPU = ARM.builds[0]
# Its folder below bin/.
FOLDER = "arm"
CRATES = (*PROGRAMS, library.CRATE)
SOURCES = ("kit_heap", "kit_os")
FILES = tuple(TOP / "release" / f"{name}.c" for name in SOURCES)
PACKAGES = "gcc-aarch64-linux-gnu and libc6-dev-arm64-cross"
# What the library may ask of the system, and the newest glibc that it may ask it of: the one that the wheel's tag
# names.
ASKED = {"memcpy", "memmove", "memset", "malloc", "realloc", "free"}
NEWEST = (2, 17)


def linker():
    """The linker's line and a digest of the C library that is linked, as for this machine's; None if there is none."""
    return linked.c_library(PREFIX)


def missing():
    """What is missing here to link the programs, or an empty text."""
    return "" if linker() else f"it needs {PREFIX}gcc: install {PACKAGES}"


def ran(*words):
    done = subprocess.run(list(map(str, words)), capture_output=True, text=True, check=False)
    if done.returncode != 0:
        raise Failed(f"{words[0]} ended with status {done.returncode}: {done.stderr.strip()[-2000:]}")
    return done.stdout


def folders(room, is_proved, say, log):
    """The folder of each crate that is proved for the target, in a copy that has the proved libraries below it."""
    crates, own = needed(), needed((library.CRATE,))
    if not is_proved:
        proving.build(crates, room, (), say)
        made = {name: room / name / "crates" / name for name in PROGRAMS}
    else:
        made = {name: proving.over_ci(name, crates, room, log) for name in PROGRAMS}
    return made | {library.CRATE: library.prove_below(room, own, is_proved, say, log)}


def compiled(room, is_proved, say):
    """The object file of each program and the archive of the library, by the names of their crates: those in `room`, if
    they are of these sources.
    """
    mark = hashlib.sha256(f"{digest(needed(CRATES))} {kit_here()}".encode()).hexdigest()[:16]
    made = {name: room / f"{name}-{CPU}-{mark}.{'a' if name == library.CRATE else 'o'}" for name in CRATES}
    for old in {path for name in CRATES for path in room.glob(f"{name}-{CPU}-*")} - {*made.values()}:
        old.unlink()
    left = [name for name in CRATES if not made[name].is_file()]
    if not left:
        return made
    say(f"proving and compiling {', '.join(left)} for {ARM.name}. Output goes to {room}/arm-*.log")

    def one(name, folder):
        words = [
            sys.executable,
            TOP / "release/for_target.py",
            kit_folder() / "bin/rt",
            folder,
            TRIPLE,
            made[name].with_suffix(".new"),
        ]
        with open(room / f"arm-{name}.log", "w", encoding="utf-8") as log:
            try:
                proving.run(words, folder, log)
            except Failed as failed:
                text = pathlib.Path(log.name).read_text(encoding="utf-8", errors="replace")
                raise Failed(f"{text[-2000:]}nothing was built for {ARM.name}: {failed}") from None
        os.replace(made[name].with_suffix(".new"), made[name])

    with open(room / "arm-below.log", "w", encoding="utf-8") as log:
        below = folders(room, is_proved, say, log)
    with concurrent.futures.ThreadPoolExecutor(len(CRATES)) as pool:
        list(pool.map(one, left, [below[name] for name in left]))
    return made


def functions(room):
    """The object files of the C functions that the kit has no archive of."""
    made = {name: room / f"{name}-{CPU}.o" for name in SOURCES}
    for name, path in made.items():
        options = ["-std=c11", "-O2", "-fPIC", "-ffunction-sections", "-Wall", "-Wextra", "-Werror"]
        ran(f"{PREFIX}gcc", *options, "-c", TOP / "release" / f"{name}.c", "-o", path)
    return made


def check_program(path):
    """Refuses a program that needs a dynamic linker, or is for another processor."""
    text = ran(f"{PREFIX}readelf", "-hlW", path)
    if "Machine:                           AArch64" not in text:
        raise Failed(f"{path} is not for {CPU}")
    if re.search(r"^\s*(?:INTERP|DYNAMIC)\b", text, re.M):
        raise Failed(f"{path} needs a dynamic linker")


def check_library(path):
    """Refuses a library that asks the system for other functions than those of ASKED, or for newer ones than the
    wheel's tag allows, and one that exports other calls than the header has."""
    lines = [line.split() for line in ran(f"{PREFIX}nm", "-D", "--with-symbol-versions", path).splitlines()]
    asked = {words[-1].partition("@") for words in lines if words[-2] == "U"}
    if {name for name, _, _ in asked} != ASKED:
        raise Failed(
            f"{path} asks the system for {', '.join(sorted(name for name, _, _ in asked))}, not for"
            f" {', '.join(sorted(ASKED))}"
        )
    for name, _, version in asked:
        number = re.fullmatch(r"@?GLIBC_(\d+)\.(\d+)(?:\.\d+)?", version)
        if number is None or tuple(map(int, number.groups())) > NEWEST:
            raise Failed(
                f"{path} asks for {name} of {version or 'no version'}: the wheel is for glibc"
                f" {'.'.join(map(str, NEWEST))}"
            )
    calls = {words[-1].partition("@")[0] for words in lines if words[-2] == "T"}
    # Declarations begin a line; the functions of the header's own are static.
    wanted = set(re.findall(r"(?m)^(?!static )\w[\w *]*\b(wk_\w+)\(", library.HEADER.read_text(encoding="utf-8")))
    if calls != wanted:
        raise Failed(f"{path} exports {', '.join(sorted(calls))}, and the header has {', '.join(sorted(wanted))}")


def made_of(objects, parts, folder):
    """Links both programs and the shared library, and checks them: each path by its name and processor."""
    made = {(name, CPU): folder / f"{name}-{CPU}" for name in PROGRAMS}
    for (name, _), path in made.items():
        linked.link(objects[name], path, PREFIX, [parts["kit_os"], parts["kit_heap"]])
        check_program(path)
    made[library.SHARED, CPU] = folder / f"{library.SHARED}-{CPU}"
    library.link(objects[library.CRATE], made[library.SHARED, CPU], PREFIX, parts["kit_heap"])
    check_library(made[library.SHARED, CPU])
    made[library.ARCHIVE, CPU] = folder / f"{library.ARCHIVE}-{CPU}"
    library.pack(objects[library.CRATE], parts["kit_heap"], made[library.ARCHIVE, CPU], PREFIX)
    return made


def programs(room, is_proved, say):
    """Both programs and the library for ARM, and the object files that they are linked of."""
    if missing():
        raise Failed(f"nothing is built for {ARM.name}: {missing()}")
    room = pathlib.Path(room)
    objects = compiled(room, is_proved, say)
    return made_of(objects, functions(room), room), objects


def build(room, folder, is_proved, say):
    """Puts the programs, the library, its archive and the header into a folder."""
    made, _ = programs(room, is_proved, say)
    folder.mkdir(parents=True, exist_ok=True)
    for (name, _), path in made.items():
        shutil.copyfile(path, folder / name)
        (folder / name).chmod(0o755)
    shutil.copyfile(library.HEADER, folder / library.HEADER.name)
    for name, text in sdk.texts("").items():
        (folder / name).write_text(text, encoding="ascii")
    say(f"{', '.join(name for name, _ in made)} for {ARM.name} are in {folder}: {ARM.sentence}")
