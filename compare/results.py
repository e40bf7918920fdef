"""Writes results.txt, which has the last run of each script and kind of run that found no difference.

A script calls `total` at its end. A kind of run is a script with its options, and with files or without:
`clips.py 20 1` and `clips.py 200 7` are of one kind, `listed.py FILE ..` and `listed.py --damage 200` of two. A run
that differs, fails, is interrupted or has --quiet (as in the gate) writes nothing.
"""

import contextlib
import datetime
import fcntl
import os
import pathlib
import re
import subprocess
import sys
import time

from library.programs import TOP, VP8LIST, VP8SERVE

FILE = pathlib.Path(__file__).resolve().parent / "results.txt"
HEAD = "# script and arguments | total | version that was compared | day; written by results.py\n"
SILENT = {"--quiet", "--help", "-h"}
# Options that say how many, and make no other kind of run.
SIZES = {"--captures", "--cuts", "--files", "--lists", "--reads", "--scripts", "--seed"}
# Scripts change the current folder.
PROGRAMS = [path.resolve() for path in (VP8SERVE, VP8LIST)]
# Seconds to wait for another run, which may have been stopped while it writes.
LIMIT = 10
MOST_NAMES = 3


def total(text, wrong=0, told=None, version=None):
    """Prints the total of a run. If nothing is wrong, it is written with the counts that were told."""
    if SILENT & set(sys.argv[1:]):
        return
    print(text, flush=True)
    if wrong:
        return
    counts = ", ".join(f"{number:,} {kind}" for kind, number in sorted((told or {}).items()))
    try:
        write(FILE, command(sys.argv), f"{text}: {counts}" if counts else text, version or version_of_programs())
    except OSError as error:
        print(f"{FILE.name} does not get this line: {error}", file=sys.stderr)


def plain(text):
    """The text in one line and one column."""
    return " ".join("".join(c if c.isprintable() and c != "|" else " " for c in str(text)).split())


def is_name(word):
    """Whether an argument is a file or a folder, and not an option or a number."""
    return not word.startswith("-") and not word.isdigit()


def command(words):
    """The script and its arguments, without the folders of files."""
    names = [word for word in words[1:] if is_name(word)]
    if len(names) > MOST_NAMES:
        words = [words[0], *(word for word in words[1:] if not is_name(word)), f"({len(names)} files)"]
    return plain(
        " ".join(
            [os.path.basename(words[0]), *(os.path.basename(word) if is_name(word) else word for word in words[1:])]
        )
    )


def kind(line):
    """What two lines have in common of which the later one is kept."""
    script, *words = line.partition(" | ")[0].split() or [""]
    return (
        script,
        sorted({word.partition("=")[0] for word in words if word.startswith("-")} - SIZES),
        any(map(is_name, words)),
    )


def sources():
    """The version of the sources, for scripts that run no program."""
    return (TOP / "VERSION").read_text(encoding="utf-8").strip()


def version_of_programs():
    for program in PROGRAMS:
        with contextlib.suppress(OSError, ValueError, subprocess.TimeoutExpired):
            said = subprocess.run(
                [program, "--version"],
                stdin=subprocess.DEVNULL,
                stdout=subprocess.PIPE,
                stderr=subprocess.DEVNULL,
                text=True,
                timeout=LIMIT,
                check=False,
            ).stdout
            if re.fullmatch(r"vp8\w+ \S+\n", said):
                return said.split()[1]
    return "-"


@contextlib.contextmanager
def locked(folder):
    lock = os.open(folder, os.O_RDONLY)
    try:
        end = time.monotonic() + LIMIT
        while True:
            try:
                fcntl.flock(lock, fcntl.LOCK_EX | fcntl.LOCK_NB)
                break
            except BlockingIOError:
                if time.monotonic() > end:
                    raise TimeoutError(f"another run has held the lock of {folder} for {LIMIT} seconds") from None
                time.sleep(0.02)
        yield
    finally:
        os.close(lock)


def write(file, words, text, version):
    """Replaces the line of this kind of run by a new file."""
    line = " | ".join([words, plain(text), version, datetime.date.today().isoformat()])
    new = file.with_name(f"{file.name}.new")
    with locked(file.parent):
        old = file.read_text(encoding="utf-8", errors="surrogateescape") if file.exists() else HEAD
        lines = [it for it in old.split("\n") if it]
        others = [it for it in lines if not it.startswith("#") and kind(it) != kind(line)]
        try:
            with open(new, "w", encoding="utf-8", errors="surrogateescape") as out:
                out.writelines(
                    f"{it}\n"
                    for it in [*(it for it in lines if it.startswith("#")), *sorted([*others, line], key=kind)]
                )
            os.replace(new, file)
        except BaseException:
            new.unlink(missing_ok=True)
            raise
