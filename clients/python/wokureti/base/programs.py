"""Where the programs vp8serve and vp8list are."""

from __future__ import annotations

import contextlib
import errno
import functools
import os
import pathlib
import shutil
import subprocess
from typing import Iterator, Optional

from .. import system

HERE = pathlib.Path(__file__).resolve()
TREE = HERE.parents[4]


def installed(name: str) -> Optional[str]:
    """The program that a wheel installed together with this package, if it did: below one folder are bin/,
    lib/wokureti/ and this package, or on Windows Scripts and this package."""
    for folder in HERE.parents:
        if system.IS_WINDOWS and (folder / "Scripts" / f"{name}.exe").is_file():
            return str(folder / "Scripts" / f"{name}.exe")
        # A wheel with builds for several processors has a launcher in bin/, another one the program.
        marks = (folder / "lib/wokureti" / mark for mark in (f"{name}-x86-64-v2", system.LIBRARY))
        if any(mark.is_file() for mark in marks) and (folder / "bin" / name).is_file():
            return str(folder / "bin" / name)
    return None


@contextlib.contextmanager
def ending(process: subprocess.Popen[bytes]) -> Iterator[None]:
    """Ends a program if it is not waited for to its end."""
    try:
        yield
    except BaseException:
        process.kill()
        raise


def missing(word: str) -> FileNotFoundError:
    """The error of a program that is not there."""
    name = "vp8list" if os.path.basename(word) in ("vp8list", system.program_file("vp8list")) else "vp8serve"
    where = f"{name} is not on the PATH" if os.path.basename(word) == word else f"there is no {word}"
    return FileNotFoundError(errno.ENOENT, f"{where}: install it, or name it in the variable {name.upper()}")


def find(name: str) -> str:
    """The path of a program: that of the variable VP8SERVE or VP8LIST, or installed with this package, or found on the
    PATH, or built in this tree.
    """
    found = os.environ.get(name.upper()) or installed(name) or shutil.which(name)
    if found:
        return found
    built = (TREE / "bin" / system.program_file(name), TREE / "crates" / name / "out" / name)
    return next((str(path) for path in built if path.is_file()), name)


@functools.lru_cache
def says(program: str, text: str) -> bool:
    """Whether the help of a program has a text: an earlier version may not know what that is."""
    try:
        done = subprocess.run(
            [program, "--help"],
            stdin=subprocess.DEVNULL,
            capture_output=True,
            text=True,
            errors="replace",
            timeout=60,
            check=False,
        )
    except (OSError, subprocess.TimeoutExpired):
        return False
    return text in done.stdout
