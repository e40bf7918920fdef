"""A line of progress on a terminal."""

from __future__ import annotations

import contextlib
import os
import sys
import threading
import time
from typing import IO, Any, Callable, Iterable, Optional, Tuple

from .. import system

# The file that is read, and how many of how many bytes are: None if that is not known, or if no file is read.
Where = Callable[[], Optional[Tuple[str, Optional[int], Optional[int]]]]


def plain(text: str) -> str:
    """A text as a terminal shows it: a name of a file may have characters that a terminal obeys."""
    return "".join(
        letter if letter.isprintable() or letter == "\n" else letter.encode("unicode_escape", "replace").decode("ascii")
        for letter in text
    )


class Terminal:
    """The line of standard error that is written again and again, if that is a terminal. The owner that took it last
    has it until it leaves it: then the one before.
    """

    def __init__(self) -> None:
        self.lock, self.is_shown = threading.RLock(), False
        self.owners: list[object] = []

    def take(self, owner: object) -> bool:
        """Whether there is a line. The owner has it from now on."""
        with self.lock:
            if sys.stderr is None or not sys.stderr.isatty():
                return False
            if owner not in self.owners:
                self.owners.append(owner)
            return True

    def leave(self, owner: object) -> None:
        with self.lock:
            if owner in self.owners:
                if self.owners[-1] is owner:
                    self.wipe()
                self.owners.remove(owner)

    def show(self, owner: object, text: str) -> None:
        with self.lock:
            if self.owners[-1:] == [owner]:
                self.is_shown = True
                line = plain(text).replace("\n", "\\n")
                self.write(f"\r{line}\x1b[K")

    def wipe(self) -> None:
        with self.lock:
            if self.is_shown:
                self.is_shown = False
                self.write("\r\x1b[K")

    def write(self, text: str) -> None:
        """Nothing if the terminal is gone."""
        with contextlib.suppress(OSError, ValueError):
            print(text, end="", file=sys.stderr, flush=True)


TERMINAL = Terminal()


def say(text: str) -> None:
    """Writes a line to standard error; nothing if that is gone, as after a terminal was closed."""
    with TERMINAL.lock:
        TERMINAL.wipe()
        TERMINAL.write(f"wokureti: {plain(text)}\n")


# Seconds between two looks at what is done, and after which it is shown.
TICK, SOON = 1, 1


class Watch:
    """Hears how far something is that takes long, and may stop it. Nobody looks at this one."""

    def stage(self, text: Optional[str]) -> None:
        """Another part of it begins."""

    def part(self, done: int, total: Optional[int]) -> None:
        """So much of the part is done. `Stopped` if it is to end."""
        self.check()

    def check(self) -> None:
        """`Stopped` if it is to end."""


class Progress:
    """Shows how much is done on standard error, if that is a terminal, after the first second."""

    def __init__(self, name: str, total: int) -> None:
        self.name, self.total = name, total
        self.start = self.last = time.monotonic()

    def show(self, done: int) -> None:
        now = time.monotonic()
        if now - self.start < 1 or now - self.last < 0.1:
            return
        self.last = now
        TERMINAL.show(self, f"{done} of {self.total} {self.name}")

    def __enter__(self) -> Progress:
        TERMINAL.take(self)
        return self

    def __exit__(self, kind: object, value: object, trace: object) -> None:
        TERMINAL.leave(self)


class Stages(Watch):
    """Shows on a terminal what is done, how much of it in per cent if that is known, and for how long, once that takes
    more than a second.
    """

    def __init__(self) -> None:
        self.text: Optional[str] = None
        self.share, self.start = "", time.monotonic()
        self.ended = threading.Event()
        self.thread = threading.Thread(target=self.tick, daemon=True)

    def stage(self, text: Optional[str]) -> None:
        self.text, self.share, self.start = text, "", time.monotonic()

    def part(self, done: int, total: Optional[int]) -> None:
        self.share = f"{100 * done // total} %, " if total else ""

    def tick(self) -> None:
        while not self.ended.wait(TICK):
            text, passed = self.text, time.monotonic() - self.start
            if text is not None and passed >= SOON:
                TERMINAL.show(self, f"{text}: {self.share}{passed:.0f} s")

    def __enter__(self) -> Stages:
        if TERMINAL.take(self):
            self.thread.start()
        return self

    def __exit__(self, kind: object, value: object, trace: object) -> None:
        self.ended.set()
        TERMINAL.leave(self)


class Reading(Stages):
    """Shows the same of files that are read, in a command; a session of somebody's program is quiet. `where` returns
    the name of the file that is read, and how many of how many bytes are: None if that is not known. None if no file is
    read any more: then the line is somebody else's.
    """

    # Whether a command runs in this process.
    is_on = False

    def __init__(self, where: Where) -> None:
        super().__init__()
        self.where = where

    def tick(self) -> None:
        while not self.ended.wait(TICK):
            found = self.where()
            with TERMINAL.lock:
                if found is None or self.ended.is_set():
                    TERMINAL.leave(self)
                    continue
                name, done, total = found
                share = "" if done is None else f"{100 * done // total} %, " if total else f"{done / 1e6:.0f} MB, "
                TERMINAL.take(self)
                TERMINAL.show(self, f"reading {name}: {share}{time.monotonic() - self.start:.0f} s")

    def __enter__(self) -> Reading:
        if self.is_on and sys.stderr is not None and sys.stderr.isatty():
            self.thread.start()
        return self


class Copied:
    """A pipe that is copied to a file, as `where` of `Reading` has it."""

    def __init__(self, name: str) -> None:
        self.name, self.done = name, 0

    def copy(self, pipe: IO[bytes], file: IO[bytes]) -> None:
        """Copies it, and shows how much that is."""
        with Reading(lambda: (self.name, self.done, None)):
            while piece := pipe.read(1 << 20):
                file.write(piece)
                self.done += len(piece)


def of_program(pid: int, paths: Iterable[tuple[str, Any]], shared: Iterable[int] = ()) -> Where:
    """What a program that reads these files, by their names, reads now, as `where` of `Reading` has it. `shared` are
    the descriptors that it was given: it reads from those that it opened itself."""
    files = [(name, os.stat(path)) for name, path in paths if os.path.isfile(path)]

    def where() -> Optional[tuple[str, Optional[int], Optional[int]]]:
        places = system.places_of(pid, shared)
        if places is None:
            return (files[0][0], None, None) if files else None
        found = [
            (name, places[one.st_dev, one.st_ino], one.st_size)
            for name, one in files
            if (one.st_dev, one.st_ino) in places
        ]
        return next((one for one in found if one[1] < one[2]), None)

    return where
