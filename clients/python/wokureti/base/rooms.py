"""Temporary folders of a run. If the program is killed, the next one removes its folder, if it is certain that the
program is gone.
"""

from __future__ import annotations

import contextlib
import os
import shutil
import tempfile
import time
import weakref
from typing import Callable, Optional, Union

from .. import system

PREFIX = "wokureti-"
LOCK = ".lock"
# The new file of a save of vp8serve, which takes the place of the old one at its end, and stays if the program is
# killed; and what a folder says of one.
UNFINISHED, RECORD = "vp8serve-unfinished-save-", "unfinished"


class Room:
    """A temporary folder that is locked as long as its program runs, and that says which program that is: where nothing
    can be locked, that must do.
    """

    def __init__(self, folder: Optional[str] = None) -> None:
        self.name = tempfile.mkdtemp(prefix=PREFIX, dir=folder)
        try:
            descriptor = os.open(
                os.path.join(self.name, LOCK), os.O_RDWR | os.O_CREAT | os.O_EXCL | system.BINARY, 0o600
            )
        except BaseException:
            os.rmdir(self.name)
            raise
        self.finalizer = weakref.finalize(self, clear, self.name, descriptor, os.getpid())
        is_locked = False
        with contextlib.suppress(OSError):
            system.lock(descriptor)
            is_locked = True
        # Who reads the file before sees that it names nobody, and leaves the folder.
        os.write(descriptor, system.process_text(os.getpid(), is_locked).encode())

    def __enter__(self) -> str:
        return self.name

    def __exit__(self, kind: object, value: object, trace: object) -> None:
        self.cleanup()

    def cleanup(self) -> None:
        self.finalizer()


def clear(path: str, descriptor: int, owner: int) -> None:
    """Closes the lock of a folder and removes the folder, in this order for Windows, which removes no file that is
    open. A forked process did not make it.
    """
    if os.getpid() == owner:
        os.close(descriptor)
        remove(path)


def remove(path: str) -> None:
    """Removes a folder. A program that is being ended may still write into it, so it is tried again for some seconds;
    what is then left goes with the next sweep.
    """
    for pause in (0.05, 0.2, 0.5, 1, 2):
        with contextlib.suppress(OSError):
            shutil.rmtree(path)
            return
        if not os.path.exists(path):
            return
        time.sleep(pause)
    shutil.rmtree(path, ignore_errors=True)


def sweep() -> None:
    """Removes the folders of programs that are gone: those of this user whose lock nobody has, and whose process is no
    more.
    """
    with contextlib.suppress(OSError), os.scandir(tempfile.gettempdir()) as entries:
        for entry in entries:
            if entry.name.startswith(PREFIX) and entry.is_dir(follow_symlinks=False):
                with contextlib.suppress(OSError):
                    sweep_one(entry.path)


class Unfinished:
    """The new file of a save of a program that was started here. It goes with the program, or with this process, which
    then ends the program; if this process is killed before, the next one removes it."""

    def __init__(self, pid: int, save: Union[str, bytes, "os.PathLike[str]", "os.PathLike[bytes]"]) -> None:
        self.clear: Callable[[], object] = lambda: None
        found = unfinished_of(pid, os.path.dirname(os.path.realpath(os.fsdecode(save))))
        if found is None:
            return
        room = Room()
        path, device, number = found
        with open(os.path.join(room.name, RECORD), "wb") as file:
            file.write(f"{device} {number}\n{system.process_text(pid)}".encode() + os.fsencode(path))

        def clear_here(owner: int) -> None:
            # A forked process has not started the program.
            if os.getpid() == owner:
                remove_unfinished(path, device, number)
                room.cleanup()

        self.clear = weakref.finalize(self, clear_here, os.getpid())


def unfinished_of(pid: int, folder: str) -> Optional[tuple[str, int, int]]:
    """The path, the device and the number of the file in a folder that a program has open for a save, or None."""
    with contextlib.suppress(OSError):
        for path in system.paths_of_process(pid):
            if os.path.dirname(path) == folder and os.path.basename(path).startswith(UNFINISHED):
                found = os.stat(path)
                return path, found.st_dev, found.st_ino
    return None


def remove_unfinished(path: str, device: int, number: int) -> None:
    """Removes this file, and none that has its name since."""
    with contextlib.suppress(OSError):
        found = os.stat(path, follow_symlinks=False)
        if (found.st_dev, found.st_ino) == (device, number) and os.path.basename(path).startswith(UNFINISHED):
            os.unlink(path)


def sweep_unfinished(folder: str) -> bool:
    """Removes the file of which a folder says that it is of a save, if the program is certainly gone. Whether nothing
    is left to be removed.
    """
    try:
        with open(os.path.join(folder, RECORD), "rb") as file:
            numbers, *lines, path = file.read().split(b"\n", 5)
    except FileNotFoundError:
        return True
    if not system.is_gone("\n".join(line.decode("ascii", "replace") for line in [*lines, b""])):
        return False
    device, number = map(int, numbers.split())
    remove_unfinished(os.fsdecode(path), device, number)
    return True


def sweep_one(path: str) -> None:
    if not system.is_mine(os.stat(path, follow_symlinks=False)):
        return
    descriptor = os.open(os.path.join(path, LOCK), os.O_RDWR | system.NO_LINK | system.BINARY)
    try:
        is_abandoned = system.is_abandoned(descriptor)
    finally:
        os.close(descriptor)
    if is_abandoned and sweep_unfinished(path):
        shutil.rmtree(path, ignore_errors=True)
