"""The file of a list of edits: locked, so that one session has it at a time, and compared with what is at its path
before each write.
"""

from __future__ import annotations

import errno
import os
import stat
import time
from typing import Optional, Union

from .. import system

# Seconds.
LOCK_TIME = 1
# Names that are tried for another file.
MOST_NAMES = 10000


class EditFile:
    """The file of a list."""

    def __init__(self, path: Union[str, "os.PathLike[str]"], is_fresh: bool = False) -> None:
        self.path = os.fspath(path)
        self.descriptor, self.is_new = open_locked(self.path, is_fresh)
        if self.is_new:
            system.sync_folder(os.path.dirname(os.path.realpath(self.path)))
        self.size = os.fstat(self.descriptor).st_size
        # What was known of the file after the last write.
        self.known = signature(os.fstat(self.descriptor))

    @classmethod
    def beside(cls, path: str) -> EditFile:
        """A new file of this name if there is none any more, else with a number after it."""
        for number in range(MOST_NAMES):
            try:
                return cls(f"{path}.{number}" if number else path, is_fresh=True)
            except FileExistsError:
                continue
            except ValueError:
                # Another session took it in that moment.
                continue
        raise FileExistsError(errno.EEXIST, "there are too many lists of this name")

    def change(self) -> Optional[str]:
        """What somebody else did to the file, or None."""
        try:
            there = os.stat(self.path)
        except FileNotFoundError:
            return "was removed"
        except OSError as error:
            return f"cannot be found ({error.strerror})"
        if signature(there)[:2] != self.known[:2]:
            return "was replaced by another file"
        return None if signature(there) == self.known else "was changed by another program"

    def text(self) -> str:
        """What is in the file."""
        return system.pread_all(self.descriptor, self.size, 0).decode()

    def write(self, data: bytes, at: int) -> None:
        """Writes bytes at a place, where the file then ends. If that fails, the file ends at the place."""
        os.ftruncate(self.descriptor, at)
        self.size = at
        left = data
        try:
            while left:
                count = system.pwrite(self.descriptor, left, at)
                left, at = left[count:], at + count
            os.fsync(self.descriptor)
        except BaseException:
            os.ftruncate(self.descriptor, self.size)
            raise
        finally:
            self.known = signature(os.fstat(self.descriptor))
        self.size = at

    def close(self) -> None:
        """A file that was made here goes if it has nothing, as long as it is locked: nobody else has it then."""
        if self.is_new and not self.size and self.change() is None:
            system.remove_and_close(self.path, self.descriptor)
        else:
            os.close(self.descriptor)


def signature(found: os.stat_result) -> tuple[int, int, int, int]:
    return found.st_dev, found.st_ino, found.st_size, found.st_mtime_ns


def open_locked(path: str, is_fresh: bool) -> tuple[int, bool]:
    """The descriptor of a file, locked, and whether the file was made here. `ValueError` if another session has it."""
    while True:
        descriptor, is_new = open_or_make(path, is_fresh)
        try:
            if not stat.S_ISREG(os.fstat(descriptor).st_mode):
                raise ValueError(f"{path!r} is not a file")
            lock(descriptor)
            # The session that had it before may have removed it.
            if is_at(path, descriptor):
                return descriptor, is_new
        except BlockingIOError:
            os.close(descriptor)
            raise ValueError(f"{path!r} is the list of another session that is open") from None
        except BaseException:
            os.close(descriptor)
            raise
        os.close(descriptor)


def open_or_make(path: str, is_fresh: bool) -> tuple[int, bool]:
    flags = os.O_RDWR | os.O_CREAT | system.BINARY
    try:
        # What somebody edits is for them alone.
        return os.open(path, flags | os.O_EXCL, 0o600), True
    except FileExistsError:
        if is_fresh:
            raise
    return os.open(path, flags, 0o600), False


def is_at(path: str, descriptor: int) -> bool:
    try:
        return os.path.samestat(os.stat(path), os.fstat(descriptor))
    except FileNotFoundError:
        return False


def lock(descriptor: int) -> None:
    """A process that another thread starts has the files of this one for a moment, so the lock is tried for a while."""
    limit = time.monotonic() + LOCK_TIME
    while True:
        try:
            return system.lock(descriptor)
        except BlockingIOError:
            if time.monotonic() > limit:
                raise
            time.sleep(0.01)
