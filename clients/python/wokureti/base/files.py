"""Files that are written whole or not at all."""

from __future__ import annotations

import contextlib
import errno
import mmap
import os
import stat
import tempfile
from typing import IO, Iterable, Iterator, Optional, Union

from .. import system
from .checks import AnyBytes, AnyPath

# The bytes of a file, read or mapped; and of one that is read whole or mapped, in which bytes are searched.
Data = Union[AnyBytes, mmap.mmap]
Mapped = Union[bytes, mmap.mmap]

# What a write that finds no room fails with.
FULL = (errno.ENOSPC, errno.EDQUOT, errno.EFBIG)


def write_whole(path: AnyPath, pieces: Iterable[bytes], size: Optional[int] = None) -> None:
    """Writes the pieces of bytes to a file. With `size` they must have so many bytes: else the file that they are read
    from was not read whole.

    A file, or the file that a link names, is replaced once all pieces are on the disk: if something fails before, it
    has its old bytes. A pipe or a device is written to as it is.
    """
    count = 0
    with whole(path) as file:
        for piece in pieces:
            file.write(piece)
            count += len(piece)
        if size is not None and count != size:
            raise OSError(
                errno.EIO,
                f"{count:,} bytes of {size:,} were read of what is to be written, so it was not written",
                os.fspath(path),
            )


@contextlib.contextmanager
def whole(path: AnyPath) -> Iterator[IO[bytes]]:
    """A file to write to that takes the place of `path` at the end of the block, unless the block is left by an
    exception.
    """
    real = os.path.realpath(os.fsdecode(path))
    try:
        mode = os.stat(real).st_mode
    except FileNotFoundError:
        mode = None
    if mode is not None and not stat.S_ISREG(mode):
        with named(path), open(real, "wb") as file:
            yield file
        return
    with named(path), replaced(real, mode) as file:
        yield file


@contextlib.contextmanager
def named(path: AnyPath) -> Iterator[None]:
    """A write that finds no room fails with an error that names the file."""
    try:
        yield
    except OSError as error:
        if error.errno in FULL and error.filename is None:
            raise type(error)(error.errno, os.strerror(error.errno), os.fspath(path)) from None
        raise


@contextlib.contextmanager
def replaced(real: str, mode: Optional[int]) -> Iterator[IO[bytes]]:
    """A file that takes the place of another one."""
    folder, name = os.path.split(real)
    try:
        descriptor, temporary = tempfile.mkstemp(prefix=f".{name[:100]}.", suffix=".part", dir=folder)
    except OSError as error:
        # It names a file that nobody asked for.
        raise type(error)(error.errno, os.strerror(error.errno), real) from None
    try:
        with open(descriptor, "wb") as file:
            yield file
            file.flush()
            os.fsync(descriptor)
        os.chmod(temporary, stat.S_IMODE(mode) if mode is not None else 0o666 & ~system.umask())
        system.replace(temporary, real)
        system.sync_folder(folder)
    except BaseException:
        with contextlib.suppress(OSError):
            os.unlink(temporary)
        raise
