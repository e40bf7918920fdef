"""The files that the packets of an edited stream were saved to, and whether what is in them is what the stream has."""

from __future__ import annotations

import os
from array import array
from typing import Callable, Iterable, Iterator, NamedTuple, Optional, Sequence, Tuple, Union

from .. import system
from ..session.contents import Contents

# Which file is at a path: its device, its number there, its bytes, and when it was written.
Identity = Tuple[int, int, int, int]


class Saved(NamedTuple):
    """A file that was written, which file it is, and the packets that are in it, as numbers of the contents of this
    name.
    """

    path: str
    identity: Optional[Identity]
    contents: str
    packets: array[int]


def names_of(stem: str, ending: str) -> Iterator[str]:
    """clip-edited.ivf, clip-edited-2.ivf, and so on."""
    number = 1
    while True:
        yield f"{stem}-edited{ending}" if number == 1 else f"{stem}-edited-{number}{ending}"
        number += 1


def free_name(stem: str, ending: str = ".ivf") -> str:
    """The first of these names that is not there yet."""
    return next(path for path in names_of(stem, ending) if not os.path.lexists(path))


def claimed(stem: str, ending: str = ".ivf") -> str:
    """The same as a new file, so that no other program gets it."""
    for path in names_of(stem, ending):
        try:
            os.close(os.open(path, os.O_WRONLY | os.O_CREAT | os.O_EXCL | system.BINARY, 0o666))
            return path
        except FileExistsError:
            continue
    raise AssertionError


def identity(path: str) -> Optional[Identity]:
    """Which file is at a path, and its bytes; None if there is none."""
    try:
        found = os.stat(path)
    except OSError:
        return None
    return found.st_dev, found.st_ino, found.st_size, found.st_mtime_ns


class Saves:
    """What was saved of each source. Source 0 goes to the file `named`, if there is one, which is replaced. Otherwise a
    source goes to a new file of its stem and ending, that no other program has, and only this file is replaced
    later."""

    def __init__(
        self, named: Union[str, os.PathLike[str], None] = None, stems: Iterable[str] = (), endings: Iterable[str] = ()
    ) -> None:
        self.named, self.stems = None if named is None else os.fspath(named), list(zip(stems, endings))
        self.done: dict[int, Saved] = {}
        self.count = 0

    def path(self, source: int = 0) -> Optional[str]:
        """The file that the next save of a source writes, or None."""
        if source == 0 and self.named is not None:
            return self.named
        done = self.done.get(source)
        if done is not None and identity(done.path) == done.identity:
            return done.path
        return free_name(*self.stems[source]) if source < len(self.stems) else None

    def save(self, source: int, contents: Contents, write: Callable[[str], object]) -> str:
        """Saves a source: `write` writes a file of this path. Returns the path."""
        path, is_new = self.path(source), False
        if path is None:
            raise ValueError("no file was named to save to")
        done = self.done.get(source)
        try:
            if path != self.named and (done is None or path != done.path):
                path, is_new = claimed(*self.stems[source]), True
            write(path)
        except OSError as error:
            if is_new:
                os.unlink(path)
            state = "nothing was written" if is_new or not os.path.lexists(path) else "the file is as it was"
            raise OSError(
                error.errno, f"{path}: {error.strerror or error}: not saved, and {state}; the edits are in their list"
            ) from None
        except BaseException:
            if is_new:
                os.unlink(path)
            raise
        self.done[source] = Saved(path, identity(path), contents.name, array("I", contents.streams[source]))
        self.count += 1
        return path

    def file_of(self, source: int, contents: Contents, stream: Sequence[int]) -> Optional[str]:
        """The file that has exactly the packets of a source, or None."""
        done = self.done.get(source)
        if done is None or done.packets != stream or identity(done.path) != done.identity:
            return None
        # Numbers of packets that edits made are those of one contents.
        is_known = done.contents == contents.name or all(number < contents.of_files for number in stream)
        return done.path if is_known else None

    def is_saved(self, source: int, contents: Contents, stream: Sequence[int]) -> bool:
        """Whether a source is as it was opened, or as it was saved."""
        return not contents.is_edited(source, stream) or self.file_of(source, contents, stream) is not None
