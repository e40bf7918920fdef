"""Streams that are added to a session on its page: those in the folders of the streams that the command names."""

from __future__ import annotations

import hashlib
import os
from typing import TYPE_CHECKING, Iterable, Optional

from .. import system
from ..errors import Ended, Failed
from ..media import muxing
from ..media.webm import media_of
from ..session import convert

if TYPE_CHECKING:
    from .opened import Opened

ENDINGS = (".ivf", ".webm", ".mkv")
MOST_FILES, MOST_DEPTH, MOST_SOURCES = 1000, 4, 8


def folders_of(paths: Iterable[str]) -> list[str]:
    """The folders of streams that are files."""
    return list(dict.fromkeys(os.path.dirname(path) or "." for path in paths if path != "-" and os.path.isfile(path)))


def files_of(paths: Iterable[str]) -> list[str]:
    """The streams in the folders of these, and in folders below, as paths that begin as they do, at most so many. Names
    that begin with a dot are hidden.
    """
    found: list[str] = []
    for folder in folders_of(paths):
        for place, folders, names in os.walk(folder):
            depth = len(os.path.relpath(place, folder).split(os.sep)) if place != folder else 0
            folders[:] = sorted(name for name in folders if not name.startswith(".")) if depth < MOST_DEPTH else []
            mine = sorted(name for name in names if name.lower().endswith(ENDINGS) and not name.startswith("."))
            found += [
                system.slashed(path)
                for path in (
                    os.path.normpath(os.path.join(place, name)) if folder == "." else os.path.join(place, name)
                    for name in mine
                )
                if os.path.isfile(path)
            ]
            if len(found) >= MOST_FILES:
                return found[:MOST_FILES]
    return found


def same_as(paths: Iterable[str], name: str, size: int, digest: Optional[str]) -> list[str]:
    """The streams of these folders that have this name, number of bytes and SHA-256."""
    return [path for path in files_of(paths) if os.path.basename(path) == name and is_same(path, size, digest)]


def is_same(path: str, size: int, digest: Optional[str]) -> bool:
    """Whether a file has this number of bytes and this SHA-256."""
    found = hashlib.sha256()
    try:
        with open(path, "rb") as file:
            if os.fstat(file.fileno()).st_size != size:
                return False
            while piece := file.read(1 << 20):
                found.update(piece)
    except OSError:
        return False
    return found.hexdigest() == digest


def add(live: Opened, path: str, stem: str) -> None:
    """Opens a stream as the last source of a session. `Failed` if that is not possible; the session is then as it
    was.
    """
    if len(live.options.get("sources", ())) + 1 >= MOST_SOURCES:
        raise Failed(f"a session has at most {MOST_SOURCES} streams")
    try:
        with live.opening(os.path.basename(path)) as watch:
            taken = convert.readable(path, live.room.name, watch=watch)
        live.add_source(taken, stem, muxing.ending_for(media_of(taken)))
    except (Ended, OSError, ValueError) as error:
        raise Failed(f"{os.path.basename(path)} was not added: {error}") from None
