"""The port and the words of the address of a page, kept for the next run over the same list of edits: a tab of a server
that was killed finds it then.
"""

from __future__ import annotations

import contextlib
import hashlib
import json
import os
import secrets
import time
from typing import NamedTuple, Optional

from .. import system
from ..server.web import Server

# Seconds for which an address is kept.
KEPT = 24 * 3600


class Door(NamedTuple):
    """The port of a server, the word with which it is changed, and the one that only reads."""

    port: int
    token: str
    reading: str


def file_of(path: str) -> str:
    """The file that keeps the address for the list of edits at a path."""
    return os.path.join(
        system.state_folder(), "pages", hashlib.sha256(os.fsencode(os.path.realpath(path))).hexdigest()[:32]
    )


def kept(path: str) -> Optional[Door]:
    """The address that was kept for a list, or None. A file that others may read or write is not believed."""
    with (
        contextlib.suppress(OSError, ValueError, KeyError, TypeError),
        open(os.open(file_of(path), os.O_RDONLY | system.NO_LINK | system.BINARY), encoding="ascii") as file,
    ):
        found = os.fstat(file.fileno())
        if not system.is_private(found) or not 0 <= time.time() - found.st_mtime < KEPT:
            return None
        members = json.load(file)
        door = Door(members["port"], members["token"], members["reading"])
        if (
            isinstance(door.port, int)
            and 0 < door.port < 1 << 16
            and all(isinstance(word, str) and len(word) >= 20 for word in door[1:])
        ):
            return door
    return None


def keep(path: str, door: Door) -> None:
    """Keeps an address, and drops those of other lists that are old. If that fails, the page is there all the same."""
    with contextlib.suppress(OSError):
        name = file_of(path)
        for folder in (system.state_folder(), os.path.dirname(name)):
            os.makedirs(folder, mode=0o700, exist_ok=True)
        new = f"{name}.{os.getpid()}"
        with open(
            os.open(new, os.O_WRONLY | os.O_CREAT | os.O_EXCL | system.BINARY, 0o600), "w", encoding="ascii"
        ) as file:
            json.dump(door._asdict(), file)
        os.replace(new, name)
        for entry in os.scandir(os.path.dirname(name)):
            if time.time() - entry.stat(follow_symlinks=False).st_mtime >= KEPT:
                os.unlink(entry.path)


def opened(port: int, path: str) -> tuple[Server, str, str]:
    """A server, and the words of its address: those of the last run over this list, if that was within a day and its
    port is free.
    """
    door = kept(path)
    if door is not None and port in (0, door.port):
        with contextlib.suppress(OSError):
            server = Server(door.port)
            keep(path, door)
            return server, door.token, door.reading
    server = Server(port)
    door = Door(server.port, secrets.token_urlsafe(18), secrets.token_urlsafe(18))
    keep(path, door)
    return server, door.token, door.reading
