"""The streams that pages were opened of, the last one first: the start page offers them, with their lists of edits."""

from __future__ import annotations

import contextlib
import json
import os
import time
from typing import List, Optional, Sequence, TypedDict

from .. import system

# Streams that are remembered.
MOST = 20


class Entry(TypedDict):
    """A stream that was opened: its path, or None if it was a copy; its name, its list of edits, its other sources, and
    when.
    """

    stream: Optional[str]
    name: str
    list: str
    sources: List[str]
    when: float


def file_of() -> str:
    return os.path.join(system.state_folder(), "recent.json")


def noted() -> list[Entry]:
    """What was opened: for each stream its path, or none if it was a copy, which is gone; its name; its list of edits;
    its other sources; and when. A file that others may read or write is not believed."""
    with (
        contextlib.suppress(OSError, ValueError, TypeError),
        open(os.open(file_of(), os.O_RDONLY | system.NO_LINK | system.BINARY), encoding="utf-8") as file,
    ):
        if system.is_private(os.fstat(file.fileno())):
            return [entry for entry in json.load(file) if is_entry(entry)][:MOST]
    return []


def is_entry(entry: object) -> bool:
    kinds: dict[str, tuple[type, ...]] = {
        "stream": (str, type(None)),
        "name": (str,),
        "list": (str,),
        "sources": (list,),
        "when": (int, float),
    }
    return (
        isinstance(entry, dict)
        and set(entry) == set(kinds)
        and all(isinstance(entry[name], kind) for name, kind in kinds.items())
    )


def note(stream: str, path: str, sources: Sequence[str], is_copy: bool = False) -> None:
    """Remembers a stream and its list of edits. If that fails, the page is there all the same."""
    entry: Entry = {
        "stream": None if is_copy else os.path.abspath(stream),
        "name": os.path.basename(stream),
        "list": os.path.abspath(path),
        "sources": [os.path.abspath(one) for one in sources],
        "when": time.time(),
    }
    with contextlib.suppress(OSError):
        found = [entry, *(one for one in noted() if one["list"] != entry["list"])][:MOST]
        os.makedirs(system.state_folder(), mode=0o700, exist_ok=True)
        new = f"{file_of()}.{os.getpid()}"
        with open(
            os.open(new, os.O_WRONLY | os.O_CREAT | os.O_TRUNC | system.BINARY, 0o600), "w", encoding="utf-8"
        ) as file:
            json.dump(found, file)
        os.replace(new, file_of())


def edits_in(path: str) -> Optional[int]:
    """The number of edits in a list; None if there is no list."""
    try:
        with open(path, encoding="utf-8", errors="replace") as file:
            return sum(1 for line in file if line.strip() and not line.startswith("#"))
    except OSError:
        return None


def offered() -> list[dict[str, object]]:
    """What the start page shows of these streams. A list without edits, or whose stream is gone, is not offered."""
    found = []
    for number, entry in enumerate(noted()):
        edits = edits_in(entry["list"])
        is_there = entry["stream"] is None or os.path.isfile(entry["stream"])
        if is_there and (edits or entry["stream"]):
            found.append(
                {
                    "number": number,
                    "name": entry["name"],
                    "folder": entry["stream"] and os.path.dirname(entry["stream"]),
                    "edits": edits or 0,
                    "when": entry["when"],
                }
            )
    return found
