"""The records of macroblocks and headers: what vp8serve answers of a packet of a session, and vp8list of one of a file,
for which `wokureti compare` has no session.
"""

from __future__ import annotations

import json
from typing import Any, Optional, Sequence, TypeVar

from ..errors import NoBytes, PacketRefused
from ..base import checks
from ..base.checks import AnyPath
from ..media import facts

# A line of JSON, as a reply or a program has it.
Line = TypeVar("Line", str, bytes)


def of_file(lister: str, path: AnyPath, option: str, packet: int, tables: Optional[AnyPath] = None) -> list[bytes]:
    """The JSON lines of one packet of a file, for `--macroblocks` or `--header`."""
    words = [] if tables is None else ["--tables", checks.path(tables)]
    return checked(list(facts.run(lister, path, option, str(packet), "--json", *words)))


def checked(lines: list[Line]) -> list[Line]:
    """The lines, if they are those of a packet that is decoded."""
    members = json.loads(lines[0]) if len(lines) == 1 else {}
    if "refused" in members:
        raise PacketRefused(members["refused"], members["cause"])
    if members.get("repeats"):
        raise NoBytes
    return lines


def header(lines: Sequence[Line]) -> dict[str, Any]:
    """The fields of a header, and the probabilities that it changes."""
    fields, *changes = map(json.loads, lines)
    fields.pop("packet")
    for change in changes:
        change.pop("packet")
    return {"fields": fields, "changes": changes}


def words_of(record: dict[str, Any]) -> Any:
    """A record of a macroblock as words, as `wokureti compare` prints it: what it has not, and its position, is left
    out.
    """
    found = []
    for name, value in record.items():
        if value is None or name in ("packet", "column", "row"):
            continue
        if name == "vector":
            value = ":".join(map(str, value))
        elif name == "parts":
            value = ",".join(part if isinstance(part, str) else ":".join(map(str, part)) for part in value)
        found.append(f"{name} {value}")
    return ", ".join(found)
