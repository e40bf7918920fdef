"""The findings of vp8list --check at the header and at the end of a file. They are of no packet, so no session answers
them, and vp8list would check the packets too: so they are found here a second time."""

from __future__ import annotations

import os
from typing import Any, Dict, Optional, Sequence

from .. import system
from ..media import ivf
from ..session.contents import Contents

# A finding, as the object of JSON that vp8list prints.
Finding = Dict[str, Any]
Size = Sequence[int]


def finding(severity: str, kind: str, **numbers: object) -> Finding:
    return {"packet": None, "frame": None, "kind": kind, **numbers, "severity": severity}


def sides(size: Size) -> str:
    return "x".join(map(str, size))


def at_header(contents: Contents, stream: Sequence[int], size: Optional[tuple[int, int]]) -> list[Finding]:
    """Those at the header of the file, or of that of a save if the packets were edited. `size` is the one of the first
    key packet, or None.
    """
    item = contents.inputs.all[0]
    found: list[Finding] = []
    if is_whole(contents, stream) and item.facts is None:
        claimed = int.from_bytes(system.pread(item.opened(), ivf.HEAD.size, 0)[24:28], "little")
        if claimed != len(stream):
            found.append(finding("note", "frame_count", claimed=claimed, packets=len(stream)))
    head = item.head
    if size is not None and size != head[:2]:
        found.append(finding("note", "frame_size", claimed=sides(head[:2]), size=sides(size)))
    if not head.rate or not head.scale:
        found.append(finding("note", "no_rate", rate=head.rate, scale=head.scale))
    return found


def at_end(contents: Contents, stream: Sequence[int]) -> list[Finding]:
    """Those of the container, which no packet has, and those at the end of the file, if the packets are all of its
    whole records.
    """
    item = contents.inputs.all[0]
    found = [finding("damage", "container", text=text) for text in item.damage_around()]
    if not is_whole(contents, stream) or not item.left():
        return found
    begins = os.fstat(item.opened()).st_size - item.left()
    claimed = system.pread(item.opened(), 4, begins)
    number = int.from_bytes(claimed, "little") if len(claimed) == 4 else None
    return [*found, finding("damage", "cut_record", record=len(stream), byte=begins, claimed=number, left=item.left())]


def is_whole(contents: Contents, stream: Sequence[int]) -> bool:
    """Whether the packets are those of a file as they are in it."""
    return contents.inputs.all[0].descriptor is not None and not contents.is_edited(0, stream)
