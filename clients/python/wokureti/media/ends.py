"""Whether a file of another container than WebM ends in the middle: the programs that read one take what is there, and
do not say so.
"""

from __future__ import annotations

import struct

from ..base.files import Data

# Numbers of a length that its writer did not know: a RIFF file that was written to a pipe.
UNKNOWN = (0, 0xFFFFFFFF)
# The bytes of the header of a page of Ogg before the sizes in it, and the flags of the first and of the last page of a
# stream.
PAGE = struct.Struct("<4sBBqIIIB")
BEGINS, ENDS = 2, 4


def is_cut(kind: str, data: Data) -> bool:
    """Whether the bytes of a file of this kind, as `convert.kind_of` calls it, end before it does. A file of another
    kind is not looked at.
    """
    check = {"AVI": is_cut_riff, "MP4": is_cut_boxes, "Ogg": is_cut_ogg}.get(kind)
    return check is not None and check(data)


def is_cut_riff(data: Data) -> bool:
    """Of RIFF chunks, one after the other, the last one is longer than the file, or has no length."""
    place, size = 0, len(data)
    while place < size and data[place : place + 4] == b"RIFF"[: size - place]:
        if size - place < 8:
            return True
        length = struct.unpack_from("<I", data, place + 4)[0]
        if length in UNKNOWN:
            return False
        if place + 8 + length > size:
            return True
        # A byte after an odd number of them may be missing.
        place += 8 + length + length % 2
    return False


def is_cut_boxes(data: Data) -> bool:
    """The same of the boxes of an MP4 file."""
    place, size = 0, len(data)
    while place < size:
        if size - place < 8:
            return True
        length: int = struct.unpack_from(">I", data, place)[0]
        if length == 1 and size - place >= 16:
            length = struct.unpack_from(">Q", data, place + 8)[0]
        if length < 8:
            # It goes to the end of the file.
            return length == 1
        place += length
    return place > size


def is_cut_ogg(data: Data) -> bool:
    """The last page is not whole, or a stream has no last page."""
    place, size = 0, len(data)
    running: set[int] = set()
    while place < size:
        if size - place < PAGE.size:
            return True
        mark, _, flags, _, serial, _, _, count = PAGE.unpack_from(data, place)
        if mark != b"OggS":
            # This is no page, so what follows is of something else.
            return False
        (running.discard if flags & ENDS else running.add)(serial)
        start = place + PAGE.size + count
        place = start + sum(data[place + PAGE.size : start])
        if start > size or place > size:
            return True
    return bool(running)
