"""IVF files: a header of 32 bytes or more, and for each packet its size (4 bytes), its time stamp (8 bytes) and its
bytes.
"""

from __future__ import annotations

import os
import struct
from array import array
from typing import Iterable, Iterator, NamedTuple, Optional, Tuple

from .. import system
from ..errors import NotIvf
from ..base.checks import AnyBytes, AnyPath

HEAD = struct.Struct("<4sHH4sHHIIII")
RECORD = struct.Struct("<IQ")
MOST_PACKETS = 1 << 20
# Bytes that are read at a time.
WINDOW = 1 << 18
KEY, SHOWN, NO_BYTES = 1, 2, 8
# Frames or ticks a second, as numerator and denominator.
Rate = Tuple[int, int]


class Head(NamedTuple):
    """What is used of a header: the size, and the frames a second as rate / scale."""

    width: int
    height: int
    rate: int
    scale: int

    def text(self, count: int) -> bytes:
        """The header of a file with this many packets."""
        return HEAD.pack(b"DKIF", 0, 32, b"VP80", self.width, self.height, self.rate, self.scale, count, 0)


# The header of an empty stream, as vp8serve saves it.
EMPTY = Head(0, 0, 30, 1)


class Index:
    """Where the packets of a file are: for each its first byte, its size, its time stamp, and whether its tag is that
    of a key packet (`KEY`) and of a shown one (`SHOWN`), and whether it has no bytes (`NO_BYTES`)."""

    def __init__(self) -> None:
        self.starts, self.sizes, self.stamps, self.tags = array("Q"), array("I"), array("Q"), bytearray()

    def __len__(self) -> int:
        return len(self.starts)


def parse_head(text: bytes) -> tuple[Head, int]:
    """The head of a file that begins with these 32 bytes, and the length that its header gives itself."""
    if len(text) < HEAD.size:
        raise NotIvf("it has fewer bytes than the header of an IVF file")
    magic, _, length, code, width, height, rate, scale, _, _ = HEAD.unpack(text[: HEAD.size])
    if magic != b"DKIF":
        raise NotIvf("it does not begin as an IVF file")
    if code != b"VP80":
        raise NotIvf(f"it is an IVF file of another codec than VP8, {code!r}")
    if length < HEAD.size:
        raise NotIvf(f"its header gives itself {length} bytes")
    return Head(width, height, rate, scale), length


def is_key(data: AnyBytes) -> bool:
    """Whether a packet has a key tag: 3 bytes or more, and bit 0 of the first one is 0."""
    return len(data) >= 3 and not data[0] & 1


def is_shown(data: AnyBytes) -> bool:
    """Whether a packet is shown as a frame: bit 4 of its tag is 1, or it has no tag."""
    return len(data) < 3 or bool(data[0] & 16)


def key_size(data: AnyBytes) -> Optional[tuple[int, int]]:
    """The width and height that a key packet of at least 10 bytes gives, or None."""
    if not is_key(data) or len(data) < 10 or data[3:6] != b"\x9d\x01\x2a":
        return None
    width, height = (value & 0x3FFF for value in struct.unpack("<HH", data[6:10]))
    return (width, height) if width and height else None


def tag_of(size: int, first: int) -> int:
    """Whether a packet of this size with this first byte is a key packet, whether it is shown, and whether it is
    empty.
    """
    if size < 3:
        return SHOWN | NO_BYTES * (size == 0)
    return KEY * (not first & 1) | SHOWN * bool(first & 16)


# What `tag_of` says for each first byte of a packet of 3 bytes or more.
TAGS = bytes(tag_of(3, first) for first in range(256))


def read_index(descriptor: int) -> tuple[Head, Index]:
    """The head of the file, and the index of its whole records. The bytes of a record that is cut off are left out."""
    length_of_file = os.fstat(descriptor).st_size
    head, place = parse_head(system.pread(descriptor, HEAD.size, 0))
    if place > length_of_file:
        raise NotIvf(f"its header gives itself {place} bytes, more than there are")
    index, window, base = Index(), b"", place
    starts, sizes, stamps, tags = index.starts.append, index.sizes.append, index.stamps.append, index.tags.append
    head_size, unpack = RECORD.size, RECORD.unpack_from
    while place + head_size <= length_of_file:
        at = place - base
        if at + head_size >= len(window):
            window, base, at = system.pread_all(descriptor, min(WINDOW, length_of_file - place), place), place, 0
        size, stamp = unpack(window, at)
        place += head_size
        if place + size > length_of_file:
            break
        starts(place)
        sizes(size)
        stamps(stamp)
        tags(
            TAGS[window[at + head_size]]
            if size >= 3 and at + head_size < len(window)
            else SHOWN
            if size
            else SHOWN | NO_BYTES
        )
        place += size
    return head, index


def left_after(descriptor: int, index: Index) -> int:
    """The number of bytes after the last whole record of a file."""
    end = index.starts[-1] + index.sizes[-1] if len(index) else parse_head(system.pread(descriptor, HEAD.size, 0))[1]
    return max(0, os.fstat(descriptor).st_size - end)


def damage_text(name: str, index: Index, left: int) -> list[str]:
    """Sentences about a file that has so many bytes after its last whole record."""
    return [f"{name} ends in the middle of packet {len(index)}: {left:,} bytes of its record are there"] if left else []


def read_packets(path: AnyPath) -> tuple[Head, list[tuple[int, bytes]]]:
    """The head of a file, and its packets as pairs of a time stamp and bytes."""
    with open(path, "rb") as file:
        head, index = read_index(file.fileno())
        packets = []
        for start, size, stamp in zip(index.starts, index.sizes, index.stamps):
            file.seek(start)
            packets.append((stamp, file.read(size)))
    return head, packets


def pieces(head: Head, count: int, packets: Iterable[tuple[int, AnyBytes]]) -> Iterator[bytes]:
    """The text of a file, piece by piece. `packets` are pairs of a time stamp and bytes."""
    yield head.text(count)
    for stamp, data in packets:
        yield RECORD.pack(len(data), stamp)
        yield data
