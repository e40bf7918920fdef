"""Finding the packets of an IVF file whose records no longer follow each other.

A record is 12 bytes, a size and a time stamp, and then the packet. Where bytes were lost, inserted or overwritten, a
size leads to something that is no record. Then the next place is searched from which several records follow each other:
their sizes lead from one to the next, their time stamps go on, and their packets begin as packets of VP8 do.
"""

from __future__ import annotations

import re
import struct
from typing import NamedTuple, Optional

from ..errors import NotIvf
from ..base.checks import AnyBytes
from ..base.files import Data, Mapped
from . import ivf

SOME = re.compile(rb"[^\0]")
RECORD = struct.Struct("<IQ")
# Records that must follow each other where reading goes on, unless the file ends before.
CHAIN = 3
# A time stamp goes on if it is not further from the last one.
MOST_STEP = 1 << 24
# A packet is not longer.
MOST_SIZE = 1 << 24
# Zeros at the end of a packet that say that they are not its own.
ZEROS = 64


class Found(NamedTuple):
    """A packet that was found, and where its record begins."""

    stamp: int
    data: AnyBytes
    place: int


class Gap(NamedTuple):
    """Bytes of the file that lead to no record, and how many packets were found before them."""

    start: int
    end: int
    after: int


class Guess(NamedTuple):
    """A packet whose record may only have a wrong size: its time stamp goes on, and it would have all bytes up to the
    next record. It begins with a gap, whose index is `gap`; or it is in the place of the packet before that, which was
    cut at its size (`is_cut`).
    """

    gap: int
    packet: Found
    is_cut: bool


def begins_packet(data: Data, place: int, size: int) -> bool:
    """Whether a packet of this size may begin at a place: its tag, its start code, and the size of its first
    partition.
    """
    if size == 0:
        return True
    if size < 3:
        return False
    tag = data[place] | data[place + 1] << 8 | data[place + 2] << 16
    first, version = tag >> 5, tag >> 1 & 7
    start = 3 if tag & 1 else 10
    if version > 3 or first + start > size or not first:
        return False
    return bool(tag & 1) or ivf.key_size(data[place : place + 10]) is not None


def sized_at(data: Data, place: int, last: Optional[int]) -> Optional[tuple[int, int]]:
    """The size and time stamp of a record at a place, whatever its packet is, or None. `last` is the time stamp before
    it, if there is one.
    """
    if place + RECORD.size > len(data):
        return None
    size, stamp = RECORD.unpack_from(data, place)
    if size > MOST_SIZE or place + RECORD.size + size > len(data):
        return None
    if last is not None and abs(stamp - last) > MOST_STEP:
        return None
    # Zeros would be packets of no bytes without end.
    if size == 0 and (last is None or stamp <= last):
        return None
    return size, stamp


def record_at(data: Data, place: int, last: Optional[int]) -> Optional[tuple[int, int]]:
    """The same if the packet begins as one of VP8."""
    found = sized_at(data, place, last)
    return found if found is not None and begins_packet(data, place + RECORD.size, found[0]) else None


def follow(data: Data, place: int, last: Optional[int], count: int) -> bool:
    """Whether so many records follow each other from a place on, or all up to the end of the file, or up to a last one
    that is cut off.
    """
    for number in range(count):
        if place == len(data):
            return True
        found = record_at(data, place, last)
        if found is None:
            return number > 0 and is_cut(data, place, last)
        size, last = found
        place += RECORD.size + size
    return True


def is_cut(data: Data, place: int, last: Optional[int]) -> bool:
    """Whether a record begins at a place that the end of the file cuts off."""
    left = len(data) - place
    if left < RECORD.size:
        return left > 0 and any(data[place:])
    size, stamp = RECORD.unpack_from(data, place)
    return left < RECORD.size + size <= MOST_SIZE and (last is None or 0 <= stamp - last <= MOST_STEP)


def next_place(data: Mapped, place: int, last: Optional[int]) -> Optional[int]:
    """The next place from which records follow each other, or None."""
    # Most places are none: the high bytes of a time stamp that goes on are those of the last one.
    high = struct.pack("<I", (last or 0) >> 32)
    at = place
    while True:
        found = data.find(high, at + 8)
        if found < 0:
            return None
        at = found - 8
        if not data[at + 3] and record_at(data, at, last) and follow(data, at, last, CHAIN):
            return at
        at += 1
        if not any(data[at : at + ZEROS]):
            # No record begins in zeros, but for its last bytes.
            more = SOME.search(data, at)
            at = len(data) if more is None else more.start() - RECORD.size


def head_of(data: Mapped) -> tuple[Optional[ivf.Head], int]:
    """The head of a file and where its records begin; the head of an empty stream, and 0, if the header is lost."""
    try:
        head, length = ivf.parse_head(data[: ivf.HEAD.size])
        return head, length
    except NotIvf:
        return None, 0


def find(data: Mapped) -> tuple[Optional[ivf.Head], list[Found], list[Gap]]:
    """The head or None, the packets, and the gaps between them."""
    return find_all(data)[:3]


def guess_at(data: Mapped, place: int, end: int, last: Optional[int]) -> Optional[Found]:
    """A packet between a record whose size is wrong and the next record, or None."""
    if place + RECORD.size > end:
        return None
    stamp, after = (RECORD.unpack_from(data, at)[1] for at in (place, end))
    if not (last is None or last <= stamp) or not stamp <= after or after - stamp > MOST_STEP:
        return None
    if not begins_packet(data, place + RECORD.size, end - place - RECORD.size):
        return None
    return Found(stamp, memoryview(data)[place + RECORD.size : end], place)


def guesses_at(
    data: Mapped, number: int, gap: Gap, last: Optional[int], cut: Optional[tuple[int, Optional[int]]]
) -> list[Guess]:
    """The guesses at a gap, the likelier one first. `cut` is where the packet before it begins that was cut at its
    size, and the time stamp before that, or None."""
    found = [(guess_at(data, gap.start, gap.end, last), False)]
    if cut is not None:
        found.append((guess_at(data, cut[0], gap.end, cut[1]), True))
    return [Guess(number, packet, is_cut) for packet, is_cut in found if packet is not None]


def find_all(data: Mapped) -> tuple[Optional[ivf.Head], list[Found], list[Gap], list[list[Guess]]]:
    """The same, and for each gap the guesses at a packet whose size is wrong."""
    head, place = head_of(data)
    # Packets are parts of the file, and no copies of it.
    packets: list[Found] = []
    gaps: list[Gap] = []
    guesses: list[list[Guess]] = []
    last: Optional[int] = None
    view = memoryview(data)
    while place < len(data):
        found = sized_at(data, place, last)
        if found is not None:
            end = place + RECORD.size + found[0]
            # A packet may be damaged in its first bytes, if more records follow it.
            if follow(data, end, found[1], 1 if record_at(data, place, last) else CHAIN):
                packets.append(Found(found[1], view[place + RECORD.size : end], place))
                place, last = end, found[1]
                continue
            if not begins_packet(data, place + RECORD.size, found[0]):
                found = None
        resumed = next_place(data, place + 1 if found is None else place + RECORD.size, last)
        start = place
        # Where a packet that is cut at its size begins, and the time stamp before it.
        cut: Optional[tuple[int, Optional[int]]] = None
        if found is not None and (resumed is None or resumed >= end):
            # The record is where the one before it leads to, and its packet ends before the next one that was found.
            packets.append(Found(found[1], view[place + RECORD.size : end], place))
            cut, last, start = (place, last), found[1], end
        stop = len(data) if resumed is None else resumed
        if stop > start:
            gaps.append(Gap(start, stop, len(packets)))
            if resumed is not None:
                guesses.append(guesses_at(data, len(gaps) - 1, gaps[-1], last, cut))
        if resumed is None:
            break
        place = resumed
    return head, packets, gaps, guesses


def plain(data: Mapped) -> Optional[tuple[ivf.Head, list[Found], int]]:
    """The head and the packets as vp8serve reads them; None if it does not."""
    try:
        head, place = ivf.parse_head(data[: ivf.HEAD.size])
    except NotIvf:
        return None
    packets, view = [], memoryview(data)
    while place + RECORD.size <= len(data):
        size, stamp = RECORD.unpack_from(data, place)
        end = place + RECORD.size + size
        if end > len(data):
            break
        packets.append(Found(stamp, view[place + RECORD.size : end], place))
        place = end
    return head, packets, place
