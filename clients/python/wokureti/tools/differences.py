"""The edits that make one list of packets of another."""

from __future__ import annotations

import bisect
import collections
from typing import Hashable, Mapping, NamedTuple, Optional, Sequence, Tuple, TypeVar

from ..media import ivf

Item = TypeVar("Item", bound=Hashable)
# A time stamp and bytes; and the index that a packet had in the stream, and the one that it has in another source.
Packet = Tuple[int, bytes]
Origin = Tuple[Optional[int], Optional[int]]


def common(one: Sequence[Item], other: Sequence[Item]) -> list[tuple[int, int]]:
    """Pairs of indexes of items that are in both lists, ascending in both: as many as possible of the items that are
    unique or in order.
    """
    places: dict[Item, collections.deque[int]] = collections.defaultdict(collections.deque)
    for index, item in enumerate(other):
        places[item].append(index)
    pairs = [(index, places[item].popleft()) for index, item in enumerate(one) if places[item]]
    tails: list[int] = []
    ends: list[int] = []
    before: list[Optional[int]] = [None] * len(pairs)
    for place, (_, index) in enumerate(pairs):
        at = bisect.bisect_left(tails, index)
        before[place] = ends[at - 1] if at else None
        if at == len(tails):
            tails.append(index)
            ends.append(place)
        else:
            tails[at], ends[at] = index, place
    found: list[tuple[int, int]] = []
    last = ends[-1] if ends else None
    while last is not None:
        found.append(pairs[last])
        last = before[last]
    return found[::-1]


# Packets of fewer bytes are written as HEX, also if another source has them.
LEAST_COPY = 16


class Lasting(NamedTuple):
    """How long packets are shown: those of a stream, those of another source, and one that is inserted."""

    durations: Sequence[int]
    theirs: Sequence[int]
    usual: int

    def is_wrong(self, duration: int, wanted: int) -> bool:
        """Whether an inserted packet lasts about as long as is wanted, and one of this duration does not."""
        return abs(duration - wanted) > abs(self.usual - wanted) + self.usual // 2


def edits_between(
    one: Sequence[Packet],
    other: Sequence[Packet],
    theirs: Optional[Mapping[Packet, int]] = None,
    lasting: Optional[Lasting] = None,
) -> list[str]:
    """The request lines that make the packets `other` of the packets `one`, pairs of a time stamp and bytes. `theirs`
    has the indexes of packets of source 1, which are copied. With `lasting` a packet that would be shown until packets
    that are after its end now is inserted again: a packet keeps its duration, and the one before a hole has that of the
    hole, which others fill."""
    kept, theirs = common(one, other), theirs or {}
    place, index = 0, 0
    lines: list[str] = []
    lasts: list[Origin] = []
    for stop, end in [*kept, (len(one), len(other))]:
        # Packets place to stop of the first list become packets index to end of the second, which begin at `index`.
        old, new = list(range(place, stop)), list(range(index, end))
        while old and new and one[old[0]][0] == other[new[0]][0]:
            packet = other[new[0]]
            lasts.append((None if is_copied(packet, theirs) else old[0], theirs.get(packet)))
            lines += replacement(new[0], packet, theirs)
            old, new = old[1:], new[1:]
        lines += [f"delete {new[0] if new else end}"] * len(old)
        for at in new:
            lasts.append((None, theirs.get(other[at]) if is_copied(other[at], theirs) else None))
            lines.append(insertion(at, other[at], theirs))
        if stop < len(one):
            lasts.append((stop, None))
        place, index = stop + 1, end + 1
    return lines + (renewals(other, theirs, lasts, lasting) if lasting else [])


def renewals(
    packets: Sequence[Packet],
    theirs: Mapping[Packet, int],
    lasts: Sequence[Origin],
    lasting: Lasting,
    first: int = 0,
    source: int = 1,
) -> list[str]:
    """The lines that insert packets again whose duration is not that of their time stamps. For each packet `lasts` has
    which one of the stream it was, and which one of another source. The packets begin at index `first`."""
    found: list[str] = []
    after: Optional[int] = None
    for at in reversed(range(len(packets))):
        stamp, data = packets[at]
        if not ivf.is_shown(data):
            continue
        mine, other = lasts[at]
        duration = (
            lasting.durations[mine]
            if mine is not None
            else lasting.theirs[other]
            if other is not None
            else lasting.usual
        )
        if after is not None and stamp < after and lasting.is_wrong(duration, after - stamp):
            is_right = is_copied(packets[at], theirs) and not lasting.is_wrong(
                lasting.theirs[theirs[packets[at]]], after - stamp
            )
            found += [
                insertion(first + at, packets[at], theirs if is_right else {}, source),
                f"delete {first + at + 1}",
            ]
        after = stamp
    return found


def is_copied(packet: Packet, theirs: Mapping[Packet, int]) -> bool:
    return packet in theirs and len(packet[1]) >= LEAST_COPY


def insertion(at: int, packet: Packet, theirs: Mapping[Packet, int], source: int = 1) -> str:
    """The line that inserts a packet."""
    stamp, data = packet
    if is_copied(packet, theirs):
        return f"copy {source} {theirs[packet]} {at}"
    return f"insert {at} {stamp} {data.hex() or '-'}"


def replacement(at: int, packet: Packet, theirs: Mapping[Packet, int]) -> list[str]:
    """The lines that give a packet other bytes. It keeps its time stamp and its duration."""
    if is_copied(packet, theirs):
        return [insertion(at, packet, theirs), f"delete {at + 1}"]
    return [f"replace {at} {packet[1].hex() or '-'}"]
