"""The times of the blocks of a damaged WebM or Matroska file. A block has a time after that of its cluster, and either
may be lost, or made another by damage; then the blocks continue those before."""

from __future__ import annotations

import bisect
import collections
from statistics import median_low as median
from typing import Iterator, NamedTuple, Optional

# Blocks before one among which its time is looked for, and among which each track has some.
NEAR, MANY = 9, 1000


class Row(NamedTuple):
    """A block: its first byte after its head, its time in the unit of the file, the bytes that follow, its track."""

    place: int
    stamp: int
    size: int
    track: int


class Step(NamedTuple):
    """The usual time from one block of a track to the next, and whether most times are."""

    usual: int
    is_steady: bool


def timed(data: bytes, rows: list[Row], breaks: list[int], most: int) -> list[Row]:
    """The blocks of a file, which are in its order, with times that ascend in each track. After each of the bytes
    `breaks` the time of a cluster may be lost. A time that is `most` after others is one that damage made so.
    """
    return ascending(with_clusters(data, rows, breaks, most), most)


def with_clusters(data: bytes, rows: list[Row], breaks: list[int], most: int) -> list[Row]:
    """The blocks of a file in their order, with times. The blocks of a cluster whose time is lost or wrong continue
    those before it. After each of the bytes `breaks` the time of a cluster may be lost: then its blocks have that of
    the cluster before, and their times begin again.
    """
    found: list[Row] = []
    steps, right, left = steps_of(rows), right_ones(rows, most), collections.deque(breaks)
    groups = list(groups_of(data, rows))
    for number, (base, group) in enumerate(groups):
        is_right = sum(row.place in right for row in group) * 2 >= len(group)
        # If the times after that of the cluster begin again, it is another cluster.
        begins = number and group[0].stamp - base < groups[number - 1][1][-1].stamp - groups[number - 1][0]
        shift = 0 if is_right else after(found, steps, group, base if begins else None)
        # The blocks of the next cluster come later.
        room = groups[number + 1][1][0].stamp - group[-1].stamp if number + 1 < len(groups) else most
        for place, row in enumerate(group):
            is_broken = False
            while left and left[0] < row.place:
                left.popleft()
                is_broken = place > 0 and len(found) >= NEAR
            if is_broken and row.stamp + shift < median(one.stamp for one in found[-NEAR:]):
                more = after(found, steps, group[place:], base)
                shift = more if more <= room else shift
            found.append(row._replace(stamp=row.stamp + shift) if shift else row)
    return found


def groups_of(data: bytes, rows: list[Row]) -> Iterator[tuple[int, list[Row]]]:
    """The time of each cluster, and its blocks."""
    group: list[Row] = []
    base = 0
    for row in rows:
        time = int.from_bytes(data[row.place - 3 : row.place - 1], "big", signed=True)
        # A time before 0 is 0.
        if group and row.stamp - time != base and (row.stamp or time >= 0):
            yield base, group
            group = []
        base = base if group else row.stamp - time
        group.append(row)
    if group:
        yield base, group


def after(found: list[Row], steps: dict[int, Step], group: list[Row], base: Optional[int] = None) -> int:
    """What to add to the times of blocks so that they continue those before: the latest of their tracks, of those whose
    steps are the same, if there is one. With the time `base` from which their cluster begins again, that continues them
    too: its first blocks may be lost.
    """
    last = {row.track: row.stamp for row in found[-MANY:]}
    firsts = {row.track: row.stamp for row in reversed(group) if row.track in last}
    if not firsts:
        return -group[0].stamp
    nexts = {track: last[track] + steps[track].usual for track in firsts}
    steady = [track for track in firsts if steps[track].is_steady] or list(firsts)
    shift = max(nexts[track] - firsts[track] for track in steady)
    return shift if base is None else max(shift, min(nexts.values()) - base)


def steps_of(rows: list[Row]) -> dict[int, Step]:
    """The steps between the blocks of each track."""
    steps: dict[int, list[int]] = collections.defaultdict(list)
    last: dict[int, int] = {}
    for row in rows:
        steps[row.track].append(max(0, row.stamp - last.get(row.track, 0)))
        last[row.track] = row.stamp
    found = {track: median(some) for track, some in steps.items()}
    near = {track: sum(abs(step - found[track]) <= 1 for step in some) for track, some in steps.items()}
    return {track: Step(usual, near[track] * 10 >= len(steps[track]) * 7) for track, usual in found.items()}


def ascending(rows: list[Row], most: int) -> list[Row]:
    """The blocks with times that ascend in each track: others are a step after the one before."""
    steps, right = steps_of(rows), right_ones(rows, most)
    found: list[Row] = []
    last: dict[int, int] = {}
    for row in rows:
        if row.place not in right or row.stamp < 0:
            step = steps[row.track].usual
            row = row._replace(stamp=max(0, last.get(row.track, -step) + step))
        last[row.track] = row.stamp
        found.append(row)
    return found


def right_ones(rows: list[Row], most: int) -> set[int]:
    """The places of blocks whose times ascend in their track: as many as possible. Those that are `most` after a
    quarter of them are so by damage.
    """
    found = set()
    for track in {row.track for row in rows}:
        mine = [row for row in rows if row.track == track]
        limit = sorted(row.stamp for row in mine)[len(mine) // 4] + most
        mine = [row for row in mine if row.stamp <= limit]
        found |= {mine[place].place for place in longest([row.stamp for row in mine])}
    return found


def longest(stamps: list[int]) -> set[int]:
    """The places of as many time stamps as possible that ascend."""
    least: list[int] = []
    last: list[int] = []
    before: list[int] = []
    for place, stamp in enumerate(stamps):
        at = bisect.bisect_right(least, stamp)
        before.append(last[at - 1] if at else -1)
        least[at : at + 1], last[at : at + 1] = [stamp], [place]
    found, place = set(), last[-1] if last else -1
    while place >= 0:
        found.add(place)
        place = before[place]
    return found
