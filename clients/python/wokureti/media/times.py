"""When packets are shown, and for how long: `vp8serve --restamp` has the same notion, and no question reports it
yet.
"""

from __future__ import annotations

import math
import statistics
from array import array
from typing import Iterable, Optional, Sequence

from . import ivf
from .ivf import Head, Rate

NANO = 10**9
# Frames a second that a time base may be the rate of, at most; the rate of a file that has none, as vp8serve writes it;
# and rates that clips have.
MOST_RATE, USUAL = 240, (30, 1)
STANDARD = (
    (24000, 1001),
    (24, 1),
    (25, 1),
    (30000, 1001),
    (30, 1),
    (48, 1),
    (50, 1),
    (60000, 1001),
    (60, 1),
    (120, 1),
    (10, 1),
    (12, 1),
    (15, 1),
    (20, 1),
)
# A step that is rounded is not smaller.
LEAST_ROUNDED = 8
# The greatest time stamp.
MOST = 2**64 - 1


def steps_of(stamps: Iterable[int], tags: Iterable[int]) -> list[int]:
    """The steps between the time stamps of shown packets that go forward."""
    shown = [stamp for stamp, tag in zip(stamps, tags) if tag & ivf.SHOWN]
    return [after - before for before, after in zip(shown, shown[1:]) if after > before]


def median_step(stamps: Iterable[int], tags: Iterable[int]) -> int:
    """The median of these steps, the lower one of two: the time of a frame. 1 if there is none."""
    steps = steps_of(stamps, tags)
    return statistics.median_low(steps) if steps else 1


def rate_of(stamps: Iterable[int], tags: Iterable[int], base: Rate) -> Rate:
    """The frames a second of a file, as a pair, from the time stamps of shown packets: `base` is that of its header,
    which is the rate itself if one tick is a frame, and may be much finer, as 90,000 or 1,000 a second. Stamps that
    were rounded to ticks give their mean step.
    """
    shown = [stamp for stamp, tag in zip(stamps, tags) if tag & ivf.SHOWN]
    steps = [after - before for before, after in zip(shown, shown[1:]) if after > before]
    if not steps:
        return base if base[0] <= MOST_RATE * base[1] else USUAL
    step = statistics.median_low(steps)
    if step == 1 and base[0] <= MOST_RATE * base[1]:
        return base
    span = shown[-1] - shown[0]
    is_rounded = (
        step >= LEAST_ROUNDED and len(steps) == len(shown) - 1 and 0 < max(abs(one - step) for one in steps) <= 1
    )
    if not is_rounded:
        return reduced(base[0], base[1] * step)
    # The whole span is rounded to a tick too.
    found = base[0] * len(steps) / (base[1] * span)
    near = [rate for rate in STANDARD if abs(rate[0] / rate[1] - found) <= 2 * found / span]
    # Of a short clip several are near: whole rates come first.
    return (
        min(near, key=lambda rate: (rate[1], abs(rate[0] / rate[1] - found)))
        if near
        else reduced(base[0] * len(steps), base[1] * span)
    )


def reduced(rate: int, scale: int) -> Rate:
    common = math.gcd(rate, scale)
    return rate // common, scale // common


def durations(stamps: Sequence[int], tags: Sequence[int], step: int) -> array[int]:
    """The duration of each packet of a file, in its time base: from its time stamp to that of the next shown packet;
    the median step where that is 0, or goes back, or there is none."""
    found = array("Q", bytes(8 * len(stamps)))
    after: Optional[int] = None
    for place in range(len(stamps) - 1, -1, -1):
        stamp = stamps[place]
        found[place] = after - stamp if after is not None and after > stamp else step
        if tags[place] & ivf.SHOWN:
            after = stamp
    return found


def scaled(duration: int, one: Head, other: Head) -> int:
    """A duration in the time base of one head in that of another, rounded down, but at least 1. A head without a rate
    has 30 frames a second.
    """
    (rate, scale), (to_rate, to_scale) = (base_of(head) for head in (one, other))
    if (rate, scale) == (to_rate, to_scale):
        return duration
    return max(1, min(MOST, duration * scale * to_rate // (rate * to_scale)))


def base_of(head: Head) -> Rate:
    """The ticks a second of the time stamps of a file, as a pair."""
    return (head.rate, head.scale) if head.rate and head.scale else (30, 1)


def stamps_of(packets: Iterable[tuple[bool, int, Rate]], to: Rate) -> tuple[array[int], int]:
    """The time stamps of packets in this order in ticks of the time base `to`, and the end of the last one. A packet is
    whether it is shown, its duration and the time base that this counts. As in vp8serve, ticks are summed for each time
    base, and each sum is rounded half up once: the first shown packet has 0, each other shown one this time, or one
    more than the one before, and a hidden one that of the next shown one."""
    found, clock, due = array("Q"), 0, 0
    sums: dict[Rate, int] = {}
    for is_shown, ticks, base in packets:
        found.append(clock)
        if is_shown:
            before = sums.get(base, 0)
            sums[base] = before + ticks
            due += rounded(before + ticks, base, to) - rounded(before, base, to)
            clock = min(MOST, max(due, clock + 1))
    return found, clock


def rounded(ticks: int, base: Rate, to: Rate) -> int:
    """Ticks of one time base in those of another, rounded half up."""
    part = base[0] * to[1]
    return (2 * ticks * base[1] * to[0] + part) // (2 * part)


def nano(stamp: int, head: Head) -> int:
    """A time stamp in nanoseconds."""
    rate, scale = base_of(head)
    return stamp * scale * NANO // rate
