"""Streams whose rate varies, as YUV4MPEG2, whose frames all last as long."""

from __future__ import annotations

import bisect
from array import array
from itertools import accumulate
from typing import Callable, Iterable, Optional, Sequence

from ..media import excerpts, times
from ..media.ivf import Rate
from ..session.contents import Contents
from ..session.exports import Frames


def begins(
    contents: Contents,
    streams: Optional[Iterable[Sequence[int]]] = None,
    runs: Optional[Sequence[tuple[int, int, int]]] = None,
) -> list[int]:
    """The time of each frame that is served, in nanoseconds, and the end of the last one."""
    return list(
        accumulate(
            (span.length for span in excerpts.of_frames(contents, Frames(contents, streams, runs).served())), initial=0
        )
    )


def step_of(rate: Rate) -> float:
    return times.NANO * rate[1] / rate[0]


def drift(starts: Sequence[int], rate: Rate) -> int:
    """By how many nanoseconds a frame is at most away from its time, if frames follow each other at a rate."""
    step = step_of(rate)
    return max(abs(round(place * step) - start) for place, start in enumerate(starts))


def constant(starts: Sequence[int], rate: Rate) -> array[int]:
    """The frames to show at a rate: at each step the one whose time is nearest."""
    step, found = step_of(rate), array("I")
    last = len(starts) - 2
    for turn in range(round(starts[-1] / step)):
        time = turn * step
        place = max(0, min(last, bisect.bisect_right(starts, time) - 1))
        if place < last and starts[place + 1] - time < time - starts[place]:
            place += 1
        found.append(place)
    return found


def warn(contents: Contents, is_constant: bool, say: Callable[[str], None]) -> None:
    """Says by how much the frames of a YUV4MPEG2 file are away from their times, if that is a frame or more; or that
    they are repeated.
    """
    starts = begins(contents)
    away = drift(starts, contents.rate)
    if away < step_of(contents.rate):
        return
    has_sound = any(item.media is not None and item.media.has_sound for item in contents.inputs.all)
    if is_constant:
        say(
            f"the rate of the frames varies: of {len(starts) - 1:,} frames {len(constant(starts, contents.rate)):,} are"
            " made, each at the nearest time"
        )
    else:
        what = "picture and sound part" if has_sound else "frames are away from their times"
        say(
            f"the rate of the frames varies, and a YUV4MPEG2 file has one rate: {what} by up to {away // 10**6:,} ms."
            " --constant repeats or leaves out frames instead"
        )
