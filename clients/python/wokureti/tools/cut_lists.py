"""Lists of cuts as LosslessCut has them, CSV: a line for each part that is kept, with its beginning and its end in
seconds of the player, and a label. What is empty is the beginning or the end of the stream."""

from __future__ import annotations

import csv
import io
import os
from typing import Iterable, Optional, Tuple

from ..errors import Failed
from ..base.checks import AnyPath
from ..media import times
from ..session import exports

# The texts of the beginning and the end of a part.
Pair = Tuple[Optional[str], Optional[str]]
MICRO = 1000
# Bytes of a list, at most.
MOST_BYTES = 1 << 20


def read(path: AnyPath) -> list[Pair]:
    """The parts of a list in a file, pairs of the texts of the beginning and the end, or None."""
    with open(path, encoding="utf-8-sig", errors="replace", newline="") as file:
        return parts_of(file.read(MOST_BYTES), os.fsdecode(path))


def parts_of(text: str, name: str = "the list") -> list[Pair]:
    """The same of the text of a list. `Failed` if a line is none of a list."""
    found: list[Pair] = []
    for number, row in enumerate(csv.reader(io.StringIO(text)), 1):
        if not any(cell.strip() for cell in row):
            continue
        if len(row) < 2:
            raise Failed(
                f"{name}: line {number} has no `,`: a line has a beginning, an end and a label, in seconds, for example"
                " 70.5,842.2,a title"
            )
        pair = [cell.strip() or None for cell in row[:2]]
        for cell in pair:
            try:
                if cell is not None:
                    exports.nanoseconds(cell)
            except Failed:
                form = "a line has a beginning, an end and a label, in seconds, for example 70.5,842.2,a title"
                raise Failed(f"{name}: line {number}: {cell!r} is not a time: {form}") from None
        found.append((pair[0], pair[1]))
    if not found:
        raise Failed(f"{name} has no line with a part")
    return found


def text_of(frames: exports.Frames, runs: Iterable[tuple[int, int, int]]) -> str:
    """The list of runs of frames of source 0, triples of a count, the source and the first frame. Read again, it names
    the same frames.
    """
    head, clock = frames.contents.inputs.all[0].head, 0
    begins: list[int] = []
    for _, duration, _ in frames.shown[0]:
        begins.append(times.nano(clock, head))
        clock += duration
    begins.append(times.nano(clock, head))
    out, delay = io.StringIO(), frames.delay()
    rows = csv.writer(out, lineterminator="\n")
    for count, source, first in runs:
        if source:
            raise Failed(f"the script shows frames of source {source}, and a list of cuts is of one stream")
        # A time inside the first frame, and one that is not after the beginning of the frame at the end.
        start, end = -(-(begins[first] + delay) // MICRO), (begins[first + count] + delay) // MICRO
        rows.writerow([seconds_text(start), seconds_text(end), ""])
    return out.getvalue()


def seconds_text(micro: int) -> str:
    """Microseconds as seconds."""
    return f"{micro // 10**6}.{micro % 10**6:06}"
