"""Which frames are served, before a frame is decoded: from the sizes and causes that `list` reports, and the origins of
frames. No question says the size of a frame yet, nor whether a crop reaches past the picture, so crops are read from
the script here.

A list of runs says it: (count, outcome), for frames one after the other with the same outcome, which is a size (width,
height), or the reply that refuses them, without the word `refused`.
"""

from __future__ import annotations

import bisect
from itertools import accumulate
from typing import TYPE_CHECKING, Iterator, Optional, Union

from ..errors import TooManyRuns
from ..base.lines import nodes_of
from ..media.ivf import KEY, SHOWN
from .listing import LOST
from .origins import runs_of

if TYPE_CHECKING:
    from .session import Session

    # The size of frames that are served, or the reply that refuses them.
    Outcome = Union[tuple[int, int], str, None]

# More runs than this are not listed: splices may double them.
MOST_RUNS = 1 << 21


def of_source(session: Session, source: int) -> list[tuple[int, Outcome]]:
    """The runs of the shown packets of a source."""
    listing = session.edits.contents().listing
    seen, tags, name = listing.look(source), listing.tags, f"source {source} " if source else ""
    runs: list[tuple[int, Outcome]] = []
    outcome: Outcome = None
    count = 0
    for place, (number, cause) in enumerate(zip(seen.stream, seen.causes)):
        before, tag = outcome, tags[number]
        if cause:
            if cause != LOST:
                outcome = f"{name}packet {place} {listing.causes[cause]}"
        elif tag & KEY:
            outcome = listing.pictures[number]
        if outcome != before and count:
            runs.append((count, before))
            count = 0
        count += bool(tag & SHOWN)
    if count:
        runs.append((count, outcome))
    return runs


def trimmed(runs: list[tuple[int, Outcome]], ends: list[int], first: int, count: int) -> Iterator[tuple[int, Outcome]]:
    """The runs of a part of the frames, given the end of each run."""
    place = bisect.bisect_right(ends, first)
    while count > 0:
        taken = min(count, ends[place] - first)
        yield taken, runs[place][1]
        first, count, place = first + taken, count - taken, place + 1


def cropped(outcome: Outcome, nodes: list[list[str]], changed: tuple[int, ...]) -> Outcome:
    """The outcome of a frame that these nodes change."""
    for node in changed:
        word, *numbers = nodes[node - 1]
        if word == "crop" and isinstance(outcome, tuple):
            _, x, y, width, height = map(int, numbers)
            outcome = (width, height) if x + width <= outcome[0] and y + height <= outcome[1] else "CropOutside"
    return outcome


def of_script(session: Session) -> list[tuple[int, Outcome]]:
    """The runs of the frames that are served."""
    script = session.edits.contents().script
    nodes, origins = nodes_of(script), runs_of(session, script)
    sources: dict[int, tuple[list[tuple[int, Outcome]], list[int]]] = {}
    found: list[tuple[int, Outcome]] = []
    for count, source, first, changed in origins:
        if source not in sources:
            runs = of_source(session, source)
            sources[source] = (runs, list(accumulate(length for length, _ in runs)))
        found += [
            (length, cropped(outcome, nodes, changed)) for length, outcome in trimmed(*sources[source], first, count)
        ]
        if len(found) > MOST_RUNS:
            raise TooManyRuns
    return found


class Outcomes:
    """The outcomes of all frames, for finding that of one of them."""

    def __init__(self, session: Session) -> None:
        with session.turn():
            self.runs = of_script(session)
        self.ends: list[int] = []
        end = 0
        for count, _ in self.runs:
            end += count
            self.ends.append(end)
        self.count = end
        # The first frame that is served fixes the size.
        self.size = next((outcome for _, outcome in self.runs if not isinstance(outcome, str)), None)

    def is_served(self, outcome: Outcome) -> bool:
        return outcome == self.size and self.size is not None

    def reply(self, outcome: Outcome) -> str:
        """The reply that refuses a frame of this outcome, in a text of frames of one size."""
        return f"refused {outcome}" if isinstance(outcome, str) else "refused SizeDiffers"

    def first_refused(self) -> Optional[tuple[int, str]]:
        """The first frame that is refused, and its reply; None if all are served."""
        start = 0
        for end, (_, outcome) in zip(self.ends, self.runs):
            if not self.is_served(outcome):
                return start, self.reply(outcome)
            start = end
        return None

    def run_of(self, number: int) -> int:
        """The index of the run that has a frame."""
        low, high = 0, len(self.ends)
        while low < high:
            middle = (low + high) // 2
            low, high = (middle + 1, high) if self.ends[middle] <= number else (low, middle)
        return low

    def of_frame(self, number: int) -> Outcome:
        return self.runs[self.run_of(number)][1]

    def served_before(self, number: int) -> Optional[int]:
        """The last frame before one that is served, or None."""
        for place in range(self.run_of(number) - 1, -1, -1):
            if self.is_served(self.runs[place][1]):
                return self.ends[place] - 1
        return None
