"""Where the frames of a script come from, as `origins` reports it: runs of frames that follow each other in a
source.
"""

from __future__ import annotations

import re
from typing import TYPE_CHECKING, Iterable, Iterator, NamedTuple, Optional

if TYPE_CHECKING:
    from .session import Session

# Frames that are asked for at a time.
PAGE = 4096
# What is used of an object of `origins`.
ORIGIN = re.compile(r'"source":(\d+),"source_frame":(\d+),"packet":\d+,"changed":\[([\d,]*)\]}')


class Run(NamedTuple):
    """So many frames, from a frame of a source on, and the numbers of the nodes that change their samples."""

    count: int  # type: ignore[assignment]  # It is not the method of a tuple.
    source: int
    first: int
    changed: tuple[int, ...]


def runs_of(session: Session, script: Optional[str] = None, end: Optional[int] = None) -> list[Run]:
    """The frames that the script serves now, as runs. The script and the number of frames are asked for if they are not
    given. Without a script the frames are those of source 0, and nothing is asked for them."""
    script = session.edits.contents().script if script is None else script
    end = session.count().frames if end is None else end
    if script == "-":
        return [Run(end, 0, 0, ())] if end else []
    found: list[Run] = []
    first = 0
    while first < end:
        reply = session.ask(f"origins {first} {min(PAGE, end - first)}")
        for run in runs_in(ORIGIN.findall(reply)):
            last = found[-1] if found else None
            if last is not None and (last.source, last.first + last.count, last.changed) == run[1:]:
                found[-1] = last._replace(count=last.count + run.count)
            else:
                found.append(run)
        first += PAGE
    return found


def runs_in(origins: Iterable[tuple[str, str, str]]) -> Iterator[Run]:
    """The runs of frames, for each of which its source, its frame there and the nodes that change it are given as
    texts.
    """
    source: Optional[str] = None
    start, following, changed = 0, -1, ""
    for one, frame, nodes in origins:
        place = int(frame)
        if place != following or one != source or nodes != changed:
            if source is not None:
                yield Run(following - start, int(source), start, nodes_of_text(changed))
            source, start, changed = one, place, nodes
        following = place + 1
    if source is not None:
        yield Run(following - start, int(source), start, nodes_of_text(changed))


def nodes_of_text(text: str) -> tuple[int, ...]:
    return tuple(map(int, text.split(","))) if text else ()


def joined(runs: Iterable[Run]) -> list[tuple[int, int, int]]:
    """Runs that follow each other in a source as one, whatever changes their samples: triples of a count, a source and
    its frame.
    """
    found: list[tuple[int, int, int]] = []
    for count, source, first, _ in runs:
        if found and found[-1][1] == source and sum(found[-1][::2]) == first:
            found[-1] = (found[-1][0] + count, source, found[-1][2])
        else:
            found.append((count, source, first))
    return found


def first_change(runs: Iterable[Run]) -> Optional[int]:
    """The number of the first node that changes samples of a frame, or None."""
    return min((run.changed[0] for run in runs if run.changed), default=None)
