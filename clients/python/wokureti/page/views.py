"""The packets of one revision. A view is made after each edit and never changes, so that requests do not wait for the
program; only the frames of a script are asked for when they are needed first. A page draws the packets itself: it is
told once which there are, and then what is new."""

from __future__ import annotations

import base64
import collections
import itertools
import threading
from array import array
from typing import Callable, Iterable, Optional, TypeVar, Union

from ..base.lines import nodes_of
from ..media.ivf import KEY, SHOWN, Rate
from ..session.contents import Contents
from ..session.listing import common
from ..session.origins import Run, first_change, joined
from ..session.session import Session
from ..tools import paces

Items = TypeVar("Items", "array[int]", bytes)
# Views of which a page may have the last one, at most.
MOST_VIEWS = 8
# Of an edit, at most so many characters are shown.
MOST_TEXT = 200
# The edits that are shown: the last ones.
MOST_EDITS = 500
# The nodes that may change samples.
CHANGING = ("crop", "fade")
# What is said of each value of tags.
KEY_OF, SHOWN_OF = (bytes(map(say, range(256))) for say in (KEY.__and__, lambda tags: bool(tags & SHOWN)))


def splice(old: Items, new: Items) -> tuple[int, int, Items]:
    """What makes an array another one: at an index so many items go, and these come."""
    if old == new:
        return len(old), 0, new[:0]
    first = common(old, new)
    end = common(old[first:], new[first:], -1)
    return first, len(old) - first - end, new[first : len(new) - end]


def as_text(items: Union[array[int], bytes, bytearray]) -> str:
    return base64.b64encode(bytes(items)).decode()


class View:
    """The stream at a revision. `served` returns the frames that the script serves at this revision, as runs."""

    COUNT = itertools.count(1)

    def __init__(
        self,
        revision: int,
        contents: Contents,
        session: Session,
        before: Optional[View],
        served: Callable[[View], list[Run]],
    ) -> None:
        self.revision, self.contents, self.served = revision, contents, served
        self.name = f"{contents.name}-{next(self.COUNT)}"
        self.lock, self.is_listed = threading.RLock(), contents.listing.is_whole
        # Of each source the packets as numbers, the causes against them if there are some, and how many of them are
        # shown.
        self.streams: list[array[int]] = []
        self.causes: list[bytes] = []
        self.shown: list[int] = []
        self.found_keys: dict[int, bytes] = {}
        self.found_runs: Optional[tuple[list[Run], list[tuple[int, int, int]]]] = None
        self.found_times: Optional[tuple[Optional[list[int]]]] = None
        for source, stream in enumerate(contents.streams):
            old = before.streams[source] if before is not None and source < len(before.streams) else array("I")
            first, removed, added = splice(old, stream)
            self.streams.append(array("I", stream) if removed or added else old)
            gone = self.count_shown(old[first : first + removed])
            self.shown.append(
                (before.shown[source] if before is not None and old else 0) - gone + self.count_shown(added)
            )
            causes = contents.listing.look(source).causes if self.is_listed else b""
            self.causes.append(b"" if causes.count(0) == len(causes) else bytes(causes))
        self.script: str
        self.frames: int
        if before is not None and before.revision == revision:
            self.script, self.frames = before.script, before.frames
        else:
            self.script, self.frames = contents.script, session.count().frames
        self.source = contents.current
        edits = session.edits
        self.edits_before = max(0, len(edits.entries) - MOST_EDITS)
        self.edits = [(entry.line[:MOST_TEXT], entry.step, entry.title) for entry in edits.entries[-MOST_EDITS:]]
        self.undone = [line[:MOST_TEXT] for line in edits.undone[:MOST_EDITS]]

    def tags(self, numbers: Iterable[int]) -> bytes:
        return bytes(map(self.contents.listing.tags.__getitem__, numbers))

    def count_shown(self, numbers: Iterable[int]) -> int:
        return self.tags(numbers).translate(SHOWN_OF).count(1)

    def keys(self, source: int) -> bytes:
        """For each packet of a source whether it has a key tag."""
        with self.lock:
            if source not in self.found_keys:
                self.found_keys[source] = self.tags(self.streams[source]).translate(KEY_OF)
            return self.found_keys[source]

    def told(self, base: Optional[View]) -> dict[str, object]:
        """What a page is told of the packets: what is new since a view, or else which files there are, and what is new
        since these.
        """
        listing = self.contents.listing
        sources: list[dict[str, tuple[int, int, str]]] = []
        made: set[int] = set()
        counts = [len(item.records()) for item in self.contents.inputs.all]
        for source, stream in enumerate(self.streams):
            start = self.contents.bases[source]
            first, removed, added = splice(
                base.streams[source] if base else array("I", range(start, start + counts[source])), stream
            )
            refused = splice(base.causes[source] if base else b"", self.causes[source])
            sources.append(
                {"numbers": (first, removed, as_text(added)), "refused": (*refused[:2], as_text(refused[2]))}
            )
            if self.contents.made:
                made.update(number for number in added if number >= self.contents.of_files)
        facts = [
            (number, listing.sizes[number], listing.tags[number], self.contents.is_forged(number))
            for number in sorted(made)
        ]
        files = None
        if base is None:
            count = self.contents.of_files
            files = {"counts": counts, "sizes": as_text(listing.sizes[:count]), "tags": as_text(listing.tags[:count])}
        return {
            "name": self.name,
            "base": base and base.name,
            "contents": self.contents.name,
            "files": files,
            "made": facts,
            "sources": sources,
        }

    def runs(self) -> tuple[list[Run], list[tuple[int, int, int]]]:
        """The frames that are served, as runs with the nodes that change them, and the same as triples."""
        if self.found_runs is None:
            # Nothing is locked meanwhile: who has the session may ask the view.
            runs = [Run(self.frames, 0, 0, ())] * (self.frames > 0) if self.script == "-" else self.served(self)
            self.found_runs = (runs, joined(runs))
        return self.found_runs

    def changing(self) -> Optional[tuple[int, str]]:
        """The number and the text of the first node that changes samples of a frame, or None."""
        nodes = nodes_of(self.script)
        if not any(words[0] in CHANGING for words in nodes):
            return None
        node = first_change(self.runs()[0])
        return None if node is None else (node, " ".join(nodes[node - 1]))

    @property
    def rate(self) -> Rate:
        return self.contents.rate

    def times(self) -> Optional[list[int]]:
        """The milliseconds at which each frame begins, if source 0 was in a container and its rate varies, else
        None.
        """
        if self.found_times is None:
            found = None
            if self.contents.inputs.all[0].media is not None:
                starts = paces.begins(self.contents, self.streams, self.runs()[1])
                if paces.drift(starts, self.rate) >= paces.step_of(self.rate):
                    found = [round(start / 10**6) for start in starts[:-1]]
            self.found_times = (found,)
        return self.found_times[0]


class Views:
    """The last views, so that a page is told what is new since the one that it has."""

    def __init__(self) -> None:
        self.last: collections.deque[View] = collections.deque(maxlen=MOST_VIEWS)
        self.lock = threading.Lock()

    def told(self, view: View, known: str) -> Optional[dict[str, object]]:
        """What a page that knows a view is told of another one. None if nothing is new."""
        with self.lock:
            if view not in self.last:
                self.last.append(view)
            base = next((one for one in self.last if one.name == known and one.contents is view.contents), None)
        return None if base is view else view.told(base)
