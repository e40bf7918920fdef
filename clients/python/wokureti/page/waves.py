"""The sound of a source as a page draws it: its file in pieces of a minute, and at which times of it the frames of the
source are.
"""

from __future__ import annotations

import bisect
import os
from typing import Iterable, Iterator, Optional, Tuple

from ..base import rooms
from ..media import containers, excerpts, muxing, sounds
from ..media.webm import AnyMedia
from ..session.exports import Frames
from .views import View

# The nanoseconds of a piece; by how many a frame may be drawn beside its sound, which is half of what a page tells
# apart.
PIECE, NEAR = 60 * sounds.NANO, 5_000_000
# The bits a second of sound that is coded for a picture.
BITS = 64000


# The number of frames of a run, what has their sound, its start and its length.
Whole = Tuple[int, Optional[AnyMedia], float, float]


def piece_of(media: AnyMedia, number: int) -> bytes:
    """A piece of the first track of sound of a file, as the bytes of a WebM file without a picture; none if no packet
    is there. Packets of Opus are copied, and of another codec ffmpeg codes this minute."""
    if not media.sounds:
        return b""
    track, start = media.sounds[0], number * PIECE
    place = bisect.bisect_left(track.times, start)
    if place == len(track.times) or track.times[place] >= start + PIECE:
        return b""
    length = min(PIECE, track.times[-1] + track.durations[-1] - start)
    with rooms.Room() as room:
        path = os.path.join(room, "piece.webm")
        if track.codec == "opus":
            muxing.write_sound(path, [sounds.Span(media, start, length)])
        else:
            source, shared = media.source
            words = [
                "ffmpeg",
                "-nostdin",
                "-y",
                "-v",
                "error",
                "-seek_timestamp",
                "1",
                "-ss",
                str(start / sounds.NANO),
                "-i",
                f"file:{os.fsdecode(source)}",
            ]
            words += [
                "-t",
                str(length / sounds.NANO),
                "-map",
                f"0:{track.index}",
                "-af",
                "aresample=async=1:first_pts=0",
                "-c:a",
                "libopus",
                "-b:a",
                str(BITS),
                path,
            ]
            containers.run(words, shared=shared)
        with open(path, "rb") as file:
            return file.read()


def runs_of(view: View, source: int) -> list[list[object]]:
    """Where the sound of the frames of a source is: runs of frames, each with their number, the source whose file has
    their sound, or None if they are silent, and in milliseconds when the first one begins there and how long all
    are."""
    contents = view.contents
    sources = {id(item.media): place for place, item in enumerate(contents.inputs.all) if item.media is not None}
    spans = excerpts.of_frames(contents, Frames(contents, view.streams, []).shown[source])
    return [
        [count, sources.get(id(media)), start / 10**6, length / 10**6]
        for count, media, start, length in evened(spans)
    ]


def evened(spans: Iterable[sounds.Span]) -> Iterator[Whole]:
    """Spans of frames as runs of frames that last about as long as each other: each frame of a run begins within NEAR
    of its time. A run is the number of frames, their media, the start and the length of all."""
    run: Optional[Run] = None
    for span in spans:
        after = None if run is None else run.after(span)
        if after is None:
            if run is not None:
                yield run.whole()
            after = Run(span.media, span.start)
            after = after.after(span) or after
        run = after
    if run is not None:
        yield run.whole()


class Run:
    """A run that grows: of the lengths that its frames may have the least and the greatest, and where the last one
    ended.
    """

    def __init__(
        self,
        media: Optional[AnyMedia],
        start: int,
        count: int = 0,
        end: Optional[int] = None,
        lengths: tuple[float, float] = (0, float("inf")),
    ) -> None:
        self.media, self.start, self.count, self.lengths = media, start, count, lengths
        self.end = start if end is None else end

    def after(self, span: sounds.Span) -> Optional[Run]:
        """The run with a frame more, or None if that is another run's."""
        if span.media is not self.media or (self.media is not None and abs(span.start - self.end) > NEAR):
            return None
        end, count = self.end + span.length if self.media is None else span.start + span.length, self.count + 1
        least = max(self.lengths[0], (end - self.start - NEAR) / count)
        most = min(self.lengths[1], (end - self.start + NEAR) / count)
        return Run(self.media, self.start, count, end, (least, most)) if least <= most else None

    def whole(self) -> Whole:
        length = min(max((self.end - self.start) / self.count, self.lengths[0]), self.lengths[1])
        return self.count, self.media, self.start, length * self.count
