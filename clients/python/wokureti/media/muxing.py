"""WebM and Matroska files of packets, with the sound of the recordings that they are from."""

from __future__ import annotations

import heapq
import os
from typing import TYPE_CHECKING, Callable, Iterable, Iterator, Mapping, NamedTuple, Optional, Sequence

from ..base import files, rooms
from ..base.checks import AnyBytes, AnyPath
from . import ivf, matroska, sounds
from .ivf import Rate

if TYPE_CHECKING:
    from .webm import AnyMedia

NANO = 10**9
FORMATS = {".webm": "webm", ".mkv": "matroska"}
# Files of video that have no packets of VP8 here.
OTHERS = {
    ".mp4",
    ".m4v",
    ".mov",
    ".avi",
    ".ogv",
    ".ogg",
    ".ts",
    ".flv",
    ".mpg",
    ".mpeg",
    ".wmv",
    ".y4m",
    ".yuv",
    ".gif",
}


class Video(NamedTuple):
    """The packets of a video, (time, bytes) in order, the end of the last one, both in nanoseconds; its size, that of
    the first key packet; its rate as a pair, or None if it varies; and what the container had from which it was taken,
    or None."""

    packets: Iterable[tuple[int, AnyBytes]]
    end: int
    size: tuple[int, int]
    rate: Optional[Rate]
    media: Optional[AnyMedia]


def ending_of(path: AnyPath) -> Optional[str]:
    """.webm or .mkv, if a path ends so, or None."""
    ending = os.path.splitext(os.fsdecode(path))[1].lower()
    return ending if ending in FORMATS else None


def check_ending(path: AnyPath) -> None:
    """`ValueError` if packets would be written to a file that is called as one of another form, or to standard
    output.
    """
    if os.fsdecode(path) == "-":
        raise ValueError("the output is a file: name it")
    ending = os.path.splitext(os.fsdecode(path))[1].lower()
    if ending in OTHERS:
        raise ValueError(
            f"{os.fsdecode(path)}: no {ending} file is written. Name it .webm or .mkv, with the sound, or .ivf"
        )


def ending_for(media: Optional[AnyMedia]) -> str:
    """The ending of a file that is written of a stream, of which this was read from its container: what it had, or .mkv
    for what is not written here.
    """
    if media is None:
        return ".ivf"
    ending = os.path.splitext(os.fsdecode(media.path))[1].lower()
    return ".webm" if ending in (".webm", ".spooled", "") else ".mkv"


def write(
    path: AnyPath, video: Video, spans: Sequence[sounds.Span], mode: Optional[str], say: Callable[[str], None]
) -> None:
    """Writes a WebM or Matroska file, whole or not at all. `spans` are those of the sound, and `mode` says what is done
    with it (`sounds.outputs`).
    """
    ending = ending_of(path)
    assert ending is not None
    with rooms.Room() as room:
        tracks = sounds.outputs(spans, ending, mode, say, room)
        with files.whole(path) as file:
            matroska.write(file, FORMATS[ending], parts_of(video, tracks), blocks_of(video, tracks))


def write_sound(path: AnyPath, spans: Sequence[sounds.Span]) -> None:
    """Writes the first track of sound of spans as a WebM file without a picture, for a player beside the pictures."""
    with rooms.Room() as room:
        tracks = sounds.outputs(spans, ".webm", None, lambda text: None, room)
        track = tracks[0] if tracks else None
        entries = (
            []
            if track is None
            else [matroska.sound(1, track.codec, track.private, track.rate, track.channels, track.delay)]
        )
        parts = {
            matroska.INFO: matroska.info("", sum(span.length for span in spans)),
            matroska.TRACKS: matroska.element(matroska.TRACKS, *entries),
        }
        with files.whole(path) as file:
            matroska.write(file, "webm", parts, () if track is None else sound_blocks(1, track), has_video=False)


def parts_of(video: Video, tracks: Iterable[sounds.Output]) -> dict[str, bytes]:
    """The facts of a file, of its tracks, and their tags."""
    media = video.media
    step = round(NANO * video.rate[1] / video.rate[0]) if video.rate else None
    titles = media.tags if media is not None else {}
    entries = [
        matroska.video(
            1, video.size, step, *((media.language, media.video_tags.get("title", "")) if media is not None else ())
        )
    ]
    tags = [
        matroska.tags(0, without_title(titles)),
        matroska.tags(1, without_title(media.video_tags) if media is not None else {}),
    ]
    for number, track in enumerate(tracks, 2):
        entries.append(
            matroska.sound(
                number,
                track.codec,
                track.private,
                track.rate,
                track.channels,
                track.delay,
                track.language,
                track.tags.get("title", ""),
            )
        )
        tags.append(matroska.tags(number, without_title(track.tags)))
    parts = {
        matroska.INFO: matroska.info(titles.get("title", ""), video.end),
        matroska.TRACKS: matroska.element(matroska.TRACKS, *entries),
    }
    return {**parts, **({matroska.TAGS: matroska.element(matroska.TAGS, *tags)} if any(tags) else {})}


def blocks_of(video: Video, tracks: Iterable[sounds.Output]) -> Iterable[matroska.Block]:
    """All packets in the order of their times."""
    blocks: list[Iterator[matroska.Block]] = [((time, 1, ivf.is_key(data), data) for time, data in video.packets)]
    blocks += [sound_blocks(number, track) for number, track in enumerate(tracks, 2)]
    return heapq.merge(*blocks, key=lambda block: block[0])


def sound_blocks(number: int, track: sounds.Output) -> Iterator[matroska.Block]:
    for time, data in track.packets:
        yield time + track.delay, number, True, data


def without_title(tags: Mapping[str, str]) -> dict[str, str]:
    return {name: value for name, value in tags.items() if name != "title"}
