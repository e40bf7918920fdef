"""What is written of streams as WebM or Matroska: the times of the packets, and which sound they take with them."""

from __future__ import annotations

import os
from array import array
from typing import IO, Callable, Iterable, Iterator, NamedTuple, Optional, Protocol, Sequence, Union

from .. import system
from ..base import rooms
from ..base.checks import AnyPath
from . import ivf, muxing, times
from .ivf import Rate
from .sounds import Span
from .webm import AnyMedia

# A frame's duration may differ so much from that of the rate: time stamps of WebM are milliseconds.
ROUNDED = 1_100_000


class Made(NamedTuple):
    """The span of a packet that an edit made: only its length is known."""

    length: int


class File(Protocol):
    """What is used of an input of a session."""

    @property
    def head(self) -> ivf.Head:
        ...

    @property
    def media(self) -> Optional[AnyMedia]:
        ...

    def records(self) -> ivf.Index:
        ...

    def durations(self) -> array[int]:
        ...


class Files(Protocol):
    """The inputs of a session."""

    @property
    def all(self) -> Sequence[File]:
        ...


class Packets(Protocol):
    """What is used of `Contents`."""

    @property
    def inputs(self) -> Files:
        ...

    def durations(self, source: int, stream: Sequence[int]) -> array[int]:
        ...

    def is_shown(self, number: int) -> bool:
        ...

    def timed(self, number: int) -> Optional[int]:
        ...

    def where(self, number: int) -> tuple[File, int]:
        ...


def of_numbers(contents: Packets, numbers: Sequence[int], source: int) -> list[Span]:
    """The spans of sound of packets of `Contents`, in the order of a source."""
    lasting = zip(numbers, contents.durations(source, numbers))
    return joined_made(
        spans_of(contents, [(number, duration, source) for number, duration in lasting if contents.is_shown(number)])
    )


def of_frames(contents: Packets, frames: Iterable[tuple[int, int, int]]) -> list[Span]:
    """A span for each of the frames, which are packets with their durations and the sources they are in."""
    return joined_made(spans_of(contents, frames))


def spans_of(contents: Packets, frames: Iterable[tuple[int, int, int]]) -> Iterator[Union[Span, Made]]:
    """For each shown packet the span of its own time in its file, or of one that an edit made."""
    for number, duration, source in frames:
        head, timed = contents.inputs.all[source].head, contents.timed(number)
        if timed is None:
            yield Made(times.nano(duration, head))
            continue
        item, index = contents.where(timed)
        stamp = item.records().stamps[index]
        start = times.nano(stamp, item.head)
        yield Span(item.media, start, times.nano(stamp + item.durations()[index], item.head) - start)


def joined_made(spans: Iterable[Union[Span, Made]]) -> list[Span]:
    """The spans, where packets that edits made keep what is there, if the packets before and after them leave it room,
    and are silent else.
    """
    found: list[Span] = []
    made: list[int] = []
    for span in spans:
        if isinstance(span, Made):
            made.append(span.length)
            continue
        found += filled(found, made, span)
        found.append(span)
        made = []
    return found + [Span(None, 0, length) for length in made]


def filled(before: Sequence[Span], lengths: Sequence[int], after: Span) -> Iterator[Span]:
    """The spans of packets that edits made, between the last span and the one after them."""
    whole, media = sum(lengths), after.media
    if before:
        start = before[-1].start + before[-1].length
        has_room = before[-1].media is media and after.start - start > whole - ROUNDED
    else:
        start = after.start - whole
        has_room = start >= 0
    for length in lengths:
        yield Span(media, start, length) if has_room else Span(None, 0, length)
        start += length


def of_packets(
    packets: Sequence[tuple[int, bytes]], head: ivf.Head, media: Optional[AnyMedia]
) -> tuple[list[Span], list[tuple[int, bytes]]]:
    """The spans of the packets of a file, pairs of a time stamp and bytes, by their time stamps; and the same packets
    with new ones.
    """
    stamps, tags = zip(*((stamp, ivf.tag_of(len(data), data[0] if data else 0)) for stamp, data in packets))
    durations = times.durations(stamps, tags, times.median_step(stamps, tags))
    shown = [bool(one & ivf.SHOWN) for one in tags]
    spans = [
        Span(media, times.nano(stamp, head), times.nano(stamp + duration, head) - times.nano(stamp, head))
        for stamp, duration, is_shown in zip(stamps, durations, shown)
        if is_shown
    ]
    base = times.base_of(head)
    restamped, _ = times.stamps_of(((is_shown, duration, base) for is_shown, duration in zip(shown, durations)), base)
    return spans, [(stamp, data) for stamp, (_, data) in zip(restamped, packets)]


def save(
    path: AnyPath,
    pieces: Iterable[bytes],
    item: File,
    spans: Sequence[Span],
    sound: Optional[str],
    say: Callable[[str], None],
) -> None:
    """Writes the packets of an IVF file, given as its text, to a WebM or Matroska file, with the sound of these spans.
    `item` is the input whose tags and rate it has."""
    with rooms.Room() as room:
        between = os.path.join(room, "packets.ivf")
        with open(between, "wb") as file:
            file.writelines(pieces)
        save_file(path, between, item.media, spans, sound, say)


def save_file(
    path: AnyPath,
    between: AnyPath,
    media: Optional[AnyMedia],
    spans: Sequence[Span],
    sound: Optional[str],
    say: Callable[[str], None],
) -> None:
    """The same of an IVF file with the time stamps that the packets shall have."""
    with open(between, "rb") as file:
        head, index = ivf.read_index(file.fileno())
        shown = sum(bool(tags & ivf.SHOWN) for tags in index.tags)
        if shown != len(spans):
            raise ValueError(
                f"{os.fsdecode(path)} was not written: {shown} of {len(spans)} frames were read of the packets for it"
            )
        end = sum(span.length for span in spans)
        size = first_size(file, index) or (head.width, head.height)
        video = muxing.Video(packets_of(file, head, index), end, size, rate_of(spans, head, index, media), media)
        muxing.write(path, video, spans, sound, say)


def packets_of(file: IO[bytes], head: ivf.Head, index: ivf.Index) -> Iterator[tuple[int, bytes]]:
    """The packets with their times. Those of no bytes are left out: the picture before stays as long."""
    for start, size, stamp in zip(index.starts, index.sizes, index.stamps):
        if size:
            yield times.nano(stamp, head), system.pread_all(file.fileno(), size, start)


def first_size(file: IO[bytes], index: ivf.Index) -> Optional[tuple[int, int]]:
    """The size of the first key packet, or None."""
    keys = (start for start, tags in zip(index.starts, index.tags) if tags & ivf.KEY)
    return next(filter(None, (ivf.key_size(system.pread(file.fileno(), 10, start)) for start in keys)), None)


def rate_of(spans: Sequence[Span], head: ivf.Head, index: ivf.Index, media: Optional[AnyMedia]) -> Optional[Rate]:
    """The rate of the frames, or None if they do not have one."""
    stamps = [times.nano(stamp, head) for stamp, tags in zip(index.stamps, index.tags) if tags & ivf.SHOWN]
    steps = sorted(after - before for before, after in zip(stamps, stamps[1:]))
    if not steps:
        return media.rate if media is not None else None
    rate = media.rate if media is not None and media.rate is not None else (times.NANO, steps[len(steps) // 2])
    return rate if is_constant(steps, rate) else None


def is_constant(steps: Sequence[int], rate: Rate) -> bool:
    """Whether all steps between frames, in nanoseconds, are those of a rate."""
    step = times.NANO * rate[1] / rate[0]
    return all(abs(one - step) <= ROUNDED for one in (min(steps, default=step), max(steps, default=step)))
