"""The sound of frames that were cut out of recordings and joined: for each span of time a part of a track of sound,
packets as they are where that is exact.
"""

from __future__ import annotations

import bisect
import contextlib
import os
from array import array
from typing import IO, TYPE_CHECKING, Callable, Iterable, Iterator, NamedTuple, Optional, Sequence

from ..errors import NoSound
from . import containers, fades, fading, opus, opus_coding
from .containers import Sound

if TYPE_CHECKING:
    from .webm import AnyMedia

NANO = 10**9
MODES = ("copy", "encode", "none")
# The codecs that a file of this ending may have, of those whose packets are copied.
COPIED = {".webm": ("opus", "vorbis"), ".mkv": ("opus", "vorbis", "aac", "mp3")}
# The rate of Opus, and the bits a second of each channel where a track is coded again; bytes of samples at a time.
OPUS_RATE, BITS, PIECE = opus_coding.RATE, 64000, 1 << 20
__all__ = ["MODES", "Output", "Span", "joined", "outputs"]


class Span(NamedTuple):
    """Some time of the output, with the sound of a recording from `start` on, or silence if `media` is None. In
    nanoseconds. `levels` is how loud it is at its beginning and at its end, 0 to 1."""

    media: Optional[AnyMedia]
    start: int
    length: int
    levels: fades.Levels = fades.LEVEL


class Output(NamedTuple):
    """A track of sound that is written: the facts of its header, and its packets as pairs of a time, at which a decoder
    has the packet's first sample, and bytes. It is `delay` before the sample that is heard."""

    codec: str
    private: bytes
    rate: int
    channels: int
    delay: int
    language: str
    tags: dict[str, str]
    packets: Iterable[tuple[int, bytes]]


class How(NamedTuple):
    """How tracks are written: the ending of the file, what is done with sound (MODES, or None), who hears a sentence,
    the folder for files on the way, and what fades.
    """

    ending: str
    mode: Optional[str]
    say: Callable[[str], None]
    room: str
    ramps: list[fades.Ramp]


def joined(spans: Iterable[Span]) -> list[Span]:
    """The spans with those made one that follow each other in a recording, at their full level."""
    found: list[Span] = []
    for span in spans:
        span = span._replace(levels=fades.LEVEL)
        last = found[-1] if found else None
        if (
            last is not None
            and last.media is span.media
            and (span.media is None or last.start + last.length == span.start)
        ):
            found[-1] = last._replace(length=last.length + span.length)
        elif span.length:
            found.append(span)
    return found


def outputs(
    spans: Sequence[Span], ending: str, mode: Optional[str], say: Callable[[str], None], room: str
) -> list[Output]:
    """The tracks of sound of an output with this ending, which have the sound of the spans. `say` is called with a
    sentence if a track is coded again, in the folder `room`. `NoSound` if `mode` is copy and a track cannot be
    copied."""
    how = How(ending, mode, say, room, fades.ramps_of(spans))
    spans = joined(spans)
    recordings = list(dict.fromkeys(id(span.media) for span in spans if span.media is not None and span.media.sounds))
    if mode == "none" or not recordings:
        return []
    medias = {id(span.media): span.media for span in spans if span.media is not None}
    count = max(len(medias[one].sounds) for one in recordings)
    return [output(spans, [medias[one] for one in recordings], number, how) for number in range(count)]


def output(spans: Sequence[Span], medias: Sequence[AnyMedia], number: int, how: How) -> Output:
    """One track."""
    first = next(media.sounds[number] for media in medias if number < len(media.sounds))
    why = None if how.mode == "encode" else obstacle(spans, medias, number, first, how)
    if how.mode == "copy" and why is not None:
        raise NoSound(
            f"sound track {number} cannot be copied: {why}; --sound encode codes it again, and --sound none leaves"
            " it out"
        )
    if how.mode != "encode" and why is None:
        packets, delay = (copied_opus(spans, number, first)) if first.codec == "opus" else copied(spans, number)
        if how.ramps:
            packets = fading.faded(packets, how.ramps, first.channels, how.room)
        return Output(
            first.codec, first.private, first.rate, first.channels, delay, first.language, first.tags, packets
        )
    if how.mode is None:
        how.say(f"sound track {number} is coded again as Opus: {why}")
    return encoded(spans, number, first, how)


def track_of(media: Optional[AnyMedia], number: int) -> Optional[Sound]:
    """A track of a recording, or None."""
    return media.sounds[number] if media is not None and number < len(media.sounds) else None


def obstacle(spans: Sequence[Span], medias: Iterable[AnyMedia], number: int, first: Sound, how: How) -> Optional[str]:
    """Why a track cannot be copied packet by packet, or None. Of a track of Opus that fades the other packets can."""
    if first.codec not in COPIED[how.ending]:
        return f"{first.codec} cannot be copied to {how.ending} here"
    if how.ramps and (first.codec != "opus" or not opus.is_plain(first.private)):
        return (
            f"it fades, and packets of {first.codec if first.codec != 'opus' else 'more than two channels'} are not"
            " coded here"
        )
    for media in medias:
        other = track_of(media, number)
        if other is not None and other[:4] != first[:4]:
            return "the recordings have sound of different codecs, headers, rates or channels"
    has_silence = any(track_of(span.media, number) is None for span in spans)
    if first.codec == "opus":
        return (
            "silence for more than two channels is not known"
            if has_silence and not opus.is_plain(first.private)
            else None
        )
    if len(spans) > 1 or has_silence:
        return f"a packet of {first.codec} needs the one before it, which is another one after a join"
    return None


# Copied


def copied(spans: Sequence[Span], number: int) -> tuple[Iterator[tuple[int, bytes]], int]:
    """The packets of one span, as they are, and no delay."""
    [span] = spans
    track = track_of(span.media, number)
    assert track is not None
    numbers = [
        place
        for place, time in enumerate(track.times)
        if 0 <= time - span.start + track.durations[place] // 2 < span.length
    ]
    return ((max(0, track.times[place] - span.start), data) for place, data in zip(numbers, track.packets(numbers))), 0


def copied_opus(spans: Iterable[Span], number: int, first: Sound) -> tuple[Iterator[tuple[int, bytes]], int]:
    """The packets of Opus of all spans, and the delay of the first one, which begins earlier by as much. Packets follow
    each other without a gap; where a span begins, and where it ends, the packet is the nearest one, so picture and
    sound part by half a packet at most, and each span begins anew.
    """
    delay = opus.pre_skip(first.private)
    return opus_packets(spans, number, first, delay), delay


def opus_packets(spans: Iterable[Span], number: int, first: Sound, delay: int) -> Iterator[tuple[int, bytes]]:
    out, clock = -delay, 0
    with contextlib.ExitStack() as stack:
        for span in spans:
            track = track_of(span.media, number)
            file = None if track is None else stack.enter_context(open(track.path, "rb"))
            end = clock + span.length
            place: Optional[int] = None
            while True:
                place = None if track is None else nearest(track, place, out + span.start - clock)
                data, length = (
                    silent(first) if track is None or file is None or place is None else read_packet(track, file, place)
                )
                if out + length // 2 > end:
                    break
                yield out, data
                out += length
            clock = end


def silent(track: Sound) -> tuple[bytes, int]:
    """A silent packet for a track, and its length."""
    return opus.silence(max(track.durations, default=opus.CELT[-1]), track.channels)


def read_packet(track: Sound, file: IO[bytes], place: int) -> tuple[bytes, int]:
    file.seek(track.starts[place])
    data = file.read(track.sizes[place])
    return data, opus.duration(data) or track.durations[place] or opus.CELT[-1]


def nearest(track: Sound, last: Optional[int], time: int) -> Optional[int]:
    """The packet at a time: the one after the last one, as long as it is about that time; None where the track has
    none.
    """
    times = track.times
    if last is not None and last + 1 < len(times) and abs(times[last + 1] - time) <= length_of(track, last + 1):
        return last + 1
    place = bisect.bisect_left(times, time)
    near = min(
        (one for one in (place - 1, place) if 0 <= one < len(times)),
        key=lambda one: abs(times[one] - time),
        default=None,
    )
    # A millisecond more: to that the times of a file are rounded.
    return near if near is not None and abs(times[near] - time) <= length_of(track, near) // 2 + NANO // 1000 else None


def length_of(track: Sound, place: int) -> int:
    return track.durations[place] or opus.CELT[-1]


# Coded again


def encoded(spans: Iterable[Span], number: int, first: Sound, how: How) -> Output:
    """The samples of all spans, coded as Opus by ffmpeg."""
    pieces = samples(spans, number, first.channels, how.room)
    if how.ramps:
        pieces = quieter(pieces, first.channels, how.ramps)
    track = opus_coding.code(
        pieces, first.channels, ["-b:a", str(BITS * first.channels)], os.path.join(how.room, f"encoded{number}")
    )
    delay = opus.pre_skip(track.private)
    return Output(
        "opus", track.private, track.rate, track.channels, delay, first.language, first.tags, following(track, -delay)
    )


def quieter(pieces: Iterable[bytes], channels: int, ramps: Sequence[fades.Ramp]) -> Iterator[bytes]:
    """Pieces of samples that fade."""
    done = 0
    for piece in pieces:
        part = array("h", piece)
        fades.fade(part, done * NANO // OPUS_RATE, channels, ramps, OPUS_RATE)
        done += len(part) // channels
        yield part.tobytes()


def following(track: Sound, time: int) -> Iterator[tuple[int, bytes]]:
    """The packets of Opus of a track, each after the one before it."""
    for data in track.packets(range(len(track.sizes))):
        yield time, data
        time += opus.duration(data)


def samples(spans: Iterable[Span], number: int, channels: int, room: str) -> Iterator[bytes]:
    """The samples of all spans, of 16 bits, piece by piece."""
    clock, across = 0, 2 * channels
    decoded: dict[str, str] = {}
    for span in spans:
        track, end = track_of(span.media, number), clock + span.length
        left = (end * OPUS_RATE // NANO - clock * OPUS_RATE // NANO) * across
        clock = end
        if track is not None and span.media is not None:
            if track.path not in decoded:
                decoded[track.path] = decode(span.media, track, channels, room)
            with open(decoded[track.path], "rb") as file:
                file.seek(max(0, span.start) * OPUS_RATE // NANO * across)
                while left:
                    piece = file.read(min(left, PIECE // across * across))
                    if not piece:
                        break
                    yield piece
                    left -= len(piece)
        while left:
            piece = bytes(min(left, PIECE // across * across))
            yield piece
            left -= len(piece)


def decode(media: AnyMedia, track: Sound, channels: int, room: str) -> str:
    """A file of the samples of a track, of which the first is at time 0."""
    path = os.path.join(room, f"{os.path.basename(track.path)}.pcm")
    source, shared = media.source
    words = [
        "ffmpeg",
        "-nostdin",
        "-y",
        "-v",
        "error",
        "-copyts",
        "-i",
        f"file:{os.fsdecode(source)}",
        "-map",
        f"0:{track.index}",
    ]
    containers.run(
        [
            *words,
            "-af",
            "aresample=async=1:first_pts=0",
            "-ar",
            str(OPUS_RATE),
            "-ac",
            str(channels),
            "-f",
            "s16le",
            path,
        ],
        shared=shared,
    )
    return path
