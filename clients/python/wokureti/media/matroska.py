"""Writing WebM and Matroska files (RFC 9559). They are written here, and by no library: ffmpeg 5.1 and Python's av over
it write the blocks of Opus earlier by the delay of its decoder, later versions do not, and so picture and sound would
part by it.

A file has a SeekHead, Info, Tracks and Tags, then Clusters, of which each begins with a key packet of the video where
there is one, and Cues for these."""

from __future__ import annotations

import struct
from typing import IO, Iterable, Iterator, Mapping, Optional, Tuple

from ..base.checks import AnyBytes

# A packet: its time, its track, whether it is a key packet, and its bytes.
Block = Tuple[int, int, bool, AnyBytes]
MS = 10**6
# A cluster has at most so many milliseconds; the times in it have 16 bits.
MOST_CLUSTER = 5000
SEGMENT, SEEK_HEAD, INFO, TRACKS, TAGS, CLUSTER, CUES = (
    "18538067",
    "114d9b74",
    "1549a966",
    "1654ae6b",
    "1254c367",
    "1f43b675",
    "1c53bb6b",
)
CODECS = {"vp8": "V_VP8", "opus": "A_OPUS", "vorbis": "A_VORBIS", "aac": "A_AAC", "mp3": "A_MPEG/L3"}
# What decoders of Opus are given before the first sample after a seek.
PREROLL = 80 * MS


def element(number: str, *content: AnyBytes) -> bytes:
    """An element: its number, the length of its content, and the content, bytes or elements."""
    text = b"".join(content)
    return bytes.fromhex(number) + length_of(len(text)) + text


def length_of(size: int) -> bytes:
    """A length, in as few bytes as it needs: each one more has 7 bits more. All ones would be an unknown length."""
    count = max(1, -(-(size + 1).bit_length() // 7))
    return (1 << 7 * count | size).to_bytes(count, "big")


def unsigned(number: str, value: int) -> bytes:
    return element(number, value.to_bytes(8, "big"))


def text(number: str, value: str) -> bytes:
    return element(number, value.encode("utf-8", "replace"))


def decimal(number: str, value: float) -> bytes:
    return element(number, struct.pack(">d", value))


def head(kind: str) -> bytes:
    names = [
        unsigned("4286", 1),
        unsigned("42f7", 1),
        unsigned("42f2", 4),
        unsigned("42f3", 8),
        text("4282", kind),
        unsigned("4287", 4),
        unsigned("4285", 2),
    ]
    return element("1a45dfa3", *names)


def track(number: int, codec: str, private: bytes, language: str, title: str, *more: bytes) -> bytes:
    """The entry of a track."""
    entry = [
        unsigned("d7", number),
        unsigned("73c5", number),
        unsigned("9c", 0),
        text("86", CODECS[codec]),
        text("22b59c", language),
    ]
    entry += [text("536e", title)] * bool(title) + [element("63a2", private)] * bool(private)
    return element("ae", *entry, *more)


def video(number: int, size: tuple[int, int], step: Optional[int], language: str = "und", title: str = "") -> bytes:
    """The entry of a track of VP8. `step` is the nanoseconds of a frame, or None if the rate varies."""
    sides = element("e0", unsigned("b0", size[0]), unsigned("ba", size[1]))
    return track(
        number, "vp8", b"", language, title, unsigned("83", 1), *([unsigned("23e383", step)] if step else []), sides
    )


def sound(
    number: int,
    codec: str,
    private: bytes,
    rate: int,
    channels: int,
    delay: int,
    language: str = "und",
    title: str = "",
) -> bytes:
    """The entry of a track of sound. `delay` is the nanoseconds that a decoder drops at its beginning."""
    more = [unsigned("56aa", delay)] * bool(delay) + [unsigned("56bb", PREROLL)] * (codec == "opus")
    return track(
        number,
        codec,
        private,
        language,
        title,
        unsigned("83", 2),
        *more,
        element("e1", decimal("b5", rate), unsigned("9f", channels)),
    )


def tags(number: int, names: Mapping[str, str]) -> bytes:
    """The tags of a track, or of the file if the number is 0."""
    target = element("63c0", *([unsigned("63c5", number)] if number else []))
    simple = [element("67c8", text("45a3", name.upper()), text("4487", value)) for name, value in names.items()]
    return element("7373", target, *simple) if simple else b""


def info(title: str, end: int) -> bytes:
    """Facts of the file; `end` is its length in nanoseconds."""
    return element(
        INFO,
        unsigned("2ad7b1", MS),
        decimal("4489", end / MS),
        text("4d80", "wokureti"),
        text("5741", "wokureti"),
        *([text("7ba9", title)] if title else []),
    )


def block(number: int, time: int, is_key: bool, data: AnyBytes) -> bytes:
    """A block of a cluster, `time` milliseconds after its beginning."""
    return element("a3", bytes([0x80 | number]) + struct.pack(">hB", time, 0x80 * is_key), data)


def cluster(start: int, blocks: Iterable[bytes]) -> bytes:
    return element(CLUSTER, unsigned("e7", start), *blocks)


def clusters(blocks: Iterable[Block], has_video: bool = True) -> Iterator[tuple[int, bool, bytes]]:
    """The clusters of blocks: the time of each in milliseconds, whether it begins with a key packet of the video, which
    is track 1, and its text. Without a video a player can begin at each."""
    start, has_key = 0, False
    group: list[bytes] = []
    for time, number, is_key, data in blocks:
        time = (time + MS // 2) // MS
        begins = is_key and number == 1 and has_video
        if group and (begins or time - start > MOST_CLUSTER):
            yield start, has_key, cluster(start, group)
            group = []
        if not group:
            start, has_key = time, begins or not has_video
        group.append(block(number, time - start, is_key, data))
    if group:
        yield start, has_key, cluster(start, group)


def seek_head(places: Mapping[str, int]) -> bytes:
    """Where the other parts are, counted from the first byte of the segment. All numbers have the same length, so it
    can be written again.
    """
    return element(
        SEEK_HEAD,
        *(
            element("4dbb", element("53ab", bytes.fromhex(number)), unsigned("53ac", place))
            for number, place in places.items()
        ),
    )


def cue(time: int, place: int) -> bytes:
    return element("bb", unsigned("b3", time), element("b7", unsigned("f7", 1), unsigned("f1", place)))


def write(
    file: IO[bytes], kind: str, parts: Mapping[str, bytes], blocks: Iterable[Block], has_video: bool = True
) -> None:
    """Writes a file of this kind, `webm` or `matroska`. `parts` are the texts of INFO, TRACKS and TAGS; `blocks` are
    (time, track, whether it is a key packet, bytes), in the order of their times, which are nanoseconds, 0 or more;
    track 1 is the video, if there is one. What cannot seek, as a pipe, gets no index.
    """
    file.write(head(kind))
    file.write(bytes.fromhex(SEGMENT) + b"\x01" + b"\xff" * 7)
    can_seek, room = file.seekable(), len(seek_head(dict.fromkeys((*parts, CUES), 0)))
    start, place = file.tell() if can_seek else 0, room
    cues: list[bytes] = []
    places: dict[str, int] = {}
    if can_seek:
        file.write(bytes(room))
    for number, part in parts.items():
        places[number] = place
        place += file.write(part)
    for time, has_key, part in clusters(blocks, has_video):
        if has_key:
            cues.append(cue(time, place))
        place += file.write(part)
    if not can_seek:
        return
    if cues:
        places[CUES] = place
        place += file.write(element(CUES, *cues))
    found = seek_head(places)
    file.seek(start - 8)
    file.write((1 << 56 | place).to_bytes(8, "big") + found + filling(room - len(found)))
    file.seek(0, 2)


def filling(size: int) -> bytes:
    """An element of so many bytes, 0 or 9 and more, that says nothing."""
    return b"\xec\x01" + (size - 9).to_bytes(7, "big") + bytes(size - 9) if size else b""
