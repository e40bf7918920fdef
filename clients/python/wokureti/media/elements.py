"""The damage of WebM and Matroska files, and the packets of damaged ones, as vp8list reads them.

vp8list reads what follows the beginning of a file, and continues after damage. So it gets the file with another
beginning: with one that lists no track of the file as VP8 it says what is damaged without decoding anything, and with
one that lists a track of sound as VP8 it lists the blocks of that one."""

from __future__ import annotations

import collections
import contextlib
import io
import json
import os
import re
import subprocess
import tempfile
from typing import IO, Any, Dict, Iterable, Iterator, List, NamedTuple, Optional, Tuple

from ..base import programs
from ..base.progress import Watch
from . import containers, ivf, matroska, opus, webm
from .clusters import Row, timed
from .webm import Data

# The name of a track's entry; the number that is of no track of a file.
ENTRY, NO_TRACK = "ae", 127
# The bits of a block that say that it has several packets; the one of a key packet, and of a number of one byte.
LACING, KEY = 6, 0x80
# A track whose entry is lost has more blocks than this part of all: fewer are made so by damage.
LEAST_PART = 50
# The longest file that vp8list reads.
MOST_BYTES = 1 << 30
# The longest time in milliseconds after a quarter of the blocks: a later one was made so by damage.
MOST_LEAP = 7 * 24 * 3600 * 1000
# The names of a track's language and title; the nanoseconds of a frame, at most; the name of a codec.
LANGUAGE, TITLE, MOST_STEP = 0x22B59C, 0x536E, 10**10
CODEC = re.compile(rb"[AVSB]_[A-Z0-9_/.]+")
# The header of Opus where that of the file is lost, for one channel and for two.
OPUS_HEADS = tuple(
    b"OpusHead\x01" + bytes([count]) + (312).to_bytes(2, "little") + (48000).to_bytes(4, "little") + bytes(3)
    for count in (1, 2)
)


# Of each track that a file names what its entry says and the entry; of each block the track and where its flags are.
Entries = Dict[int, Tuple[Dict[int, bytes], bytes]]
Flags = List[Tuple[int, int]]


def beginning(entries: Iterable[bytes], scale: int = webm.MS) -> bytes:
    """The beginning of a file with these tracks, and a Segment of unknown length."""
    segment = bytes.fromhex(matroska.SEGMENT) + b"\x01" + b"\xff" * 7
    info = matroska.element(matroska.INFO, matroska.unsigned("2ad7b1", scale))
    return matroska.head("matroska") + segment + info + matroska.element(matroska.TRACKS, *entries)


def entry(number: int, codec: str) -> bytes:
    """The entry of a track, as far as vp8list needs it."""
    return matroska.element(ENTRY, matroska.unsigned("d7", number), matroska.text("86", codec))


# Of a file whose blocks are all of tracks that are listed, and of one of whose tracks none is.
LISTED = beginning([entry(NO_TRACK, "V_VP8"), *(entry(number, "-") for number in range(1, NO_TRACK))])
UNLISTED = beginning([entry(NO_TRACK, "V_VP8")])


class Damage(NamedTuple):
    """The damage of a file of `size` bytes: what is skipped, a first byte and the byte after it each, the first byte of
    an element that the end of the file cuts, or None, and whether an element says that the file is longer."""

    size: int
    skipped: list[tuple[int, int]]
    cut: Optional[int]
    is_short: bool

    @property
    def gaps(self) -> list[tuple[int, int]]:
        """Bytes in which no element is; none at the end of a file that ends between two elements."""
        end = [(self.cut, self.size)] if self.cut is not None else [] if self.skipped else [(self.size, self.size)]
        return [*self.skipped, *end]

    def sentences(self, name: str) -> list[str]:
        """Sentences about it."""
        # The last bytes may be too few for the head of an element.
        inside = [gap for gap in self.skipped if gap[1] < self.size or gap[0] + webm.LONGEST <= self.size]
        if not inside and (self.cut is not None or self.is_short):
            return [f"{name} ends in the middle, after {self.size:,} bytes: the packets that followed are missing"]
        place, count = self.gaps[0][0], sum(end - start for start, end in self.gaps)
        return [f"{name} is damaged at byte {place:,}: {count:,} bytes are skipped, and packets may be missing"]


@contextlib.contextmanager
def fed(process: subprocess.Popen[bytes]) -> Iterator[IO[bytes]]:
    """The pipe from which a program reads. It reads no more of a file that it refuses."""
    assert process.stdin is not None
    try:
        with contextlib.suppress(BrokenPipeError):
            yield process.stdin
    finally:
        with contextlib.suppress(BrokenPipeError):
            process.stdin.close()


def asked(lister: str, start: bytes, file: IO[bytes], words: Iterable[str], watch: Watch) -> IO[bytes]:
    """What vp8list prints of a file after another beginning. `watch` hears how much of it was read."""
    out, size, done = tempfile.TemporaryFile(), file.seek(0, os.SEEK_END), 0
    file.seek(0)
    with tempfile.TemporaryFile() as errors:
        with subprocess.Popen([lister, "-", *words], stdin=subprocess.PIPE, stdout=out, stderr=errors) as process:
            with programs.ending(process):
                with fed(process) as pipe:
                    pipe.write(start)
                    while piece := file.read(containers.PIECE):
                        pipe.write(piece)
                        done += len(piece)
                        watch.part(done, size)
                process.wait(containers.MOST_TIME)
        if process.returncode not in (0, 1):
            errors.seek(0)
            raise OSError(f"vp8list does not read it: {errors.read().decode(errors='replace').strip()[-500:]}")
    out.seek(0)
    return out


def findings(lister: str, start: bytes, file: IO[bytes], watch: Watch) -> Iterator[dict[str, Any]]:
    """What `vp8list --check` finds besides the packets, with bytes of the file."""
    with asked(lister, start, file, ("--check", "--json"), watch) as lines:
        for line in lines:
            found = json.loads(line)
            yield {
                name: value - len(start) if name in ("byte", "says", "ends") else value for name, value in found.items()
            }


def damage_in(found: Iterable[dict[str, Any]], size: int) -> Optional[Damage]:
    """The damage of a file of so many bytes among what was found; None if elements lead from one to the next up to its
    end.
    """
    skipped, cut, is_short = [], None, False
    for one in found:
        if one["kind"] == "skipped":
            skipped.append((one["byte"], one["byte"] + one["bytes"]))
        elif one["kind"] == "cut_element":
            cut = one["byte"]
        elif one["kind"] == "wrong_length":
            is_short = is_short or one["says"] > size
    return Damage(size, skipped, cut, is_short) if skipped or cut is not None or is_short else None


def damage(file: IO[bytes], lister: Optional[str] = None, watch: Watch = containers.NOBODY) -> Optional[Damage]:
    """The damage of an open file. An earlier vp8list knows none."""
    lister, size = lister or programs.find("vp8list"), file.seek(0, os.SEEK_END)
    start = LISTED if size + len(LISTED) <= MOST_BYTES else b""
    return damage_in(findings(lister, start, file, watch) if programs.says(lister, "WebM") else (), size)


def damage_of(lister: str, path: str, name: str, watch: Watch = containers.NOBODY) -> list[str]:
    """Sentences about the damage of a file."""
    with open(path, "rb") as file:
        found = damage(file, lister, watch)
    return [] if found is None else found.sentences(name)


# Packets


class Found(NamedTuple):
    """What is in a damaged file: its damage, the entries of its tracks, the track of its video, the nanoseconds of its
    unit of time, the blocks of its tracks in their order, the size of the first key packet, and whether the file names
    its tracks.
    """

    damage: Damage
    entries: dict[int, bytes]
    video: int
    scale: int
    rows: list[Row]
    size: tuple[int, int]
    has_tracks: bool

    def without_sound(self) -> Found:
        """The same with no track but that of the video."""
        return self._replace(
            entries={self.video: self.entries[self.video]}, rows=[row for row in self.rows if row.track == self.video]
        )

    def write(self, data: bytes, path: str) -> None:
        """Writes a file that is whole: each block is in a cluster of its own."""
        with open(path, "wb") as file:
            file.write(beginning(self.entries.values(), self.scale))
            for row in self.rows:
                head = bytes([KEY | row.track, 0, 0, KEY | data[row.place - 1]])
                block = matroska.element("a3", head, data[row.place : row.place + row.size])
                file.write(matroska.cluster(row.stamp, [block]))


def find(data: bytes, watch: Watch = containers.NOBODY) -> Optional[Found]:
    """What is in a file; None if no packet of VP8 is."""
    lister = programs.find("vp8list")
    if not programs.says(lister, "WebM"):
        return None
    found, flags = [], []
    for one in findings(lister, UNLISTED, io.BytesIO(data), watch):
        if one["kind"] == "unlisted_block":
            flags += flags_of(data, one["byte"], one["track"])
        else:
            found.append(one)
    own = entries_of(data)
    video, size = video_of(data, own, flags)
    if video is None:
        return None
    entries = tracks_of(data, own, video, size, [one for one in flags if one[0] != video])
    whole, scale = bytearray(data), scale_of(data)
    for _, place in flags:
        whole[place] &= ~LACING
    rows = sorted(row for track in entries for row in rows_of(lister, whole, track))
    gaps = damage_in(found, len(data)) or Damage(len(data), [], None, False)
    breaks = [one["byte"] for one in found if one["kind"] in ("skipped", "cluster_without_time")]
    rows = timed(data, rows, sorted(breaks), MOST_LEAP * webm.MS // scale)
    return Found(gaps, entries, video, scale, rows, size, bool(own))


def rows_of(lister: str, data: Data, track: int) -> list[Row]:
    """The blocks of a track that have one packet."""
    start = beginning([entry(track, "V_VP8")])
    with asked(lister, start, io.BytesIO(data), (), containers.NOBODY) as lines:
        index = webm.parsed(lines)
    return [
        Row(place - len(start), stamp, size, track)
        for place, stamp, size in zip(index.starts, index.stamps, index.sizes)
    ]


def video_of(data: bytes, own: Entries, flags: Flags) -> tuple[Optional[int], tuple[int, int]]:
    """The track of the video, and the size of its first key packet: the one that the file names, or the one with most
    key packets of VP8. None if there is none.
    """
    keys: dict[int, list[tuple[int, int]]] = collections.defaultdict(list)
    for track, place in flags:
        size = ivf.key_size(data[place + 1 : place + 11])
        if size is not None:
            keys[track].append(size)
    named = next((number for number, (facts, _) in own.items() if codec_of(facts) == b"V_VP8"), None)
    if named in keys or (not keys and named in dict(flags)):
        return named, keys.get(named or 0, [(0, 0)])[0]
    most = max(keys, key=lambda track: len(keys[track]), default=None)
    return most, keys[most][0] if most is not None else (0, 0)


def flags_of(data: bytes, place: int, track: int) -> Flags:
    """The track of a block at a place, and where its flags are; nothing if its number has more than a byte."""
    length = webm.number_at(data, place + 1, False)
    is_short = track < NO_TRACK and length is not None and data[length[1]] & KEY
    return [(track, length[1] + 3)] if length is not None and is_short else []


def content_of(data: bytes, name: str) -> Iterator[bytes]:
    """The contents of the elements with a name of four bytes that are whole."""
    mark, place = bytes.fromhex(name), -1
    while (place := data.find(mark, place + 1)) >= 0:
        length = webm.number_at(data, place + 4, False)
        if length is not None and length[1] + length[0] <= len(data):
            yield data[length[1] : length[1] + length[0]]


def scale_of(data: bytes) -> int:
    """The nanoseconds of the unit of time that a file names, or those of most files."""
    for text in content_of(data, matroska.INFO):
        # A SeekHead has the name too.
        scale = webm.value_of(webm.first(text).get(webm.SCALE), 0) if is_whole(text) else 0
        if 0 < scale < 1 << 32:
            return scale
    return webm.MS


def is_whole(text: bytes) -> bool:
    """Whether elements are all that is in an element."""
    return all(name is not None for name, _ in webm.children(text))


def entries_of(data: bytes) -> Entries:
    """The tracks that a file names, by their numbers, as far as their entries are whole: what each says, and its
    text.
    """
    for text in content_of(data, matroska.TRACKS):
        found: Entries = {}
        for name, content in webm.children(text):
            facts = webm.first(content) if name == webm.ENTRY else {}
            number = webm.value_of(facts.get(webm.NUMBER), 0)
            if 0 < number < NO_TRACK and CODEC.fullmatch(codec_of(facts)) and is_whole(content):
                found.setdefault(number, (facts, bytes(content)))
        if found:
            return found
    return {}


def codec_of(facts: dict[int, bytes]) -> bytes:
    """The codec that the entry of a track names."""
    return bytes(webm.string(facts.get(webm.CODEC, b"")))


def tracks_of(data: bytes, own: Entries, video: int, size: tuple[int, int], others: Flags) -> dict[int, bytes]:
    """The entries of the tracks of a file, by their numbers: that of the video, its own ones of sound, and those of
    Opus that are lost, of which each packet says how many channels it has. `others` are the blocks of these."""
    facts = own.get(video, ({}, b""))[0]
    step = webm.value_of(facts.get(webm.DURATION), 0)
    names = [webm.string(facts.get(name, b"")).decode(errors="replace") for name in (LANGUAGE, TITLE)]
    found = {video: matroska.video(video, size, step if 0 < step < MOST_STEP else None, names[0] or "und", names[1])}
    for number, (facts, text) in own.items():
        if number != video and codec_of(facts) != b"V_VP8":
            found[number] = matroska.element(ENTRY, text)
    for track, count in collections.Counter(track for track, _ in others).items():
        packets = [data[place + 1 : place + 3] for one, place in others if one == track and not data[place] & LACING]
        lengths = collections.Counter(map(opus.duration, packets)).most_common(1)
        if track not in found and count * LEAST_PART > len(others) and lengths and is_opus(*lengths[0], len(packets)):
            head = OPUS_HEADS[sum(packet[0] >> 2 & 1 for packet in packets if packet) * 2 > len(packets)]
            found[track] = matroska.sound(track, "opus", head, 48000, head[9], opus.pre_skip(head))
    return found


def is_opus(length: int, count: int, total: int) -> bool:
    """Whether packets are probably those of Opus: so many of all have this length, in nanoseconds."""
    return length > 0 and count * 10 >= total * 8
