"""WebM and Matroska files that the programs read where they are: what their beginning says of the video, where its
packets are, by vp8list. ffmpeg reads their sound and their tags, when these are needed first."""

from __future__ import annotations

import fractions
import functools
import math
import os
import subprocess
import tempfile
import threading
from array import array
from typing import IO, Iterator, NamedTuple, Optional, Protocol, Sequence, Tuple, Union

from .. import system
from ..base import checks, programs
from ..base.checks import AnyBytes, AnyPath
from ..base.progress import Reading, Watch, of_program
from . import containers, ivf
from .ivf import Rate

MARK = b"\x1a\x45\xdf\xa3"
EBML, ENCODINGS, DURATION = 0x1A45DFA3, 0x6D80, 0x23E383
SEGMENT, INFO, SCALE, TRACKS, ENTRY, CLUSTER = 0x18538067, 0x1549A966, 0x2AD7B1, 0x1654AE6B, 0xAE, 0x1F43B675
# Elements that may be before the first cluster.
AT_FIRST = (EBML, SEGMENT, INFO, TRACKS, 0x114D9B74, 0x1254C367, 0x1C53BB6B, 0x1941A469, 0x1043A770, 0xEC, 0xBF)
# Nanoseconds of the unit of time of most files; bytes of the number and the length of an element, at most.
MS, LONGEST = 10**6, 16
DOC_TYPE, NUMBER, KIND, CODEC, VIDEO, WIDTH, HEIGHT = 0x4282, 0xD7, 0x83, 0x86, 0xE0, 0xB0, 0xBA
SOUND = b"\2"
# Bytes of an element at the beginning that is looked into, and of a list of packets that are read together, at most.
MOST_PART, PIECE = 1 << 24, 1 << 20
# The greatest numerator and denominator of a rate, as ffmpeg has them.
MOST_RATE = 30000
# What vp8list lists of a packet, as the tags of an index.
TAGS = {
    (kind, show): ivf.KEY * (kind == b"key") | ivf.SHOWN * (show == b"shown")
    for kind in (b"-", b"key", b"inter")
    for show in (b"shown", b"hidden")
}
# The indexes of the last files, by what tells one file from another: a session that is started again has the same ones.
MOST_KNOWN = 16
Signature = Tuple[int, int, int, int]
known: dict[Signature, ivf.Index] = {}
knowing = threading.Lock()


Data = Union[bytes, bytearray, memoryview]


class Facts(NamedTuple):
    """What the beginning of a file says: the head of its video, as vp8serve saves it, the nanoseconds of a frame, 0 if
    they are not named, and whether it has sound."""

    head: ivf.Head
    duration: int
    has_sound: bool

    @property
    def rate(self) -> Optional[Rate]:
        """The frames a second that the file names, as a pair, as ffmpeg rounds them, or None."""
        if not self.duration:
            return None
        exact = fractions.Fraction(containers.NANO, self.duration)
        found = exact.limit_denominator(max(1, min(MOST_RATE, math.floor(MOST_RATE / exact))))
        return (found.numerator, found.denominator) if found else None

    def served(self, step: int) -> Rate:
        """The frames a second that vp8serve writes before the frames, if `step` is the median step of the time stamps:
        the first of these with 32 bits.
        """
        head, found = self.head, [fractions.Fraction(containers.NANO, self.duration)] if self.duration else []
        found += [fractions.Fraction(head.rate, head.scale * step), fractions.Fraction(head.rate, head.scale)]
        return next((one.numerator, one.denominator) for one in found if max(one.numerator, one.denominator) < 1 << 32)


# Of a file that begins otherwise, but is read.
PLAIN = Facts(ivf.Head(0, 0, 1000, 1), 0, False)


def is_marked(descriptor: int) -> bool:
    """Whether an open file begins as WebM and Matroska files do."""
    return system.pread(descriptor, len(MARK), 0) == MARK


def is_read(path: AnyPath, program: Optional[str] = None, lister: Optional[str] = None) -> bool:
    """Whether a path is that of a file that the programs read where it is. Of others the libraries that read containers
    say why they cannot be read.
    """
    with open(path, "rb") as file:
        if not is_marked(file.fileno()) or facts_of(file.fileno()) is None:
            return False
    readers = (program or programs.find("vp8serve"), lister or programs.find("vp8list"))
    return all(programs.says(reader, "WebM") for reader in readers)


def facts_of(descriptor: int) -> Optional[Facts]:
    """What the beginning of a file says; None if it is not one of VP8 whose packets are in it as they are, or is not
    whole.
    """
    parts = parts_of(descriptor)
    if string(first(parts.get(EBML, b"")).get(DOC_TYPE, b"")) not in (b"webm", b"matroska") or TRACKS not in parts:
        return None
    entries = [first(text) for name, text in children(parts[TRACKS]) if name == ENTRY]
    video = next((entry for entry in entries if string(entry.get(CODEC, b"")) == b"V_VP8"), None)
    scale = value_of(first(parts.get(INFO, b"")).get(SCALE), MS)
    if video is None or ENCODINGS in video or not 0 < scale < 1 << 32:
        return None
    sides, common = first(video.get(VIDEO, b"")), math.gcd(containers.NANO, scale)
    width, height = (value_of(sides.get(name), 0) % (1 << 16) for name in (WIDTH, HEIGHT))
    head = ivf.Head(width, height, containers.NANO // common, scale // common)
    return Facts(head, value_of(video.get(DURATION), 0), any(entry.get(KIND) == SOUND for entry in entries))


def parts_of(descriptor: int) -> dict[int, bytes]:
    """The contents of the first elements of each name before the first cluster."""
    place, size = 0, os.fstat(descriptor).st_size
    found: dict[int, bytes] = {}
    while place < size:
        text = system.pread(descriptor, LONGEST, place)
        number = number_at(text, 0, True)
        length = None if number is None else number_at(text, number[1], False)
        if number is None or length is None or number[0] not in AT_FIRST:
            break
        start = place + length[1]
        if number[0] == SEGMENT:
            place = start
            continue
        place = start + length[0]
        if place > size:
            break
        if number[0] in (EBML, INFO, TRACKS) and length[0] <= MOST_PART:
            found.setdefault(number[0], system.pread_all(descriptor, length[0], start))
    return found


def number_at(data: Data, place: int, keeps_mark: bool) -> Optional[tuple[int, int]]:
    """A number of variable length (RFC 8794, section 4), and the place after it; None if there is none."""
    if place >= len(data) or not data[place]:
        return None
    count = 9 - data[place].bit_length()
    end = place + count
    if end > len(data):
        return None
    value = int.from_bytes(data[place:end], "big")
    return (value if keeps_mark else value & (1 << 7 * count) - 1), end


def children(text: Data) -> Iterator[tuple[Optional[int], Data]]:
    """The elements in an element: the number and the content of each; None at bytes that are none."""
    start = 0
    while start < len(text):
        number = number_at(text, start, True)
        size = number and number_at(text, number[1], False)
        if number is None or size is None or size[1] + size[0] > len(text):
            yield None, b""
            return
        start = size[1] + size[0]
        yield number[0], text[size[1] : start]


def string(content: Data) -> bytes:
    """The value of a string, which a byte of 0 may end."""
    return bytes(content).partition(b"\0")[0]


def first(text: Data) -> dict[int, bytes]:
    """The elements in an element, by their names: the first one of each."""
    found: dict[int, bytes] = {}
    for name, content in children(text):
        if name is not None:
            found.setdefault(name, bytes(content))
    return found


def value_of(content: Optional[bytes], missing: int) -> int:
    return int.from_bytes(content, "big") if content else missing


# The packets


def index_of(lister: str, path: str, shared: Sequence[int], signature: Signature, name: str) -> ivf.Index:
    """The index of the packets of a file with this name, as vp8list lists them. `OSError` if it does not."""
    with knowing:
        found = known.get(signature)
    if found is None:
        found = read_index(lister, path, shared, name)
        with knowing:
            known[signature] = found
            while len(known) > MOST_KNOWN:
                del known[next(iter(known))]
    return found


def read_index(lister: str, path: str, shared: Sequence[int], name: str) -> ivf.Index:
    with tempfile.TemporaryFile() as out, tempfile.TemporaryFile() as errors:
        with subprocess.Popen(
            [lister, path], stdin=subprocess.DEVNULL, stdout=out, stderr=errors, pass_fds=shared
        ) as process:
            with programs.ending(process), Reading(of_program(process.pid, [(name, path)], shared)):
                process.wait(containers.MOST_TIME)
        if process.returncode != 0:
            errors.seek(0)
            raise OSError(
                f"vp8list does not list the packets of {path}: {errors.read().decode(errors='replace').strip()[-500:]}"
            )
        out.seek(0)
        return parsed(out)


def parsed(file: IO[bytes]) -> ivf.Index:
    """The index in a list that vp8list wrote."""
    index, names = ivf.Index(), file.readline().rstrip(b"\n").split(b"\t")
    count = len(names)
    stamp, size, kind, show, byte = map(names.index, (b"stamp", b"bytes", b"kind", b"show", b"byte"))
    while piece := file.read(PIECE):
        cells = (piece + file.readline()).replace(b"\n", b"\t").split(b"\t")
        cells.pop()
        index.starts.extend(map(int, cells[byte::count]))
        index.sizes.extend(map(int, cells[size::count]))
        index.stamps.extend(map(int, cells[stamp::count]))
        index.tags.extend(map(TAGS.__getitem__, zip(cells[kind::count], cells[show::count])))
    for place in [place for place, length in enumerate(index.sizes) if not length]:
        index.tags[place] |= ivf.NO_BYTES
    return index


# What else there is


class File(Protocol):
    """What is used of an input of a session."""

    def readable(self) -> tuple[str, tuple[int, ...]]:
        ...

    def records(self) -> ivf.Index:
        ...

    def folder(self) -> str:
        ...

    def check(self) -> None:
        ...


class Around:
    """What a file has besides the packets of its video, as `containers.Media` has it. `item` is the input whose file it
    is, or None if only the beginning of the file matters. ffmpeg or Python's av reads the tags and the sound when they
    are needed first: without these there are none."""

    said = ""

    def __init__(self, path: AnyPath, facts: Facts, item: Optional[File] = None) -> None:
        self.path, self.facts, self.item = path, facts, item
        self.lock = threading.Lock()
        self.found_sounds: Optional[list[containers.Sound]] = None

    @property
    def has_sound(self) -> bool:
        return self.facts.has_sound and containers.can_read()

    @property
    def source(self) -> tuple[AnyPath, tuple[int, ...]]:
        """The path that a program reads, and the descriptors that it has to get for that."""
        return (self.path, ()) if self.item is None else self.item.readable()

    @functools.cached_property
    def probed(self) -> Optional[containers.Probed]:
        """What ffprobe says; None without it."""
        found = containers.probe(*self.source) if containers.has_ffmpeg() else None
        self.check()
        return found

    @functools.cached_property
    def told(self) -> containers.Media:
        """What the file says of itself, and by Python's av the sound."""
        if self.probed is not None:
            video: containers.Probed = next(
                (one for one in self.probed["streams"] if one.get("codec_name") == "vp8"), {}
            )
            return containers.media_by(self.path, self.probed, video, None, [], "")
        if self.item is None or not containers.has_av():
            return containers.Media(self.path, None, {}, {}, "und", [], "")
        found = containers.read_by_av(self.source[0], self.begun, has_video=False)
        self.check()
        return found

    @functools.cached_property
    def rate(self) -> Optional[Rate]:
        """The frames a second: those that the track names, if they are those of the time stamps."""
        index = self.opened().records()
        return containers.rate_of_stamps(self.facts.head, index.stamps, index.tags, self.facts.rate)

    @property
    def tags(self) -> dict[str, str]:
        return self.told.tags

    @property
    def video_tags(self) -> dict[str, str]:
        return self.told.video_tags

    @property
    def language(self) -> str:
        return self.told.language

    @property
    def begun(self) -> str:
        """How the names of files with sound begin, in the folder of the input."""
        return os.path.join(self.opened().folder(), "sound")

    @property
    def sounds(self) -> list[containers.Sound]:
        """The tracks of sound, read once. Other threads that need them wait."""
        with self.lock:
            if self.found_sounds is None:
                self.found_sounds = self.copied() if self.has_sound else []
            return self.found_sounds

    def copied(self) -> list[containers.Sound]:
        """The tracks of sound."""
        if self.probed is None:
            return self.told.sounds
        path, shared = self.source
        found = containers.copy_tracks(path, self.probed["streams"], [], self.begun, shared=shared)[0]
        self.check()
        return found

    def opened(self) -> File:
        """The input. Only of one the packets and the sound are read."""
        assert self.item is not None
        return self.item

    def check(self) -> None:
        if self.item is not None:
            self.item.check()


# What a container has, or had, besides the packets of the video.
AnyMedia = Union[containers.Media, Around]


def media_of(path: AnyPath) -> Optional[AnyMedia]:
    """What the container had in which a stream is, or was; None of an IVF file."""
    found = containers.media_of(path)
    if found is None and os.path.isfile(path):
        with open(path, "rb") as file:
            facts = facts_of(file.fileno()) if is_marked(file.fileno()) else None
        return None if facts is None else Around(path, facts)
    return found
