"""wokureti compare: where two streams of frames part."""

from __future__ import annotations

import contextlib
import itertools
import json
import math
import os
import shutil
import sys
import urllib.request
from typing import IO, TYPE_CHECKING, Any, Generator, Iterator, Optional, Tuple, Union

from ..errors import Ended, NoBytes, NotIvf, Refused
from ..base import checks, files, programs, rooms
from ..base.checks import AnyBytes, AnyPath
from ..media import facts, ivf, looks, png, webm, y4m
from ..media.y4m import sides
from ..session import convert, records
from ..session.frames import frame_of
from ..session.inputs import Input
from ..session.session import Session

try:
    import numpy
except ImportError:
    numpy = None  # type: ignore[assignment]  # Samples are compared one after the other then.

if TYPE_CHECKING:
    # Arrays of any shape.
    Samples = numpy.ndarray[Any, numpy.dtype[numpy.uint8]]

PLANES = ("Y", "Cb", "Cr")
# Samples of a macroblock each way, in each plane.
BLOCKS = (16, 8, 8)
# How much stronger a difference is in its picture.
GAIN = 8


class Missing:
    """A frame that is refused."""

    def __init__(self, reply: str) -> None:
        self.reply = reply


# The width, height and samples of a frame; and what a stream has in the place of one.
Picture = Tuple[int, int, AnyBytes]
Shown = Union[Picture, Missing]


def of_stream(path: str, tables: Optional[AnyPath] = None) -> Generator[Shown, None, None]:
    """The frames of an IVF file: (width, height, samples), or a `Missing`."""
    session = Session(path, tables=tables, cache=1)
    try:
        count, number = session.count().frames, 0
        while number < count:
            try:
                for picture in session.pictures(range(number, min(number + 4, count))):
                    yield picture
                    number += 1
                continue
            except Refused:
                pass
            try:
                yield session.picture(number)
            except Refused as refused:
                if refused.word == "SizeDiffers":
                    # A program serves frames of one size.
                    session.kill()
                    session = Session(path, tables=tables, cache=1)
                    yield session.picture(number)
                else:
                    yield Missing(refused.reply)
            number += 1
    finally:
        session.kill()


@contextlib.contextmanager
def opened(name: str, folder: str, tables: Optional[AnyPath] = None) -> Iterator[tuple[Iterator[Shown], Optional[str]]]:
    """The frames of an IVF file, a Y4M file, a container, a URL, or of standard input, and the path of the IVF file, if
    it is one.
    """
    path: Optional[str] = None
    source: IO[bytes]
    if name.startswith(("http://", "https://")):
        source = urllib.request.urlopen(name, timeout=60)
    elif name == "-":
        source = sys.stdin.buffer
    else:
        # A pipe is read as it comes.
        path = convert.readable(name, folder, is_checked=False) if os.path.isfile(name) else name
        source = open(path, "rb")
    with contextlib.closing(source) as file:
        head = peek(file)
        ivf_path: Optional[str] = None
        frames: Generator[Shown, None, None]
        if head.startswith(b"YUV4MPEG2"):
            frames = y4m.read_frames(Joined(head, file))
        elif head.startswith(b"DKIF") or (path is not None and os.path.isfile(path) and webm.is_read(path)):
            if path is None or file is sys.stdin.buffer or not os.path.isfile(name):
                # A pipe or a URL is read once, and vp8serve reads files.
                path = os.path.join(folder, f"{len(os.listdir(folder))}.ivf")
                with open(path, "wb") as copy:
                    copy.write(head)
                    shutil.copyfileobj(file, copy, 1 << 20)
                check_head(path, "standard input" if name == "-" else name)
            frames, ivf_path = of_stream(path, tables), path
        elif convert.kind_of(head) is not None:
            copied = convert.new_name(folder, "spooled")
            with open(copied, "xb") as copy:
                copy.write(head)
                shutil.copyfileobj(file, copy, 1 << 20)
            ivf_path = convert.readable(copied, folder)
            frames = of_stream(ivf_path, tables)
        else:
            look = f": it looks like {looks.of(name)[0]}" if os.path.isfile(name) else ""
            raise ValueError(f"{name} is neither an IVF file of VP8 nor a YUV4MPEG2 text{look}")
        with contextlib.closing(frames):
            yield frames, ivf_path


def check_head(path: str, name: str) -> None:
    """`ValueError` if a copy of what is called `name` does not begin as a stream."""
    try:
        with open(path, "rb") as file:
            ivf.parse_head(file.read(ivf.HEAD.size))
    except NotIvf as error:
        raise ValueError(looks.sentence(path, name, error)) from None


def peek(file: IO[bytes]) -> bytes:
    """The first bytes of a file."""
    return y4m.read_exactly(file, 12)


class Joined:
    """A file whose first bytes were read."""

    def __init__(self, head: bytes, file: IO[bytes]) -> None:
        self.head, self.file = head, file

    def readline(self, most: int) -> bytes:
        head, self.head = self.head, b""
        return head + self.file.readline(most - len(head))

    def read(self, size: int) -> bytes:
        return self.file.read(size)


class Plane:
    """How the planes of two frames differ: the number of samples, the first one, the greatest difference, and the sum
    of squares.
    """

    def __init__(self) -> None:
        self.count = self.most = self.squares = self.samples = 0

    def add(self, one: bytes, other: bytes, width: int) -> Optional[int]:
        """Adds two planes, and returns the first place where they differ, or None."""
        self.samples += len(one)
        if one == other:
            return None
        if numpy is not None:
            return self.add_arrays(numpy.frombuffer(one, numpy.uint8), numpy.frombuffer(other, numpy.uint8))
        first = None
        for start in range(0, len(one), width):
            row, against = one[start : start + width], other[start : start + width]
            if row == against:
                continue
            for place, (left, right) in enumerate(zip(row, against), start):
                if left != right:
                    first = place if first is None else first
                    self.count += 1
                    self.most = max(self.most, abs(left - right))
                    self.squares += (left - right) ** 2
        return first

    def add_arrays(self, one: Samples, other: Samples) -> int:
        far = one.astype(numpy.int32) - other
        places = numpy.flatnonzero(far)
        self.count += len(places)
        self.most = max(self.most, int(numpy.abs(far).max()))
        self.squares += int((far.astype(numpy.int64) ** 2).sum())
        return int(places[0])


def psnr(squares: int, samples: int) -> float:
    """Decibels; infinite if nothing differs."""
    return math.inf if not squares else 10 * math.log10(255 * 255 * samples / squares)


def first_column(one: bytes, other: bytes, width: int, side: int) -> int:
    """The column of the first block that differs in rows of samples that differ."""
    columns = (place % width for place in range(len(one)) if one[place] != other[place])
    return min(columns) // side


def first_macroblock(one: Picture, other: Picture) -> Optional[tuple[int, int]]:
    """The column and the row of the first macroblock, in raster order, that differs in two pictures of one size; None
    if none does.
    """
    found: list[tuple[int, int]] = []
    start = 0
    for side, (width, height) in zip(BLOCKS, sides(*one[:2])):
        for row in range(0, height, side):
            begin, end = start + row * width, start + min(row + side, height) * width
            rows = bytes(one[2][begin:end]), bytes(other[2][begin:end])
            if rows[0] != rows[1]:
                found.append((row // side, first_column(*rows, width, side)))
                break
        start += width * height
    if not found:
        return None
    row, column = min(found)
    return column, row


def record_at(path: str, frame: int, macroblock: tuple[int, int], tables: Optional[AnyPath]) -> str:
    """What vp8list says of a macroblock of the packet that a frame of an IVF file shows, as a line."""
    lister, path = programs.find("vp8list"), checks.path(path)
    for number, line in enumerate(facts.run(lister, path, "--json")):
        if json.loads(line)["frame"] == frame:
            break
    else:
        return "no packet shows it"
    try:
        lines = records.of_file(lister, path, "--macroblocks", number, tables)
    except NoBytes:
        return f"packet {number} has no bytes: it shows the last frame again"
    found = map(json.loads, lines)
    record = next(record for record in found if (record["column"], record["row"]) == macroblock)
    return f"packet {number}: {records.words_of(record)}"


class Comparison:
    """Two streams, frame by frame."""

    def __init__(self) -> None:
        self.frames = self.same = 0
        self.counts = [0, 0]
        self.planes = [Plane() for _ in PLANES]
        self.first: Optional[str] = None
        self.pair: Optional[tuple[int, Optional[tuple[Picture, Picture]]]] = None
        # The first macroblock that differs in the first frame that does, and what it is in the streams that are IVF
        # files.
        self.macroblock: Optional[tuple[int, int]] = None
        self.records: list[str] = []
        # Sentences about the files that end in the middle or are damaged.
        self.damage: list[str] = []

    def part(self, number: int, text: str, pair: Optional[tuple[Picture, Picture]] = None) -> None:
        """Two frames differ."""
        if self.first is None:
            self.first, self.pair = f"frame {number}: {text}", (number, pair)

    def add(self, number: int, one: Optional[Shown], other: Optional[Shown]) -> None:
        """Compares a frame of each; None is one that is not there."""
        self.counts[0] += one is not None
        self.counts[1] += other is not None
        if one is None or other is None:
            self.part(number, f"only {'B' if one is None else 'A'} has it")
            return
        self.frames += 1
        if isinstance(one, Missing) or isinstance(other, Missing):
            replies = [frame.reply if isinstance(frame, Missing) else None for frame in (one, other)]
            if replies[0] == replies[1]:
                self.same += 1
            else:
                have = [f"{name} has {reply}" for name, reply in zip("AB", replies) if reply is not None]
                self.part(number, " and ".join(have))
            return
        if one[:2] != other[:2]:
            self.part(number, f"A has {one[0]}x{one[1]} samples, B {other[0]}x{other[1]}")
            return
        self.compare(number, one, other)

    def compare(self, number: int, one: Picture, other: Picture) -> None:
        start = 0
        found: Optional[str] = None
        for name, plane, (width, height) in zip(PLANES, self.planes, sides(*one[:2])):
            end = start + width * height
            ours, theirs = (bytes(frame[2][start:end]) for frame in (one, other))
            place = plane.add(ours, theirs, width)
            if place is not None and found is None:
                column, row = place % width, place // width
                side = 16 if name == "Y" else 8
                found = (
                    f"plane {name}, column {column}, row {row} (macroblock {column // side}, {row // side}): "
                    f"{ours[place]} in A, {theirs[place]} in B"
                )
            start = end
        if found is None:
            self.same += 1
        else:
            if self.first is None:
                self.macroblock = first_macroblock(one, other)
            self.part(number, found, (one, other))

    @property
    def is_same(self) -> bool:
        return self.first is None

    def lines(self) -> Iterator[str]:
        """What is printed."""
        if self.is_same:
            yield f"{self.frames} frames, all the same"
            return
        yield f"first difference: {self.first}"
        if self.records and self.macroblock is not None:
            column, row = self.macroblock
            yield f"first macroblock that differs: {column}, {row}"
            yield from self.records
        if self.counts[0] != self.counts[1]:
            yield f"A has {self.counts[0]} frames, B has {self.counts[1]}"
        yield f"{self.frames - self.same} of {self.frames} frames differ"
        samples = sum(plane.samples for plane in self.planes)
        if not samples:
            return
        count, most = sum(plane.count for plane in self.planes), max(plane.most for plane in self.planes)
        yield f"{count} of {samples} samples differ, by {most} at most"
        words = [f"{name} {psnr(plane.squares, plane.samples):.2f}" for name, plane in zip(PLANES, self.planes)]
        yield f"PSNR {', '.join(words)}, all {psnr(sum(plane.squares for plane in self.planes), samples):.2f} dB"


def difference(one: Picture, other: Picture) -> bytes:
    """A grey picture: the greatest difference of each pixel's samples, made stronger."""
    width, height, _ = one
    frames = [frame_of(0, *picture) for picture in (one, other)]
    grey = bytearray(width * height)
    across = (width + 1) // 2
    planes = [[plane.tobytes() for plane in (frame.y, frame.u, frame.v)] for frame in frames]
    luma, cb, cr = ([abs(left - right) for left, right in zip(*pair)] for pair in zip(*planes))
    for row in range(height):
        for column in range(width):
            chroma = row // 2 * across + column // 2
            grey[row * width + column] = min(255, GAIN * max(luma[row * width + column], cb[chroma], cr[chroma]))
    return png.text_of(width, height, grey, 1)


def write_pair(folder: str, number: int, one: Picture, other: Picture) -> None:
    """Writes the pictures of two frames, and of their difference."""
    os.makedirs(folder, exist_ok=True)
    texts = {
        "a": png.of_frame(frame_of(0, *one)),
        "b": png.of_frame(frame_of(0, *other)),
        "difference": difference(one, other),
    }
    for name, text in texts.items():
        files.write_whole(os.path.join(folder, f"frame-{number}-{name}.png"), [text])


def damage_in(path: str) -> list[str]:
    """Sentences about the damage of a stream, or of the container that its packets are from."""
    item = Input(path)
    try:
        return item.damage()
    finally:
        item.close()


def compare(one: str, other: str, pictures: Optional[str] = None, tables: Optional[AnyPath] = None) -> Comparison:
    """Compares two streams, which are named, and returns the comparison."""
    if one == other == "-":
        raise ValueError("only one of the two can be standard input")
    found = Comparison()
    with rooms.Room() as folder:
        with opened(one, folder, tables) as (left, left_path), opened(other, folder, tables) as (right, right_path):
            for number, pair in enumerate(itertools.zip_longest(left, right)):
                found.add(number, *pair)
            found.damage = [text for path in (left_path, right_path) if path is not None for text in damage_in(path)]
        if found.macroblock is not None and found.pair is not None:
            for name, path in zip("AB", (left_path, right_path)):
                if path is None:
                    continue
                try:
                    said = record_at(path, found.pair[0], found.macroblock, tables)
                except (OSError, Ended) as error:
                    # The comparison holds without it.
                    said = f"no record: {error}"
                found.records.append(f"  {name}, {said}")
    if pictures is not None and found.pair is not None and found.pair[1] is not None:
        write_pair(pictures, found.pair[0], *found.pair[1])
    return found
