"""YUV4MPEG2 texts of 4:2:0 frames of 8 bits: reading them from a file or a pipe, and their header and sizes."""

from __future__ import annotations

from typing import Generator, Protocol

from ..errors import NotY4m

# The chroma formats whose planes are those of I420; where the chroma samples lie differs, and is not looked at.
FORMATS = (b"C420jpeg", b"C420mpeg2", b"C420paldv", b"C420")
MOST_LINE = 1 << 12
MOST_SIDE = 1 << 15
# What is before the samples of a frame.
MARK = b"FRAME\n"


def sides(width: int, height: int) -> tuple[tuple[int, int], tuple[int, int], tuple[int, int]]:
    """The width and height of each plane of a frame."""
    half = ((width + 1) // 2, (height + 1) // 2)
    return ((width, height), half, half)


def size_of(width: int, height: int) -> int:
    """The number of samples of a frame."""
    return sum(across * down for across, down in sides(width, height))


def parse_header(line: bytes) -> tuple[int, int]:
    """The width and height in the first line of a YUV4MPEG2 text."""
    words = line.split()
    if not words or words[0] != b"YUV4MPEG2":
        raise ValueError(f"not the first line of YUV4MPEG2: {line[:80]!r}")
    found = {word[:1]: word[1:] for word in words[1:]}
    try:
        return int(found[b"W"]), int(found[b"H"])
    except (KeyError, ValueError):
        raise ValueError(f"no size in the first line of YUV4MPEG2: {line[:80]!r}") from None


def header_of(size: tuple[int, int], rate: tuple[int, int]) -> bytes:
    """The first line of the text, as vp8serve writes it."""
    return b"YUV4MPEG2 W%d H%d F%d:%d Ip C420jpeg\n" % (*size, *rate)


class Readable(Protocol):
    """A file that is read from its beginning on."""

    def readline(self, __most: int) -> bytes:
        ...

    def read(self, __size: int) -> bytes:
        ...


def read_line(file: Readable) -> bytes:
    line = file.readline(MOST_LINE)
    if line and not line.endswith(b"\n"):
        raise NotY4m("a line of the text has no end")
    return line


def read_frames(file: Readable) -> Generator[tuple[int, int, bytes], None, None]:
    """The width, height and samples of each frame."""
    line = read_line(file)
    try:
        width, height = parse_header(line)
    except ValueError as error:
        raise NotY4m(str(error)) from None
    chroma = [word for word in line.split() if word.startswith(b"C")]
    if chroma and chroma[0] not in FORMATS:
        raise NotY4m(f"frames of {chroma[0].decode(errors='replace')}, and not of 4:2:0 and 8 bits")
    if not (0 < width <= MOST_SIDE and 0 < height <= MOST_SIDE):
        raise NotY4m(f"frames of {width}x{height} samples")
    size, number = size_of(width, height), 0
    while True:
        line = read_line(file)
        if not line:
            return
        if line.split(b" ")[0].rstrip(b"\n") != b"FRAME":
            raise NotY4m(f"frame {number} does not begin with FRAME")
        samples = read_exactly(file, size)
        if len(samples) < size:
            raise NotY4m(f"frame {number} is cut off: {len(samples)} of {size} bytes")
        yield width, height, samples
        number += 1


def read_exactly(file: Readable, size: int) -> bytes:
    """So many bytes, or those that there are."""
    pieces, left = [], size
    while left:
        piece = file.read(left)
        if not piece:
            break
        pieces.append(piece)
        left -= len(piece)
    return b"".join(pieces)
