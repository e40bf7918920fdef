"""Frames, and reading them from the pipe that vp8serve writes them to."""

from __future__ import annotations

import os
from fractions import Fraction
from typing import TYPE_CHECKING, Any, Callable, NamedTuple, Optional, Union

from ..base.checks import AnyBytes
from ..media import colours, png
from ..media.y4m import MARK, parse_header, sides, size_of

try:
    import numpy
except ImportError:
    numpy = None  # type: ignore[assignment]  # Pictures are memoryviews then.

# A `Plane` has samples in rows.
if TYPE_CHECKING:
    from PIL.Image import Image

    Plane = Union["numpy.ndarray", memoryview]
else:
    Plane = memoryview if numpy is None else Union["numpy.ndarray", memoryview]


class Times(NamedTuple):
    """A time stamp and a duration, in units of `scale / rate` seconds."""

    pts: int
    duration: int
    rate: int
    scale: int


class Planes(NamedTuple):
    """The number of a frame, its size in luma samples, and its planes."""

    number: int
    width: int
    height: int
    y: Plane
    u: Plane
    v: Plane


class Frame(Planes):
    """A frame: its number, its size in luma samples, and its planes.

    A plane has a row of samples for each line: a numpy array if numpy is installed, else a memoryview, both of two
    dimensions. Rows of `u` and `v` have (width + 1) // 2 samples, and there are (height + 1) // 2 of them. Two frames
    are equal if their sizes and samples are.

    Its times are those of the packet that it comes from. They are looked up when one is read first: None if the session
    was edited or closed before.
    """

    # A `Times`, what finds one, or None.
    _times: Any = None

    def _timed(self) -> Optional[Times]:
        if callable(self._times):
            self._times = self._times()
        found: Optional[Times] = self._times
        return found

    @property
    def pts(self) -> Optional[int]:
        """The time stamp of the frame's packet, in units of `time_base`."""
        times = self._timed()
        return None if times is None else times.pts

    @property
    def duration(self) -> Optional[int]:
        """How long the packet is shown, in units of `time_base`: in its file up to the time stamp of the next shown
        packet.
        """
        times = self._timed()
        return None if times is None else times.duration

    @property
    def time_base(self) -> Optional[Fraction]:
        """The seconds of a unit of the time stamps of the frame's source."""
        times = self._timed()
        return None if times is None else Fraction(times.scale, times.rate)

    @property
    def time(self) -> Optional[float]:
        """The time stamp in seconds."""
        times = self._timed()
        return None if times is None else times.pts * times.scale / times.rate

    def __getstate__(self) -> dict[str, Optional[Times]]:
        return {"_times": self._timed()}

    def __eq__(self, other: object) -> bool:
        if not isinstance(other, Frame):
            return NotImplemented
        return (self.width, self.height) == (other.width, other.height) and self.i420() == other.i420()

    def __ne__(self, other: object) -> bool:
        return not self == other

    def __hash__(self) -> int:
        return hash((self.width, self.height, self.i420()))

    def __repr__(self) -> str:
        return f"<Frame {self.number}, {self.width}x{self.height}>"

    def i420(self) -> bytes:
        """The samples of the three planes, one after the other."""
        return b"".join(plane.tobytes() for plane in (self.y, self.u, self.v))

    def rgb(self, matrix: str = "601", full: bool = False) -> Plane:
        """The picture as red, green and blue: a numpy array or a memoryview of height x width x 3 bytes.

        `matrix` is "601" or "709" (ITU-R BT.601 or BT.709); with `full` luma has 0 to 255, else 16 to 235. Each chroma
        sample is that of the four luma samples that it covers.
        """
        return colours.rgb(self, matrix, full)

    def to_ndarray(self, format: str = "rgb24", matrix: str = "601", full: bool = False) -> Plane:
        """The picture as a numpy array: "rgb24" or "bgr24" of height x width x 3, "gray" (the luma samples) of height x
        width, or "yuv420p", rows of luma and then those of chroma, as PyAV and OpenCV have it; that has even sides
        only. `ImportError` without numpy."""
        if numpy is None:
            raise ImportError("to_ndarray needs numpy: install python3-numpy")
        if format in ("rgb24", "bgr24"):
            found: Any = numpy.asarray(self.rgb(matrix, full))
            return found if format == "rgb24" else numpy.ascontiguousarray(found[:, :, ::-1])
        if format == "gray":
            return numpy.asarray(self.y)
        if format != "yuv420p":
            raise ValueError(f'a format is "rgb24", "bgr24", "gray" or "yuv420p", and not {format!r}')
        if self.width % 2 or self.height % 2:
            raise ValueError(f"yuv420p has even sides, and the frame is {self.width}x{self.height}: take y, u and v")
        return numpy.frombuffer(self.i420(), numpy.uint8).reshape(self.height * 3 // 2, self.width)

    def to_image(self, matrix: str = "601", full: bool = False) -> "Image":
        """The picture as an image of Pillow. `ImportError` without it."""
        from PIL import Image

        return Image.frombytes("RGB", (self.width, self.height), self.rgb(matrix, full).tobytes())

    def _repr_png_(self) -> bytes:
        """The picture as notebooks show it."""
        return png.of_frame(self)


def frame_of(
    number: int,
    width: int,
    height: int,
    samples: AnyBytes,
    times: Union[Times, Callable[[], Optional[Times]], None] = None,
) -> Frame:
    """The frame of these samples, which are not copied, and its times or what finds them."""
    planes, start, view = [], 0, memoryview(samples)
    for across, down in sides(width, height):
        plane = view[start : start + across * down]
        if numpy is not None:
            planes.append(numpy.frombuffer(plane, numpy.uint8).reshape(down, across))
        else:
            planes.append(plane.cast("B", (down, across)))
        start += across * down
    frame = Frame(number, width, height, *planes)
    frame._times = times
    return frame


class FrameReader:
    """Takes the frames from the descriptor of a pipe, never more bytes than those of one frame."""

    def __init__(self, descriptor: int) -> None:
        self.descriptor = descriptor
        self.header = bytearray()
        self.size: Optional[tuple[int, int]] = None
        self.samples: Optional[memoryview] = None
        self.filled = 0

    @property
    def frame_size(self) -> int:
        """The number of bytes of a frame and its mark."""
        assert self.size is not None
        return len(MARK) + size_of(*self.size)

    def start(self) -> None:
        """Room for a frame, with its mark."""
        self.samples = memoryview(bytearray(self.frame_size))
        self.filled = 0

    def read(self) -> bool:
        """Reads what is there. False at the end of the pipe."""
        if self.size is None:
            return self.read_header()
        if self.samples is None:
            self.start()
        assert self.samples is not None
        count = os.readv(self.descriptor, [self.samples[self.filled :]])
        self.filled += count
        return count > 0

    def read_header(self) -> bool:
        """The header line is short and comes once, so it is read a byte at a time."""
        piece = os.read(self.descriptor, 1)
        self.header += piece
        if piece == b"\n":
            self.size = parse_header(bytes(self.header))
        return bool(piece)

    @property
    def is_whole(self) -> bool:
        """Whether a whole frame was read."""
        return self.samples is not None and self.filled == len(self.samples)

    def take(self) -> tuple[int, int, memoryview]:
        """The width, height and samples of the frame that was read."""
        samples, self.samples = self.samples, None
        assert samples is not None and self.size is not None
        if bytes(samples[: len(MARK)]) != MARK:
            raise ValueError("a frame does not begin with FRAME")
        return (*self.size, samples[len(MARK) :])
