"""YCbCr to red, green and blue (ITU-R BT.601 and BT.709), in integers: numpy and plain Python make the same bytes."""

from __future__ import annotations

from typing import TYPE_CHECKING, Any, Protocol, Sequence, Union

if TYPE_CHECKING:
    # Samples in rows.
    Plane = Union["numpy.ndarray", memoryview]
    Tables = Sequence[list[int]]

    class Frame(Protocol):
        """A frame as it is read here."""

        @property
        def width(self) -> int:
            ...

        @property
        def height(self) -> int:
            ...

        @property
        def y(self) -> Plane:
            ...

        @property
        def u(self) -> Plane:
            ...

        @property
        def v(self) -> Plane:
            ...

        def rgb(self, matrix: str, full: bool) -> Plane:
            ...


try:
    import numpy
except ImportError:
    numpy = None  # type: ignore[assignment]  # Integers of Python do the same.

# The weights of red and blue in luma.
WEIGHTS = {"601": (0.299, 0.114), "709": (0.2126, 0.0722)}
SHIFT = 16


def terms(matrix: str, full: bool) -> Tables:
    """For each of the 256 values: what luma adds to each colour, what Cr adds to red and green, and Cb to green and
    blue.
    """
    if matrix not in WEIGHTS:
        raise ValueError(f'matrix is "601" or "709", not {matrix!r}')
    red, blue = WEIGHTS[matrix]
    green = 1 - red - blue
    black, luma, chroma = (0, 255, 255) if full else (16, 219, 224)
    one, half = 1 << SHIFT, 1 << (SHIFT - 1)
    per_luma, per_chroma = 255 / luma * one, 255 / chroma * one
    lumas = [round((value - black) * per_luma) + half for value in range(256)]
    cr_red = [round((value - 128) * per_chroma * 2 * (1 - red)) for value in range(256)]
    cr_green = [round(-(value - 128) * per_chroma * 2 * (1 - red) * red / green) for value in range(256)]
    cb_green = [round(-(value - 128) * per_chroma * 2 * (1 - blue) * blue / green) for value in range(256)]
    cb_blue = [round((value - 128) * per_chroma * 2 * (1 - blue)) for value in range(256)]
    return lumas, cr_red, cr_green, cb_green, cb_blue


def with_numpy(frame: Frame, tables: Tables) -> Any:
    lumas, cr_red, cr_green, cb_green, cb_blue = (numpy.array(table, numpy.int32) for table in tables)

    def whole(plane: Any) -> Any:
        return plane.repeat(2, 0)[: frame.height].repeat(2, 1)[:, : frame.width]

    luma = lumas[frame.y]
    red = luma + whole(cr_red[frame.v])
    green = luma + whole(cr_green[frame.v] + cb_green[frame.u])
    blue = luma + whole(cb_blue[frame.u])
    mixed = numpy.stack((red, green, blue), axis=-1) >> SHIFT
    return numpy.clip(mixed, 0, 255).astype(numpy.uint8)


def plain(frame: Frame, tables: Tables) -> memoryview:
    lumas, cr_red, cr_green, cb_green, cb_blue = tables
    # Sums lie between -2 and 3 times 255 before they are clamped.
    low = 600
    clamp = bytes(max(0, min(255, value - low)) for value in range(1600))
    width, height = frame.width, frame.height
    luma, cb, cr = (plane.tobytes() for plane in (frame.y, frame.u, frame.v))
    across = (width + 1) // 2
    out = bytearray(3 * width * height)
    for row in range(height):
        chroma = row // 2 * across
        reds, greens, blues = bytearray(width), bytearray(width), bytearray(width)
        for column in range(width):
            place = chroma + column // 2
            light, red, blue = lumas[luma[row * width + column]], cr[place], cb[place]
            reds[column] = clamp[((light + cr_red[red]) >> SHIFT) + low]
            greens[column] = clamp[((light + cr_green[red] + cb_green[blue]) >> SHIFT) + low]
            blues[column] = clamp[((light + cb_blue[blue]) >> SHIFT) + low]
        start, end = 3 * row * width, 3 * (row + 1) * width
        out[start:end:3], out[start + 1 : end : 3], out[start + 2 : end : 3] = reds, greens, blues
    return memoryview(out).cast("B", (height, width, 3))


def rgb(frame: Frame, matrix: str, full: bool) -> Plane:
    """The bytes of a frame in red, green and blue."""
    tables = terms(matrix, full)
    pixels: Plane = plain(frame, tables) if numpy is None else with_numpy(frame, tables)
    return pixels
