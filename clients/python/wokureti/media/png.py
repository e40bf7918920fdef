"""PNG files of 8 bits a colour (RFC 2083)."""

from __future__ import annotations

import struct
import zlib
from typing import TYPE_CHECKING, Union

if TYPE_CHECKING:
    from .colours import Frame


def chunk(kind: bytes, data: bytes) -> bytes:
    return struct.pack(">I", len(data)) + kind + data + struct.pack(">I", zlib.crc32(kind + data))


def text_of(width: int, height: int, samples: Union[bytes, bytearray, memoryview], channels: int = 3) -> bytes:
    """A PNG of these bytes: red, green and blue of each pixel, or one grey value."""
    across = width * channels
    view = memoryview(samples).cast("B")
    rows = b"".join(b"\0" + bytes(view[row * across : (row + 1) * across]) for row in range(height))
    head = struct.pack(">IIBBBBB", width, height, 8, 2 if channels == 3 else 0, 0, 0, 0)
    return b"\x89PNG\r\n\x1a\n" + chunk(b"IHDR", head) + chunk(b"IDAT", zlib.compress(rows, 3)) + chunk(b"IEND", b"")


# Bytes of a block of stored data.
BLOCK = 65535


def stored_size(width: int, height: int) -> int:
    """The size of a PNG of three bytes a pixel whose data are stored."""
    size = height * (1 + 3 * width)
    return 57 + 2 + 5 * max(1, -(-size // BLOCK)) + size + 4


def stored_text_of(width: int, height: int, samples: Union[bytes, bytearray, memoryview]) -> bytes:
    """A PNG of red, green and blue of each pixel, which is not deflated: its size is known before."""
    view = memoryview(samples).cast("B")
    rows = b"".join(b"\0" + bytes(view[row * 3 * width : (row + 1) * 3 * width]) for row in range(height))
    head = struct.pack(">IIBBBBB", width, height, 8, 2, 0, 0, 0)
    starts = range(0, len(rows), BLOCK)
    blocks = (
        struct.pack(
            "<BHH", start == starts[-1], len(rows[start : start + BLOCK]), 0xFFFF ^ len(rows[start : start + BLOCK])
        )
        + rows[start : start + BLOCK]
        for start in starts
    )
    data = b"\x78\x01" + b"".join(blocks) + struct.pack(">I", zlib.adler32(rows))
    return b"\x89PNG\r\n\x1a\n" + chunk(b"IHDR", head) + chunk(b"IDAT", data) + chunk(b"IEND", b"")


def of_frame(frame: Frame, matrix: str = "601", full: bool = False) -> bytes:
    """A PNG of a frame."""
    return text_of(frame.width, frame.height, frame.rgb(matrix, full).tobytes())
