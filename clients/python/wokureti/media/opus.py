"""Packets of Opus (RFC 6716, section 3): how long they are, and silence."""

from __future__ import annotations

from ..base.checks import AnyBytes

# Nanoseconds of a frame, for each configuration: SILK in groups of four, hybrid in pairs, CELT in groups of four.
MS = 10**6
SILK, HYBRID, CELT = (10 * MS, 20 * MS, 40 * MS, 60 * MS), (10 * MS, 20 * MS), (5 * MS // 2, 5 * MS, 10 * MS, 20 * MS)
FRAMES = SILK * 3 + HYBRID * 2 + CELT * 4
# A frame of CELT that is silent, after the byte that says what is in the packet.
SILENT = b"\xff\xfe"


def duration(data: AnyBytes) -> int:
    """The nanoseconds of a packet; 0 if it is none."""
    if not data:
        return 0
    code = data[0] & 3
    count = (1, 2, 2, data[1] & 63 if code == 3 and len(data) > 1 else 0)[code]
    return count * FRAMES[data[0] >> 3]


def is_silk(data: AnyBytes) -> bool:
    """Whether a packet is of SILK, alone or with CELT for its higher frequencies."""
    return bool(data) and data[0] >> 3 < 16


def silence(length: int, channels: int) -> tuple[bytes, int]:
    """A silent packet of 2.5, 5, 10 or 20 ms, the longest one that is not longer than this, and its length."""
    place = max(place for place, frame in enumerate(CELT) if frame <= max(length, CELT[0]))
    return bytes([(28 + place) << 3 | (channels > 1) << 2]) + SILENT, CELT[place]


def pre_skip(private: bytes) -> int:
    """The nanoseconds that a decoder drops at the beginning, of the header OpusHead (RFC 7845, section 5.1)."""
    return int.from_bytes(private[10:12], "little") * 10**9 // 48000 if private[:8] == b"OpusHead" else 0


def is_plain(private: bytes) -> bool:
    """Whether the packets are of one stream, of one or two channels: only of these a silent packet is known here."""
    return len(private) < 19 or private[18] == 0
