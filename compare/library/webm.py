"""WebM files, written by a few lines that know nothing of a reader (RFC 8794, RFC 9559)."""

import struct

# The names of elements.
EBML, DOC_TYPE, SEGMENT, INFO, SCALE, TRACKS, ENTRY = (
    0x1A45DFA3,
    0x4282,
    0x18538067,
    0x1549A966,
    0x2AD7B1,
    0x1654AE6B,
    0xAE,
)
NUMBER, KIND, CODEC, DURATION, ENCODINGS, VIDEO, WIDTH, HEIGHT = 0xD7, 0x83, 0x86, 0x23E383, 0x6D80, 0xE0, 0xB0, 0xBA
CLUSTER, TIME, BLOCK = 0x1F43B675, 0xE7, 0xA3


def number(value):
    return value.to_bytes(max(1, (value.bit_length() + 7) // 8), "big")


def element(name, *parts):
    content = b"".join(parts)
    return number(name) + (len(content) | 1 << 56).to_bytes(8, "big") + content


def block(track, offset, packet):
    return element(BLOCK, bytes([0x80 | track]), struct.pack(">h", offset), b"\0", packet)


def cluster(track, frames):
    """A cluster that begins at the time of its first frame."""
    start = frames[0][0]
    return element(
        CLUSTER, element(TIME, number(start)), *[block(track, stamp - start, packet) for stamp, packet in frames]
    )


def webm(packets, stamps, *, kind=b"webm", codec=b"V_VP8", duration=None, scale=1_000_000, encoded=False, tracks=True):
    """A WebM file of one track, which has number 3. Clusters have up to ten packets."""
    video = element(VIDEO, element(WIDTH, number(176)), element(HEIGHT, number(144)))
    fields = [element(NUMBER, b"\3"), element(KIND, b"\1"), element(CODEC, codec), video]
    fields += [element(DURATION, number(duration))] if duration is not None else []
    fields += [element(ENCODINGS, element(0x6240, element(0x5031, b"\0")))] if encoded else []
    frames = list(zip(stamps, packets))
    parts = [element(INFO, element(SCALE, number(scale)))]
    parts += [element(TRACKS, element(ENTRY, *fields))] if tracks else []
    parts += [cluster(3, frames[at : at + 10]) for at in range(0, len(frames), 10)]
    return element(EBML, element(DOC_TYPE, kind)) + element(SEGMENT, *parts)
