"""IVF files of these streams: 30 frames a second, time stamps from 0."""

import struct

HEAD, RECORD = struct.Struct("<4sHH4sHHIIII"), struct.Struct("<IQ")


def write(path, size, packets):
    text = HEAD.pack(b"DKIF", 0, 32, b"VP80", *size, 30, 1, len(packets), 0)
    path.write_bytes(text + b"".join(RECORD.pack(len(packet), stamp) + packet for stamp, packet in enumerate(packets)))


def read(path):
    """The packets of a file."""
    text, place = path.read_bytes(), 32
    while place + RECORD.size <= len(text):
        size, _ = RECORD.unpack_from(text, place)
        yield text[place + RECORD.size : place + RECORD.size + size]
        place += RECORD.size + size
