"""IVF files, and the first bytes of packets (RFC 6386, section 9.1)."""

import struct

HEAD = struct.Struct("<4sHH4sHHIIII")
RECORD = struct.Struct("<IQ")


def ivf(width, height, packets, stamps=None):
    """A file of these packets, at 30 frames a second. Without `stamps` their time stamps count from 0."""
    records = zip(packets, range(len(packets)) if stamps is None else stamps)
    head = HEAD.pack(b"DKIF", 0, 32, b"VP80", width, height, 30, 1, len(packets), 0)
    return head + b"".join(RECORD.pack(len(packet), stamp) + packet for packet, stamp in records)


def records(text):
    """The time stamp and the bytes of each whole record."""
    (place,) = struct.unpack_from("<H", text, 6)
    while place + RECORD.size <= len(text):
        size, stamp = RECORD.unpack_from(text, place)
        if place + RECORD.size + size > len(text):
            return
        yield stamp, text[place + RECORD.size : place + RECORD.size + size]
        place += RECORD.size + size


def packets_of(text):
    """The bytes of each whole record."""
    return (packet for _, packet in records(text))


def has_key_tag(packet):
    return len(packet) >= 3 and packet[0] & 1 == 0


def is_shown(packet):
    return len(packet) < 3 or packet[0] & 16 != 0


def size_of(packet):
    """The width and the height of a key packet."""
    return [side & 0x3FFF for side in struct.unpack_from("<HH", packet, 6)]
